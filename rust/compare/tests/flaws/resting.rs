//! Planners that misread surveys with rest bytes, and are wrong about no other.

use crate::reading::Reading;
use compare::planner::Planner;
use compare::reduced::Reduced;
use peer::records::{YardRecord, COUNTED, PLAIN, RESTING, TWO_COSTS};
use peer::rest::REST_BYTES;
use peer::survey::{Yard, MAX_LINKS, MAX_STATIONS};
use peer::Refusal;

/// The bits of the stations at rest.
pub type RestBytes = [u8; REST_BYTES];

/// Whether a survey opens with a yard record that has rest bytes.
pub fn has_rest_bytes(survey: &[u8]) -> bool {
    YardRecord::of(survey).rest_at.is_some()
}

/// Whether a survey opens with the one that has at most two ceilings beside them.
pub fn is_resting(survey: &[u8]) -> bool {
    survey.starts_with(&RESTING.mark)
}

/// The rest bytes of a survey and its link records, if it has rest bytes.
fn parts(survey: &mut [u8]) -> Option<(&mut RestBytes, &mut [[u8; TWO_COSTS.bytes]])> {
    if !is_resting(survey) {
        return None;
    }
    let (front, links) = survey.split_at_mut_checked(RESTING.bytes)?;
    Some((front.last_chunk_mut()?, links.as_chunks_mut().0))
}

/// Whether the bit of a station is set.
fn rests(bytes: &RestBytes, station: u8) -> bool {
    let byte = bytes.get(usize::from(station / 8));
    byte.is_some_and(|byte| byte >> (station % 8) & 1 == 1)
}

/// Whether a link ends at no station at rest.
fn is_usable(bytes: &RestBytes, link: &[u8; TWO_COSTS.bytes]) -> bool {
    !rests(bytes, link[2]) && !rests(bytes, link[3])
}

/// Takes the rest bytes for others, which it makes of them and the number of stations.
pub fn taking_rest(taken: fn(RestBytes, u8) -> RestBytes) -> impl Planner {
    Reading(move |survey: &[u8]| {
        let mut survey = survey.to_vec();
        let stations = survey.get(2).copied().unwrap_or(0);
        if let Some((rest, _)) = parts(&mut survey) {
            *rest = taken(*rest, stations);
        }
        Ok(survey)
    })
}

/// The bytes in which those of the first stations, and no others, rest.
fn first_stations(stations: u8) -> RestBytes {
    let bits: u32 = (1 << stations.min(MAX_STATIONS as u8)) - 1;
    let [low, middle, high, _] = bits.to_le_bytes();
    [low, middle, high]
}

/// Clears the bits past the last station.
pub fn without_past(mut rest: RestBytes, stations: u8) -> RestBytes {
    for (byte, kept) in rest.iter_mut().zip(first_stations(stations)) {
        *byte &= kept;
    }
    rest
}

/// Takes all stations at rest for none.
pub fn none_of_all(rest: RestBytes, stations: u8) -> RestBytes {
    if rest == first_stations(stations) {
        return [0; REST_BYTES];
    }
    rest
}

/// Takes a set bit for a station that works, and the other way round.
pub fn turned_round(rest: RestBytes, stations: u8) -> RestBytes {
    without_past(rest.map(|byte| !byte), stations)
}

/// Takes each link that ends at a station at rest for another.
pub fn taking_unusable(taken: fn(&mut [u8; TWO_COSTS.bytes], &RestBytes)) -> impl Planner {
    Reading(move |survey: &[u8]| {
        let mut survey = survey.to_vec();
        if let Some((rest, links)) = parts(&mut survey) {
            let unusable = links.iter_mut().filter(|link| !is_usable(rest, link));
            unusable.for_each(|link| taken(link, rest));
        }
        Ok(survey)
    })
}

/// Does not test the mark of a link.
pub fn any_mark(link: &mut [u8; TWO_COSTS.bytes], _: &RestBytes) {
    link[..2].copy_from_slice(&TWO_COSTS.mark);
}

/// Does not test the other end of a link than the one at rest.
pub fn any_ends(link: &mut [u8; TWO_COSTS.bytes], rest: &RestBytes) {
    let at_rest = if rests(rest, link[2]) {
        link[2]
    } else {
        link[3]
    };
    link[2..4].copy_from_slice(&[at_rest, u8::from(at_rest == 0)]);
}

/// Does not test the costs of a link.
pub fn any_costs(link: &mut [u8; TWO_COSTS.bytes], _: &RestBytes) {
    link[4..].fill(0);
}

/// Compares the link count with the usable links.
pub fn counting_usable(survey: &[u8]) -> Result<Vec<u8>, Refusal> {
    let mut survey = survey.to_vec();
    if let Some((rest, links)) = parts(&mut survey) {
        let unusable = links.iter().filter(|link| !is_usable(rest, link)).count();
        survey[6] = (usize::from(survey[6]) + unusable).min(255) as u8;
    }
    Ok(survey)
}

/// Takes more than 40 links if no more than 40 are usable.
pub fn forty_usable(survey: &[u8]) -> Result<Vec<u8>, Refusal> {
    let mut survey = survey.to_vec();
    if let Some((rest, links)) = parts(&mut survey) {
        let usable = links.iter().filter(|link| is_usable(rest, link));
        let usable: Vec<[u8; TWO_COSTS.bytes]> = usable.copied().collect();
        let left_out = links.len() - usable.len();
        if links.len() > MAX_LINKS {
            survey[6] = survey[6].wrapping_sub(left_out as u8);
            survey.truncate(RESTING.bytes);
            survey.extend(usable.as_flattened());
        }
    }
    Ok(survey)
}

/// Numbers the usable links anew.
pub fn renumbering(survey: &[u8]) -> Result<Vec<u8>, Refusal> {
    match Yard::read(survey) {
        Ok(_) if is_resting(survey) => Ok(Reduced::of(survey, PLAIN).survey),
        _ => Ok(survey.to_vec()),
    }
}

/// Takes ranks up to the number of all stations less one, for which it lets all work.
pub fn ranks_by_all(survey: &[u8]) -> Result<Vec<u8>, Refusal> {
    let is_refused = Yard::read(survey).is_err_and(|refusal| refusal.number == 6);
    let working = all_working(survey);
    match Yard::read(&working) {
        Ok(_) if is_refused => Ok(working),
        _ => Ok(survey.to_vec()),
    }
}

/// The survey in which no station rests.
fn all_working(survey: &[u8]) -> Vec<u8> {
    let mut survey = survey.to_vec();
    if let Some((rest, _)) = parts(&mut survey) {
        rest.fill(0);
    }
    survey
}

/// Asks for the length that a survey has without rest bytes.
pub fn measured_as_counted(survey: &[u8]) -> Result<Vec<u8>, Refusal> {
    let links = survey.len().checked_sub(COUNTED.bytes);
    let is_measured = links.is_some_and(|bytes| bytes % TWO_COSTS.bytes == 0);
    if is_resting(survey) && !is_measured {
        return Err(Refusal::whole(1));
    }
    Ok(survey.to_vec())
}

/// Does not know the mark of the record with rest bytes.
pub fn without_resting_mark(survey: &[u8]) -> Result<Vec<u8>, Refusal> {
    let mut survey = survey.to_vec();
    if is_resting(&survey) {
        survey[..2].fill(0);
    }
    Ok(survey)
}

/// Whether a survey has rest bytes that are refused.
fn is_refused(survey: &[u8]) -> bool {
    let mut survey = survey.to_vec();
    let stations = survey.get(2).copied().unwrap_or(0);
    parts(&mut survey).is_some_and(|(rest, _)| {
        without_past(*rest, stations) != *rest || first_stations(stations) == *rest
    })
}

/// Gives 18 where another number that comes before it is due.
fn before(number: u8, survey: &[u8], refusal: Refusal) -> Refusal {
    match refusal.number == number && is_refused(survey) {
        true => Refusal::whole(18),
        false => refusal,
    }
}

/// Gives 18 only where no number up to another one is due.
fn after(number: u8, survey: &[u8], refusal: Refusal) -> Refusal {
    match Yard::read(&all_working(survey)) {
        Err(other) if refusal.number == 18 && other.number <= number => other,
        _ => refusal,
    }
}

/// Refusals in a wrong order.
pub const ORDERS: [fn(&[u8], Refusal) -> Refusal; 6] = [
    |survey, refusal| before(3, survey, refusal),
    |survey, refusal| before(4, survey, refusal),
    |survey, refusal| before(15, survey, refusal),
    |survey, refusal| after(5, survey, refusal),
    |survey, refusal| after(6, survey, refusal),
    |survey, refusal| after(8, survey, refusal),
];

/// Gives 18 the place of the first link.
pub fn with_place(_: &[u8], refusal: Refusal) -> Refusal {
    match refusal.number {
        18 => Refusal {
            place: 1,
            ..refusal
        },
        _ => refusal,
    }
}

/// Clears the list buffer with 18.
pub struct ClearedByRest;

impl Planner for ClearedByRest {
    fn list(&self, survey: &[u8], allowance: u32, buffer: &mut [u8]) -> Result<(), Refusal> {
        let reply = peer::list(survey, allowance, buffer);
        if reply.is_err_and(|refusal| refusal.number == 18) {
            buffer.fill(0);
        }
        reply
    }
}
