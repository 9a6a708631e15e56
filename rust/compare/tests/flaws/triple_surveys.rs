//! Planners that misread surveys with three ceilings, or take others for such.

use crate::reading::Reading;
use compare::planner::Planner;
use compare::positions::Counted;
use peer::records::{YardRecord, RESTING, THREE_COSTS, TRIPLE, TWO_COSTS};
use peer::survey::{Yard, MAX_POSITIONS};
use peer::Refusal;

/// Whether a survey opens with the yard record that has three ceilings.
pub fn is_triple(survey: &[u8]) -> bool {
    survey.starts_with(&TRIPLE.mark)
}

/// The bytes of a link record with three costs.
pub type LinkBytes = [u8; THREE_COSTS.bytes];

/// Takes the yard record and the links of a survey with three ceilings for others.
pub fn taking_triple(taken: fn(&mut [u8; TRIPLE.bytes], &mut [LinkBytes])) -> impl Planner {
    Reading(move |survey: &[u8]| {
        let mut survey = survey.to_vec();
        if let (true, Some((front, links))) = (is_triple(survey.as_slice()), split(&mut survey)) {
            taken(front, links);
        }
        Ok(survey)
    })
}

fn split(survey: &mut [u8]) -> Option<(&mut [u8; TRIPLE.bytes], &mut [LinkBytes])> {
    let (front, links) = survey.split_first_chunk_mut()?;
    Some((front, links.as_chunks_mut().0))
}

/// Takes the ranks of a survey with three ceilings for others.
pub fn taking_ranks(survey: &[u8], taken: fn([u8; 3]) -> [u8; 3]) -> Result<Vec<u8>, Refusal> {
    let mut survey = survey.to_vec();
    if let (true, Some(ranks)) = (is_triple(&survey), survey.clone().get(4..7)) {
        survey[4..7].copy_from_slice(&taken([ranks[0], ranks[1], ranks[2]]));
    }
    Ok(survey)
}

/// Takes a third rank above t for t.
pub fn third_rank_above_t(survey: &[u8]) -> Result<Vec<u8>, Refusal> {
    let is_refused = Yard::read(survey).is_err_and(|refusal| refusal.number == 6);
    let lower = taking_ranks(survey, |[k1, k2, k3]| [k1, k2, k3.min(1)])?;
    match Yard::read(&lower) {
        Ok(_) if is_refused => Ok(lower),
        _ => Ok(survey.to_vec()),
    }
}

/// Asks for another length of the yard record or of the links.
pub fn measured_by(
    survey: &[u8],
    yard_bytes: usize,
    link_bytes: usize,
) -> Result<Vec<u8>, Refusal> {
    let links = survey.len().checked_sub(yard_bytes);
    let is_measured = links.is_some_and(|bytes| bytes % link_bytes == 0);
    match is_triple(survey) && !is_measured {
        true => Err(Refusal::whole(1)),
        false => Ok(survey.to_vec()),
    }
}

/// Does not know the mark of the record with three ceilings.
pub fn without_triple_mark(survey: &[u8]) -> Result<Vec<u8>, Refusal> {
    let mut survey = survey.to_vec();
    if is_triple(&survey) {
        survey[..2].fill(0);
    }
    Ok(survey)
}

/// Reads at most two ceilings from the record with three as if it were the resting one.
pub fn fewer_ceilings(survey: &[u8]) -> Result<Vec<u8>, Refusal> {
    match survey {
        [_, _, _, 0..=2, ..] if is_triple(survey) && survey.len() >= TRIPLE.bytes => {
            let (front, links) = survey.split_at(TRIPLE.bytes);
            let mut fewer = [&RESTING.mark, &front[2..6], &front[7..]].concat();
            for link in links.chunks_exact(THREE_COSTS.bytes) {
                fewer.extend(TWO_COSTS.mark);
                fewer.extend(&link[2..TWO_COSTS.bytes]);
            }
            Ok(fewer)
        }
        _ => Ok(survey.to_vec()),
    }
}

/// Takes three ceilings in a record that has room for two: the third is without a limit.
pub fn three_of_two(survey: &[u8]) -> Result<Vec<u8>, Refusal> {
    let mut survey = survey.to_vec();
    if !is_triple(&survey) && survey.get(3) == Some(&3) {
        survey[3] = 2;
    }
    Ok(survey)
}

/// Takes a link mark of the other size for the right one.
pub fn marks_of_either_size(survey: &[u8]) -> Result<Vec<u8>, Refusal> {
    let record = YardRecord::of(survey);
    let mut survey = survey.to_vec();
    if let Some(links) = survey.get_mut(record.bytes..) {
        for link in links.chunks_exact_mut(record.link.bytes) {
            if [TWO_COSTS.mark, THREE_COSTS.mark].contains(&[link[0], link[1]]) {
                link[..2].copy_from_slice(&record.link.mark);
            }
        }
    }
    Ok(survey)
}

/// Has another limit of positions. Where there are too many for the planner that it goes by, it
/// takes all first and second costs for 0.
pub fn positions_up_to(most: usize, survey: &[u8]) -> Result<Vec<u8>, Refusal> {
    let positions = Counted::of(survey).map_or(0, |counted| counted.usable);
    match Yard::read(survey) {
        Ok(_) if positions > most => Err(Refusal::whole(19)),
        Err(Refusal { number: 19, .. }) if positions <= most => Ok(fewer_positions(survey)),
        _ => Ok(survey.to_vec()),
    }
}

/// The survey with first and second costs of 0, so that there are few positions.
fn fewer_positions(survey: &[u8]) -> Vec<u8> {
    let mut survey = survey.to_vec();
    for link in survey[TRIPLE.bytes..].chunks_exact_mut(THREE_COSTS.bytes) {
        link[8..12].fill(0);
    }
    survey
}

/// Counts the positions by all links.
pub fn positions_of_all(survey: &[u8]) -> Result<Vec<u8>, Refusal> {
    let over = Counted::of(survey).filter(|counted| counted.all > MAX_POSITIONS);
    match Yard::read(survey) {
        Ok(_) if over.is_some() => Err(Refusal::whole(19)),
        _ => Ok(survey.to_vec()),
    }
}

/// Gives 19 where a number of the links is due.
pub fn before_links(survey: &[u8], refusal: Refusal) -> Refusal {
    let over = Counted::of(survey).filter(|counted| counted.usable > MAX_POSITIONS);
    match refusal.place > 0 && over.is_some() {
        true => Refusal::whole(19),
        false => refusal,
    }
}

/// Gives 19 the place of the first link.
pub fn with_place(_: &[u8], refusal: Refusal) -> Refusal {
    let place = refusal.place + u8::from(refusal.number == 19);
    Refusal { place, ..refusal }
}
