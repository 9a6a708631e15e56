//! Planners that refuse figures rightly, but by another number or at another place.

use compare::figure_reasons::breaks;
use compare::planner::Planner;
use compare::records::kind_of;
use compare::write_rules::Request;
use peer::records::PLAIN;
use peer::survey::MAX_LINKS;
use peer::{Figures, Refusal};

/// Refuses where the peer does, in its own way; it knows the request and the length of the output.
pub struct Refusing(pub fn(&Request, usize, Refusal) -> Refusal);

impl Planner for Refusing {
    fn write_survey(&self, kind: u32, figures: &Figures, survey: &mut [u8]) -> Result<(), Refusal> {
        let (room, figures) = (survey.len(), *figures);
        let request = Request { kind, figures };
        let reply = peer::write_survey(kind, &figures, survey);
        reply.map_err(|refusal| (self.0)(&request, room, refusal))
    }
}

/// Wrong refusals.
pub const WRITE_REFUSALS: [(&str, Refusing); 12] = [
    (
        "17 before the numbers of the reader",
        Refusing(|request, room, refusal| match request.record() {
            Some(_) if room < request.need() => Refusal::whole(17),
            _ => refusal,
        }),
    ),
    (
        "17 before 2",
        Refusing(|request, room, refusal| match request.record() {
            None if room < request.need() => Refusal::whole(17),
            _ => refusal,
        }),
    ),
    (
        "2 after the other numbers of the reader",
        Refusing(|request, _, refusal| match refusal.number {
            2 => refusal_of(&request.figures).unwrap_or(refusal),
            _ => refusal,
        }),
    ),
    (
        "3 after 4",
        Refusing(|request, _, refusal| match refusal.number {
            3 if request.figures.sums.len() > MAX_LINKS => Refusal::whole(4),
            _ => refusal,
        }),
    ),
    (
        "4 after 5",
        Refusing(|request, _, refusal| match refusal.number {
            4 if request.figures.ceilings > 2 => Refusal::whole(5),
            _ => refusal,
        }),
    ),
    (
        "4 after the numbers of links",
        Refusing(|request, _, refusal| match refusal.number {
            4 => {
                let sums = &request.figures.sums[..MAX_LINKS];
                let first = refusal_of(&Figures {
                    sums,
                    ..request.figures
                });
                first.filter(|first| first.place > 0).unwrap_or(refusal)
            }
            _ => refusal,
        }),
    ),
    (
        "7 after 8",
        Refusing(|request, _, refusal| match refusal.number {
            7 if breaks_at(refusal.place, 8, request) => Refusal {
                number: 8,
                ..refusal
            },
            _ => refusal,
        }),
    ),
    (
        "7 of a later link before 8",
        Refusing(|request, _, refusal| {
            let mut later = refusal.place..=request.figures.sums.len() as u8;
            match refusal.number {
                8 => {
                    let place = later.find(|&place| breaks_at(place, 7, request));
                    place.map_or(refusal, |place| Refusal { number: 7, place })
                }
                _ => refusal,
            }
        }),
    ),
    (
        "a place one too low",
        Refusing(|_, _, refusal| Refusal {
            place: refusal.place.saturating_sub(1),
            ..refusal
        }),
    ),
    (
        "a place one too high",
        Refusing(|_, _, refusal| Refusal {
            place: refusal.place + u8::from(refusal.place > 0),
            ..refusal
        }),
    ),
    (
        "17 with a place",
        Refusing(|_, _, refusal| Refusal {
            place: refusal.place.max(u8::from(refusal.number == 17)),
            ..refusal
        }),
    ),
    (
        "9 for 17",
        Refusing(|_, _, refusal| match refusal.number {
            17 => Refusal::whole(9),
            _ => refusal,
        }),
    ),
];

/// The refusal of figures by a number of the reader, if there is one.
pub fn refusal_of(figures: &Figures) -> Option<Refusal> {
    let refusal = peer::write_survey(kind_of(PLAIN), figures, &mut []).err();
    refusal.filter(|refusal| refusal.number != 17)
}

/// Whether the link of a place breaks a rule of some number.
fn breaks_at(place: u8, number: u8, request: &Request) -> bool {
    breaks(number, &request.figures, usize::from(place) - 1)
}
