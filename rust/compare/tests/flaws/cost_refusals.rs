//! Planners that refuse figures with a missing cost rightly, but by another number or at another
//! place.

use crate::figures::fill_costs;
use crate::write_refusals::{refusal_of, Refusing};
use compare::columns::Columns;
use compare::link_figures::{costs_of, first_without_cost, lacks_cost};
use compare::write_rules::Request;
use peer::Refusal;

/// Wrong refusals.
pub const COST_REFUSALS: [(&str, Refusing); 10] = [
    (
        "8 for a missing cost before 7",
        Refusing(|request, _, refusal| match refusal.number {
            7 if lacks_cost(&request.figures, link_of(refusal)) => Refusal {
                number: 8,
                ..refusal
            },
            _ => refusal,
        }),
    ),
    (
        "a missing cost before the links in front of it",
        Refusing(|request, _, refusal| {
            let missing = first_without_cost(&request.figures).filter(|_| refusal.place > 0);
            missing.map_or(refusal, |link| Refusal::at_link(link, 8))
        }),
    ),
    (
        "a missing cost after the links behind it",
        Refusing(|request, _, refusal| {
            let mut filled = Columns::copy_of(&request.figures);
            fill_costs(&mut filled, 0);
            refusal_of(&filled.figures()).map_or(refusal, |other| instead(request, refusal, other))
        }),
    ),
    (
        "17 before a missing cost",
        Refusing(|request, room, refusal| match room < request.need() {
            true => instead(request, refusal, Refusal::whole(17)),
            false => refusal,
        }),
    ),
    (
        "7 for a missing cost",
        Refusing(|request, _, refusal| {
            let number = 7;
            instead(request, refusal, Refusal { number, ..refusal })
        }),
    ),
    (
        "a missing cost without a place",
        Refusing(|request, _, refusal| instead(request, refusal, Refusal::whole(8))),
    ),
    (
        "a missing cost at the link before",
        Refusing(|request, _, refusal| {
            let place = refusal.place.max(2) - 1;
            instead(request, refusal, Refusal { place, ..refusal })
        }),
    ),
    (
        "a missing cost at the link after",
        Refusing(|request, _, refusal| {
            let place = refusal.place + 1;
            instead(request, refusal, Refusal { place, ..refusal })
        }),
    ),
    (
        "a missing cost at the last link",
        Refusing(|request, _, refusal| {
            let place = request.figures.sums.len() as u8;
            instead(request, refusal, Refusal { place, ..refusal })
        }),
    ),
    (
        "a missing c2 at the link after",
        Refusing(|request, _, refusal| {
            let has_first =
                refusal.place > 0 && costs_of(&request.figures, link_of(refusal))[0].is_some();
            let place = refusal.place + u8::from(has_first);
            instead(request, refusal, Refusal { place, ..refusal })
        }),
    ),
];

/// The link of a refusal at one.
fn link_of(refusal: Refusal) -> usize {
    usize::from(refusal.place) - 1
}

/// Another refusal in the place of one for a missing cost.
fn instead(request: &Request, refusal: Refusal, other: Refusal) -> Refusal {
    match refusal.number {
        8 if lacks_cost(&request.figures, link_of(refusal)) => other,
        _ => refusal,
    }
}
