//! The kinds of surveys compared, each with its own seeds.

use crate::comparison::{Comparison, Difference};
use crate::damage::{cuts, cuts_and_flips, damaged, damaged_in_pairs, sums_at_limits};
use crate::draft::Draft;
use crate::position_calls::calls_on_too_many;
use crate::positions::Counted;
use crate::rng::Rng;
use crate::round::{all_calls, few_calls};
use crate::value_counts::{each_value_count, with_last_link_wrong};
use crate::values::Values::{self, Different, Extreme, Free, Opposed, Tied};
use crate::yards::Layout::{self, Any, Connected, Disconnected};
use crate::yards::Recipe;
use peer::records::{YardRecord, COUNTED, RESTING, TRIPLE};
use peer::survey::MAX_POSITIONS;
use Damage::{Each, EachCut, EachPair, EachPositions, EachSum, LastLink, Random, Whole};

/// A kind of surveys.
pub struct Kind {
    /// Its name in reports.
    pub name: &'static str,
    /// How many seeds are run.
    pub seeds: u64,
    /// The first seed.
    pub first_seed: u64,
    recipe: Recipe,
    damage: Damage,
}

/// What is done to the surveys of a kind.
enum Damage {
    /// Nothing.
    Whole,
    /// One to four things at random.
    Random,
    /// Each cut and each bit in turn.
    Each,
    /// A sum cost at or past a limit on each link in turn.
    EachSum,
    /// Two things to the fields, each pair of them in turn.
    EachPair,
    /// Each cut in turn.
    EachCut,
    /// Each of some numbers of values of the ceilings in turn.
    EachPositions,
    /// Each field of the last link in turn.
    LastLink,
}

/// All kinds, legal surveys first.
pub const KINDS: [Kind; 35] = [
    legal(1, "small", 3000, small(Any, Free)),
    legal(2, "small, connected", 3000, small(Connected, Free)),
    legal(3, "small, opposed", 3000, small(Connected, Opposed)),
    legal(4, "small, tied", 7000, small(Connected, Tied)),
    legal(5, "small, extreme", 3000, small(Connected, Extreme)),
    legal(6, "large", 2500, large(Connected, Free)),
    legal(7, "large, tied", 2500, large(Connected, Tied)),
    legal(8, "large, extreme", 2500, large(Connected, Extreme)),
    legal(9, "disconnected", 2000, large(Disconnected, Free)),
    legal(10, "40 links, different", 600, hard(40, Different)),
    legal(11, "40 links, opposed", 600, hard(40, Opposed)),
    legal(15, "24 stations, 24 links", 100, exact(24, 24, Opposed)),
    legal(16, "24 stations, 24 links, tied", 100, exact(24, 24, Tied)),
    legal(17, "24 stations, 25 links", 100, exact(24, 25, Opposed)),
    legal(18, "24 stations, 25 links, tied", 100, exact(24, 25, Tied)),
    legal(19, "3 stations, 40 links", 100, exact(3, 40, Opposed)),
    legal(20, "3 stations, 40 links, tied", 100, exact(3, 40, Tied)),
    kind(12, "damaged", 250_000, small(Any, Free), Random),
    kind(13, "tied, damaged", 250_000, small(Any, Tied), Random),
    kind(14, "cut or flipped", 100, small(Connected, Tied), Each),
    kind(21, "sums at the limits", 20, hard(40, Free), EachSum),
    kind(22, "damaged in pairs", 100, small(Any, Free), EachPair),
    with(
        COUNTED,
        kind(23, "counted, cut", 3, hard(40, Free), EachCut),
    ),
    with(
        RESTING,
        kind(24, "resting, cut", 3, hard(40, Free), EachCut),
    ),
    with(
        RESTING,
        kind(
            25,
            "resting, damaged in pairs",
            40,
            large(Any, Tied),
            EachPair,
        ),
    ),
    triple(legal(26, "triple, few links", 3000, few_links(Free))),
    triple(legal(27, "triple, few links, tied", 5000, few_links(Tied))),
    triple(legal(28, "triple, 40 links", 60, hard(40, Opposed))),
    triple(kind(29, "triple, damaged", 50_000, few_links(Free), Random)),
    triple(kind(30, "triple, cut", 3, hard(40, Free), EachCut)),
    triple(kind(
        71,
        "triple, damaged in pairs",
        40,
        large(Any, Tied),
        EachPair,
    )),
    triple(kind(
        72,
        "positions at the limit",
        5,
        hard(40, Free).with_rest(u8::MAX),
        EachPositions,
    )),
    triple(kind(
        73,
        "positions of usable links",
        10,
        hard(30, Free).with_rest(u8::MAX),
        EachPositions,
    )),
    triple(kind(
        74,
        "too many positions, last link",
        50,
        hard(40, Different).with_any_values(),
        LastLink,
    )),
    triple(kind(
        75,
        "too many positions, damaged in pairs",
        10,
        hard(40, Different).with_any_values(),
        EachPair,
    )),
];

const fn legal(number: u64, name: &'static str, seeds: u64, recipe: Recipe) -> Kind {
    kind(number, name, seeds, recipe, Whole)
}

const fn kind(number: u64, name: &'static str, seeds: u64, recipe: Recipe, damage: Damage) -> Kind {
    Kind {
        name,
        seeds,
        first_seed: number * 1_000_000,
        recipe: recipe.with_any_signs().with_any_record(),
        damage,
    }
}

/// The kind with the same yard record in each survey.
const fn with(record: YardRecord, kind: Kind) -> Kind {
    let recipe = kind.recipe.with_record(record);
    Kind { recipe, ..kind }
}

/// The kind with three ceilings in each survey.
const fn triple(kind: Kind) -> Kind {
    with(TRIPLE, kind)
}

impl Kind {
    /// The yard records that its surveys have as they are made.
    pub fn records(&self) -> Vec<YardRecord> {
        self.recipe.records()
    }

    /// Whether its surveys are legal as they are made.
    pub fn is_legal(&self) -> bool {
        matches!(self.damage, Whole)
    }

    /// Makes the surveys of a seed, one or several.
    pub fn surveys(&self, rng: &mut Rng) -> Vec<Vec<u8>> {
        let draft = self.recipe.draft(rng);
        match self.damage {
            Whole => vec![draft.bytes()],
            Random => vec![damaged(draft, rng)],
            Each => cuts_and_flips(&draft.bytes()),
            EachSum => bytes_of(&sums_at_limits(&draft)),
            EachPair => bytes_of(&damaged_in_pairs(&draft, rng)),
            EachCut => cuts(&draft.bytes()),
            EachPositions => bytes_of(&each_value_count(&draft, rng)),
            LastLink => bytes_of(&with_last_link_wrong(&draft)),
        }
    }

    /// Makes the calls on one of its surveys; gives the list of one that is meant to be legal.
    pub fn calls(
        &self,
        c: &mut Comparison,
        survey: &[u8],
        rng: &mut Rng,
    ) -> Result<Option<Vec<u8>>, Difference> {
        match self.damage {
            Whole => all_calls(c, survey, rng).map(Some),
            EachPositions if has_too_many_positions(survey) => {
                calls_on_too_many(c, survey, rng).map(|()| None)
            }
            EachPositions => all_calls(c, survey, rng).map(Some),
            Random | Each | EachSum | EachPair | EachCut | LastLink => {
                few_calls(c, survey, rng).map(|()| None)
            }
        }
    }
}

fn has_too_many_positions(survey: &[u8]) -> bool {
    Counted::of(survey).is_some_and(|counted| counted.usable > MAX_POSITIONS)
}

fn bytes_of(drafts: &[Draft]) -> Vec<Vec<u8>> {
    drafts.iter().map(Draft::bytes).collect()
}

/// Yards small enough to list all trees.
pub const fn small(layout: Layout, values: Values) -> Recipe {
    Recipe::new(1..=6, 0..=9, layout, values)
}

/// Yards of at least two stations, small enough to list all trees.
const fn few_links(values: Values) -> Recipe {
    Recipe::new(2..=6, 0..=9, Any, values)
}

/// Yards of any legal size.
pub const fn large(layout: Layout, values: Values) -> Recipe {
    Recipe::new(2..=24, 0..=40, layout, values)
}

/// Connected yards of that many links.
pub const fn hard(links: i64, values: Values) -> Recipe {
    Recipe::new(6..=24, links..=links, Connected, values)
}

/// Connected yards of that many stations and links.
pub const fn exact(stations: i64, links: i64, values: Values) -> Recipe {
    Recipe::new(stations..=stations, links..=links, Connected, values)
}
