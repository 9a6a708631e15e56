//! The kinds of figures compared, each with its own seeds.

use crate::columns::Columns;
use crate::comparison::{Comparison, Difference};
use crate::damage::{damaged_in_pairs, sums_at_limits};
use crate::draft::Draft;
use crate::figure_damage::{each_ceiling_count, each_head, each_link, each_link_count};
use crate::kinds::{hard, small};
use crate::rng::Rng;
use crate::values::Values::{self, Different, Extreme, Free};
use crate::writing::{cost_cut_calls, cut_calls, few_write_calls, write_calls};
use crate::yards::Layout::{Any, Connected};
use crate::yards::Recipe;
use Damage::{
    EachCut, EachHead, EachLink, EachLinkAndCut, EachLinkCount, EachPair, EachSum, Whole,
};

/// A kind of figures.
pub struct FigureKind {
    /// Its name in reports.
    pub name: &'static str,
    /// How many seeds are run.
    pub seeds: u64,
    /// The first seed.
    pub first_seed: u64,
    recipe: Recipe,
    damage: Damage,
}

/// What is done to the figures of a kind.
enum Damage {
    /// Nothing.
    Whole,
    /// Each number of ceilings in turn, and then each cut of the ends and of the costs.
    EachCut,
    /// Other stations, ceilings and ranks, many of them in turn.
    EachHead,
    /// Too many links, several numbers of them in turn.
    EachLinkCount,
    /// Wrong ends or costs on each link in turn.
    EachLink,
    /// A sum cost at or past a limit on each link in turn.
    EachSum,
    /// What `EachLink` and `EachSum` do in turn, and then each cut of the costs.
    EachLinkAndCut,
    /// Two things, each pair of them in turn.
    EachPair,
}

/// All kinds, legal figures first.
pub const FIGURE_KINDS: [FigureKind; 14] = [
    kind(51, "small", 1000, small(Any, Free), Whole),
    kind(52, "any size", 2000, any_size(Free), Whole),
    kind(53, "any size, extreme", 1000, any_size(Extreme), Whole),
    kind(54, "40 links", 100, hard(40, Different), Whole),
    kind(55, "40 links, columns cut", 20, hard(40, Free), EachCut),
    kind(56, "other heads", 2, small(Any, Free), EachHead),
    kind(57, "other heads, no links", 1, no_links(), EachHead),
    kind(58, "too many links", 3, hard(40, Free), EachLinkCount),
    kind(59, "wrong links", 20, hard(40, Free), EachLink),
    kind(60, "sums at the limits", 10, hard(40, Free), EachSum),
    kind(61, "damaged in pairs", 50, small(Connected, Free), EachPair),
    kind(
        62,
        "damaged in pairs, any size",
        20,
        any_size(Free),
        EachPair,
    ),
    kind(
        63,
        "damaged in pairs, 40 links",
        20,
        hard(40, Free),
        EachPair,
    ),
    kind(
        64,
        "wrong links, costs cut",
        40,
        small(Connected, Free),
        EachLinkAndCut,
    ),
];

const fn kind(
    number: u64,
    name: &'static str,
    seeds: u64,
    recipe: Recipe,
    damage: Damage,
) -> FigureKind {
    FigureKind {
        name,
        seeds,
        first_seed: number * 1_000_000,
        recipe: recipe.with_any_signs(),
        damage,
    }
}

const fn any_size(values: Values) -> Recipe {
    Recipe::new(1..=24, 0..=40, Any, values)
}

const fn no_links() -> Recipe {
    Recipe::new(1..=24, 0..=0, Any, Free)
}

impl FigureKind {
    /// Makes the figures of a seed, one or several.
    pub fn drafts(&self, rng: &mut Rng) -> Vec<Draft> {
        let draft = self.recipe.draft(rng);
        match self.damage {
            Whole => vec![draft],
            EachCut => each_ceiling_count(&draft),
            EachHead => each_head(&draft),
            EachLinkCount => each_link_count(&draft),
            EachLink => each_link(&draft, rng),
            EachSum => sums_at_limits(&draft),
            EachLinkAndCut => [each_link(&draft, rng), sums_at_limits(&draft)].concat(),
            EachPair => damaged_in_pairs(&draft, rng),
        }
    }

    /// Makes the calls on some of its figures.
    pub fn calls(
        &self,
        c: &mut Comparison,
        columns: &Columns,
        rng: &mut Rng,
    ) -> Result<(), Difference> {
        match self.damage {
            Whole => write_calls(c, columns, rng),
            EachCut => cut_calls(c, columns, rng),
            EachLinkAndCut => cost_cut_calls(c, columns, rng),
            EachHead | EachLinkCount | EachLink | EachSum | EachPair => {
                few_write_calls(c, columns, rng)
            }
        }
    }
}
