//! The walk over the positions (Algorithm 1), with marks and an allowance.

use crate::kruskal::Solver;
use crate::plan::Plan;
use crate::positions::{Marks, Position, Positions};
use crate::records::MAX_CEILINGS;
use crate::survey::Yard;

/// The plans of a walk and its solved count.
pub struct Walk {
    /// How many positions were solved.
    pub solved: u32,
    /// The plans that no other beats, in list order.
    pub plans: Vec<Plan>,
}

impl Walk {
    /// Walks a yard; none if the solved count would pass the allowance.
    pub fn of(yard: &Yard, positions: &Positions, allowance: u32) -> Option<Walk> {
        let mut walk = Walk {
            solved: 0,
            plans: Vec::with_capacity(positions.count()),
        };
        walk.solve_all(&Solver::new(yard), positions, allowance)?;
        walk.plans.sort_unstable_by_key(|plan| plan.costs);
        walk.drop_beaten(positions);
        Some(walk)
    }

    fn solve_all(&mut self, solver: &Solver, positions: &Positions, allowance: u32) -> Option<()> {
        let mut marks = Marks::none(positions);
        for row in 0..marks.row_count() {
            while let Some(position) = marks.first_unmarked(row) {
                if self.solved == allowance {
                    return None;
                }
                self.solved += 1;
                let end = self.solve(solver, positions, position);
                marks.mark(position, end);
            }
        }
        Some(())
    }

    /// Solves a position; gives the one through which positions are to be marked.
    fn solve(&mut self, solver: &Solver, positions: &Positions, position: Position) -> Position {
        match solver.best(positions.bounds(position)) {
            Some(plan) => {
                self.plans.push(plan);
                positions.position_of(plan.costs.ceilings)
            }
            None => positions.end(),
        }
    }

    /// Drops repeats and dominated vectors out of the sorted plans.
    ///
    /// A plan is beaten if a plan before it has no ceiling cost above.
    fn drop_beaten(&mut self, positions: &Positions) {
        let mut beaten = Marks::none(positions);
        self.plans.retain(|plan| {
            let position = positions.position_of(plan.costs.ceilings);
            let stays = !beaten.has(position);
            if stays {
                beaten.mark([0; MAX_CEILINGS], position);
            }
            stays
        });
    }
}
