//! The planner of the radio links of bee yards, for Rust callers.
//!
//! The planner itself is proved and comes as an archive. [`judge`], [`best`], [`list`], [`fetch`],
//! [`index`], [`index_lookup`], [`write_survey`] and [`small_survey`] are its calls on slices: they
//! allocate nothing and take any bytes and figures. [`Yard`], [`Survey`], [`Plan`], [`PlanList`],
//! [`PlanIndex`] and [`SmallSurveys`] are the same calls on values.
//!
//! A yard has stations and links between them; some stations may rest. A plan is a tree: it connects
//! all working stations without a ring, by links that end at none that rests. Its sum is taken over
//! its links, of which some may give charge back and count below 0; each of its ceiling costs, up to
//! three, is the k-th largest of that cost over its links.
//!
//! ```
//! use ranqustei::{Cause, Link, Yard};
//!
//! // Three stations, one ceiling of rank 1; each link with its ends, its sum and its ceiling cost.
//! let links = [
//!     Link::new([0, 1], 4, [7]),
//!     Link::new([1, 2], 3, [2]),
//!     Link::new([0, 2], 1, [9]),
//! ];
//! let survey = Yard::new(3, [1], links).survey()?;
//!
//! // Every plan that no other plan beats.
//! let plans = survey.plans()?;
//! let lines: Vec<String> = plans.iter().map(|plan| plan.to_string()).collect();
//! assert_eq!(lines, ["4 9 links 1 2", "7 7 links 0 1"]);
//! assert_eq!(plans.solved(), 3);
//!
//! // The same plans by rising ceiling cost, and the cheapest up to a value of it.
//! let index = plans.index()?;
//! let numbers: Vec<u32> = index.iter().map(|(number, _)| number).collect();
//! assert_eq!(numbers, [1, 0]);
//! let (number, plan) = index.cheapest(8)?;
//! assert_eq!((number, plan.to_string()), (1, "7 7 links 0 1".to_string()));
//!
//! // The best plan under a bound, or a plain none.
//! assert_eq!(survey.best([8, 0, 0])?.to_string(), "7 7 links 0 1");
//! assert_eq!(survey.best([6, 0, 0]).map_err(|refusal| refusal.cause()), Err(Cause::NoTree));
//!
//! // The costs of a drawn plan.
//! let drawn = survey.judge(&[0, 2])?;
//! assert_eq!((drawn.costs.sum, drawn.ceiling_costs()), (5, vec![9]));
//! # Ok::<(), Box<dyn std::error::Error>>(())
//! ```
//!
//! The same on bytes that the caller lends:
//!
//! ```
//! let survey = b"YD\x03\x01\x01\x00\
//!     LK\x00\x01\x04\x00\x00\x00\x07\x00\x00\x00\
//!     LK\x01\x02\x03\x00\x00\x00\x02\x00\x00\x00\
//!     LK\x00\x02\x01\x00\x00\x00\x09\x00\x00\x00";
//! let mut buffer = [0; 46];
//! ranqustei::list(survey, 3, &mut buffer)?;
//! assert_eq!(ranqustei::fetch(&buffer, 1)?, [0, 1]);
//! let mut index = [0; 4];
//! ranqustei::index(&buffer, &mut index)?;
//! assert_eq!(index, [1, 0, 0, 0]);
//! assert_eq!(ranqustei::index_lookup(&buffer, &index, 8)?, 1);
//! assert_eq!(ranqustei::judge(survey, &[0, 2])?.sum, 5);
//! # Ok::<(), ranqustei::Refusal>(())
//! ```

#![deny(
    clippy::unwrap_used,
    clippy::expect_used,
    clippy::panic,
    clippy::indexing_slicing
)]

#[allow(unsafe_code)]
mod archive;
mod figures;
mod plan;
mod plan_index;
mod plan_list;
mod record;
mod refusal;
mod rest;
mod small_surveys;
mod survey;
mod yard;

pub use archive::{best, fetch, index, index_lookup, judge, list, small_survey, write_survey};
pub use figures::Figures;
pub use plan::{Costs, Plan, CEILINGS};
pub use plan_index::PlanIndex;
pub use plan_list::PlanList;
pub use ranqustei_sys::{SMALL_SURVEYS, SMALL_SURVEY_BYTES};
pub use record::YardRecord;
pub use refusal::{Cause, Refusal};
pub use small_surveys::{small_surveys, SmallSurveys};
pub use survey::Survey;
pub use yard::{Link, Yard, YardError};
