//! The calls of the proved archive, as `c/ranqustei.h` declares them: `ranqustei` makes them safe.
//!
//! The calls keep no state and never fail. They take any bytes and any numbers.

#![allow(unsafe_code)]

/// The version of what is declared here; [`ranqustei_version`] is the archive's own.
pub const VERSION: u32 = 9;

/// The number of small surveys.
pub const SMALL_SURVEYS: u32 = 1728;

/// The bytes of each small survey.
pub const SMALL_SURVEY_BYTES: usize = 42;

/// The figures of a yard record that is written.
#[repr(C)]
#[derive(Clone, Copy, PartialEq, Eq, Debug)]
pub struct Yard {
    /// The stations.
    pub n: u8,
    /// The ceilings.
    pub p: u8,
    /// The rank of the first ceiling.
    pub k1: u8,
    /// The rank of the second ceiling.
    pub k2: u8,
}

/// The reply of the list call, of the index call, of writing and of the small surveys: number 0 and
/// place 0, or the refusal and its place.
#[repr(C)]
#[derive(Clone, Copy, PartialEq, Eq, Debug)]
pub struct Status {
    /// The number.
    pub number: u8,
    /// The place.
    pub place: u8,
}

/// The reply of the judge and of the ceilings question: number 0, place 0 and a plan's costs, or
/// the refusal and its place with costs 0.
#[repr(C)]
#[derive(Clone, Copy, PartialEq, Eq, Debug)]
pub struct Reply {
    /// The number.
    pub number: u8,
    /// The place.
    pub place: u8,
    /// The plan's sum.
    pub sum: i32,
    /// The first ceiling cost.
    pub y1: i16,
    /// The second ceiling cost.
    pub y2: i16,
    /// The third ceiling cost.
    pub y3: i16,
}

/// The reply of fetching: number 0 and the part of the list that holds a plan's links, or the
/// refusal with an empty part from 0 on.
#[repr(C)]
#[derive(Clone, Copy, PartialEq, Eq, Debug)]
pub struct Part {
    /// The number.
    pub number: u8,
    /// The byte at which the part starts.
    pub start: usize,
    /// The bytes of the part.
    pub count: usize,
}

/// The reply of a lookup: number 0, place 0 and the number of a plan, or the refusal and its place
/// with plan 0.
#[repr(C)]
#[derive(Clone, Copy, PartialEq, Eq, Debug)]
pub struct Found {
    /// The number.
    pub number: u8,
    /// The place.
    pub place: u8,
    /// The number of the plan.
    pub plan: u16,
}

unsafe extern "C" {
    /// The version of the archive.
    pub safe fn ranqustei_version() -> u32;

    /// The costs of a drawn tree.
    ///
    /// # Safety
    /// Each pointer points to as many bytes as its length says.
    pub unsafe fn ranqustei_judge(
        survey: *const u8,
        survey_length: usize,
        drawn: *const u8,
        drawn_length: usize,
    ) -> Reply;

    /// The best tree under ceilings.
    ///
    /// # Safety
    /// Each pointer points to as many bytes as its length says; `tree` overlaps nothing else.
    pub unsafe fn ranqustei_best(
        survey: *const u8,
        survey_length: usize,
        b1: i16,
        b2: i16,
        b3: i16,
        tree: *mut u8,
        tree_length: usize,
    ) -> Reply;

    /// The list of plans.
    ///
    /// # Safety
    /// Each pointer points to as many bytes as its length says; `buffer` overlaps nothing else.
    pub unsafe fn ranqustei_list(
        survey: *const u8,
        survey_length: usize,
        allowance: u32,
        buffer: *mut u8,
        buffer_length: usize,
    ) -> Status;

    /// Where the links of plan r stand in a plan list.
    ///
    /// # Safety
    /// The pointer points to as many bytes as its length says.
    pub unsafe fn ranqustei_fetch(list: *const u8, list_length: usize, r: u32) -> Part;

    /// The index of a plan list.
    ///
    /// # Safety
    /// Each pointer points to as many bytes as its length says; `index` overlaps nothing else.
    pub unsafe fn ranqustei_index(
        list: *const u8,
        list_length: usize,
        index: *mut u8,
        index_length: usize,
    ) -> Status;

    /// The number of the cheapest plan whose first ceiling cost is at most a value.
    ///
    /// # Safety
    /// Each pointer points to as many bytes as its length says.
    pub unsafe fn ranqustei_index_lookup(
        list: *const u8,
        list_length: usize,
        index: *const u8,
        index_length: usize,
        value: i16,
    ) -> Found;

    /// The survey of a yard and its links.
    ///
    /// # Safety
    /// Each pointer is aligned and points to as many entries as its length says; `survey` overlaps
    /// nothing else.
    pub unsafe fn ranqustei_write_survey(
        kind: u32,
        yard: Yard,
        ends: *const u8,
        ends_length: usize,
        sums: *const i32,
        sums_length: usize,
        costs: *const i16,
        costs_length: usize,
        survey: *mut u8,
        survey_length: usize,
    ) -> Status;

    /// Small survey q.
    ///
    /// # Safety
    /// The pointer points to as many bytes as its length says.
    pub unsafe fn ranqustei_small_survey(q: u32, survey: *mut u8, survey_length: usize) -> Status;
}
