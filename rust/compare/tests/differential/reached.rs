//! What the surveys, lists and figures have to reach, so that agreement on them means something.

use compare::figure_reasons::{LINK_REASONS, YARD_REASONS};
use compare::index_damage::INDEX_DAMAGES;
use compare::index_tally::{IndexTally, LIST_SORTS};
use compare::kinds::Kind;
use compare::list_damage::LIST_DAMAGES;
use compare::missing_costs::{MissingTally, SHORT_SORTS};
use compare::positions::{PositionTally, AFTER, BEFORE, POSITION_REASONS, POSITION_SORTS};
use compare::ranks::{RANKS, TRIPLE_RANKS};
use compare::records::{marks, COUNTING_RECORDS};
use compare::rests::{RestTally, ONE_WORKING, REST_ORDER, REST_REASONS, REST_RECORDS, REST_SORTS};
use compare::small_tally::{due_replies, SmallTally, OVER, ROOMS};
use compare::sums::{OUTSIDE, SORTS};
use compare::tally::{Call, Tally, CALLS};
use compare::triple_reasons::TRIPLE_REASONS;
use compare::write_tally::{WriteTally, LENGTHS, UNKNOWN_KINDS, YARD_SORTS};
use peer::records::{YardRecord, YARD_RECORDS};
use peer::survey::MAX_LINKS;
use peer::SMALL_SURVEYS;

/// What the surveys did not reach.
pub fn unreached(tallies: &[(&Kind, Tally)], total: &Tally) -> Vec<String> {
    let legal = tallies.iter().filter(|(kind, _)| kind.is_legal());
    let mut missing: Vec<String> = Vec::new();
    for (kind, tally) in legal.clone() {
        missing.extend(unreached_sorts(kind, tally));
        missing.extend(unreached_records(kind, tally));
    }
    for (sum, refused) in OUTSIDE.iter().zip(&total.sums.refused) {
        if !refused.is_everywhere() {
            missing.push(format!("a sum of {sum} refused on every link"));
        }
    }
    if legal.clone().all(|(_, tally)| tally.sums.repeated == 0) {
        missing.push("a sum below 0 on several links".to_string());
    }
    if legal.clone().all(|(_, tally)| tally.sums.across == 0) {
        missing.push("a list with plans on both sides of 0".to_string());
    }
    for (record, mark) in COUNTING_RECORDS.into_iter().zip(marks(COUNTING_RECORDS)) {
        if !total.records.is_cut_everywhere(record) {
            missing.push(format!(
                "{mark}, 40 links cut at every record end and refused by 15"
            ));
        }
    }
    for (record, rests) in REST_RECORDS.into_iter().zip(&total.rests) {
        missing.extend(unreached_rests(record, rests));
    }
    missing.extend(unreached_positions(&total.positions));
    let reasons = TRIPLE_REASONS.iter().zip(total.triple_reasons.0);
    missing.extend(lacking(reasons.map(|((name, number, _), count)| {
        (format!("{number} for {name}"), count)
    })));
    if total.writes.round_trips + total.writes.not_written != total.legal {
        missing.push("every legal survey written back".to_string());
    }
    missing
}

/// The sorts of yards that a kind of legal surveys lacks.
fn unreached_sorts(kind: &Kind, tally: &Tally) -> Vec<String> {
    let sorts = SORTS.iter().zip(tally.sums.sorts);
    let lacking = sorts.filter(|(_, count)| *count == 0);
    lacking
        .map(|((sort, _), _)| format!("sums {sort} in {}", kind.name))
        .collect()
}

/// The yard records that a kind of legal surveys lacks, and links to stations at rest.
fn unreached_records(kind: &Kind, tally: &Tally) -> Vec<String> {
    let due = kind.records();
    let records = YARD_RECORDS.into_iter().zip(marks(YARD_RECORDS));
    let records = records.zip(tally.records.legal);
    let records = records.filter(|((record, _), _)| due.contains(record));
    let records = records.map(|((_, mark), count)| (format!("yard record {mark}"), count));
    let (rest, _) = REST_SORTS[0];
    let rests = REST_RECORDS.iter().zip(&tally.rests);
    let rests = rests.filter(|(record, _)| due.contains(record));
    let rests = rests.map(|(_, rests)| (rest.to_string(), rests.sorts[0]));
    let lacking = lacking(records.chain(rests)).into_iter();
    lacking
        .map(|name| format!("{name} in {}", kind.name))
        .collect()
}

/// What the surveys with a yard record that has rest bytes did not reach.
fn unreached_rests(record: YardRecord, tally: &RestTally) -> Vec<String> {
    let sorts = REST_SORTS.iter().zip(tally.sorts);
    let sorts = sorts.filter(|((name, _), _)| record.least_ceilings == 0 || *name != ONE_WORKING);
    let sorts = sorts.map(|((name, _), count)| (format!("a yard with {name}"), count));
    let reasons = REST_REASONS.iter().zip(tally.reasons);
    let reasons = reasons.map(|((name, _), count)| (format!("18 for {name}"), count));
    let order = REST_ORDER.iter().zip(tally.order);
    let order = order.map(|([first, other], count)| {
        let name = format!("{first} where there is reason for {other} in a survey with rest bytes");
        (name, count)
    });
    let short = tally.has_all_short_lengths(record).into();
    let short = [(
        "a yard record with rest bytes cut at each byte".to_string(),
        short,
    )];
    let [mark] = marks([record]);
    let lacking = lacking(sorts.chain(reasons).chain(order).chain(short)).into_iter();
    lacking.map(|name| format!("{mark}: {name}")).collect()
}

/// What the surveys with three ceilings did not reach.
fn unreached_positions(tally: &PositionTally) -> Vec<String> {
    let ranks = TRIPLE_RANKS.iter().zip(tally.ranks);
    let ranks = ranks.map(|(ranks, count)| (format!("ranks {ranks:?}"), count));
    let sorts = POSITION_SORTS.iter().zip(tally.sorts);
    let sorts = sorts.map(|((name, _), count)| (format!("a yard with {name}"), count));
    let reasons = POSITION_REASONS.iter().zip(tally.reasons);
    let reasons = reasons.map(|((name, _), count)| (format!("19 for {name}"), count));
    let before = BEFORE.iter().zip(tally.before);
    let before = before.map(|(number, count)| (format!("{number} before 19"), count));
    let at_last = [2, 7, 8].iter().zip(tally.at_last_link);
    let at_last =
        at_last.map(|(number, count)| (format!("{number} at the last link before 19"), count));
    let after = AFTER.iter().zip(tally.after);
    let after = after.map(|(number, count)| (format!("19 before {number}"), count));
    let counted = ranks.chain(sorts).chain(reasons).chain(before);
    lacking(counted.chain(at_last).chain(after))
}

/// What the hand-made lists did not reach.
pub fn unreached_lists(tally: &IndexTally) -> Vec<String> {
    let sorts = LIST_SORTS.iter().zip(tally.sorts);
    let sorts = sorts.map(|((name, _), count)| (format!("a list with {name}"), count));
    let lists = LIST_DAMAGES.iter().zip(tally.list_damages);
    let lists = lists.map(|((name, _), count)| (format!("a list refused for {name}"), count));
    let indexes = INDEX_DAMAGES.iter().zip(tally.index_damages);
    let indexes = indexes.map(|((name, _), count)| (format!("an index refused for {name}"), count));
    let others = [
        ("lists with every t", u64::from(tally.has_every_tree_len())),
        (
            "the earliest of equal sums, later in the index",
            tally.later_in_index,
        ),
    ];
    let others = others.map(|(name, count)| (name.to_string(), count));
    lacking(sorts.chain(lists).chain(indexes).chain(others))
}

/// The names of what was counted and is not there.
fn lacking(counted: impl Iterator<Item = (String, u64)>) -> Vec<String> {
    let lacking = counted.filter(|(_, count)| *count == 0);
    lacking.map(|(name, _)| name).collect()
}

/// What the figures did not reach.
pub fn unreached_figures(total: &Tally) -> Vec<String> {
    let tally = &total.writes;
    let sorts = YARD_SORTS.iter().zip(tally.sorts);
    let sorts = sorts.map(|((name, _), count)| (format!("figures with {name}"), count));
    let ranks = RANKS.iter().zip(tally.ranks);
    let ranks = ranks.map(|(ranks, count)| (format!("figures with ranks {ranks:?}"), count));
    let sums = SORTS.iter().zip(total.sums.sorts);
    let sums = sums.map(|((name, _), count)| (format!("figures with sums {name}"), count));
    let mut missing = lacking(sorts.chain(ranks).chain(sums));
    if !tally.has_all_sizes() {
        missing.push("figures with every number of stations and of links".to_string());
    }
    missing.extend(unreached_lengths(tally));
    missing.extend(unreached_short(&tally.missing));
    missing.extend(unreached_reasons(tally));
    missing.extend(unreached_order(tally));
    missing
}

/// The lengths of outputs and columns that did not have the reply that is due to them.
fn unreached_lengths(tally: &WriteTally) -> Vec<String> {
    let due = LENGTHS.iter().enumerate().flat_map(|(i, (name, length))| {
        let is_short = length(MAX_LINKS) < MAX_LINKS;
        let reply = usize::from(is_short);
        let [plain, counted] = tally.outputs[i].map(|counts| counts[reply]);
        [
            ("an output for the plain record", plain),
            ("an output for the counted record", counted),
            ("ends", tally.ends[i][reply]),
            ("costs", tally.costs[i][reply]),
            ("costs that are enough", tally.costs[i][0]),
        ]
        .map(|(lent, count)| (format!("{lent}, {name}"), count))
    });
    lacking(due)
}

/// The short columns of costs that there were not, and the replies that none of them had.
fn unreached_short(tally: &MissingTally) -> Vec<String> {
    let sorts = SHORT_SORTS.iter().zip(tally.sorts);
    let sorts = sorts.flat_map(|((name, due, _), counts)| {
        let due = due.iter();
        due.map(move |&ceilings| (format!("{name}, p = {ceilings}"), counts[ceilings]))
    });
    let lengths = [(
        "40 links with every number of costs that is too low, for each number of ceilings".into(),
        tally.has_all_lengths().into(),
    )];
    lacking(sorts.chain(lengths))
}

/// The reasons for which nothing was refused, or not on every link.
fn unreached_reasons(tally: &WriteTally) -> Vec<String> {
    let kinds = UNKNOWN_KINDS.iter().zip(tally.unknown);
    let kinds = kinds.flat_map(|(kind, counts)| {
        let [legal, illegal] = counts;
        [("legal", legal), ("illegal", illegal)]
            .map(|(figures, count)| (format!("kind {kind:X} for {figures} figures"), count))
    });
    let yards = YARD_REASONS.iter().zip(tally.yards);
    let yards = yards.map(|((name, ..), count)| (format!("figures refused for {name}"), count));
    let links = LINK_REASONS.iter().zip(&tally.links);
    let links = links.map(|((name, ..), refused)| {
        let name = format!("every link refused for {name}");
        (name, refused.is_everywhere().into())
    });
    lacking(kinds.chain(yards).chain(links))
}

/// The pairs of numbers that had a reason both, of which none was replied to by the first.
fn unreached_order(tally: &WriteTally) -> Vec<String> {
    let (_, numbers) = CALLS[Call::Write as usize];
    let refusals = numbers.iter().filter(|&&number| number > 0);
    let pairs = refusals.clone().flat_map(|&first| {
        let others = refusals.clone().filter(move |&&other| other > first);
        others.map(move |&other| {
            let name = format!("{first} where there is reason for {other}");
            (name, tally.before[first][other])
        })
    });
    let later = [[7, 7], [7, 8], [8, 7], [8, 8]].map(|[first, other]| {
        let name = format!("{first} before {other} at a later link");
        (name, tally.before_later[first][other])
    });
    lacking(pairs.chain(later))
}

/// What the numbers of small surveys did not reach.
pub fn unreached_small(tally: &SmallTally) -> Vec<String> {
    let rooms = ROOMS.iter().zip(tally.rooms).flat_map(|(&room, counts)| {
        let due = counts.into_iter().zip(due_replies(room)).zip([0, 17, 20]);
        let due = due.filter(|((_, due), _)| *due);
        due.map(move |((count, _), reply)| (format!("{reply} in an output of {room} bytes"), count))
    });
    let over = OVER.iter().zip(tally.over);
    let over = over.map(|(number, count)| (format!("the number {number} refused by 20"), count));
    let mut missing = lacking(rooms.chain(over));
    if tally.surveys() != [SMALL_SURVEYS; 2] {
        missing.push("every small survey written, and refused by 17".to_string());
    }
    missing
}

/// The numbers that some call did not reply with, though it can.
pub fn unreached_numbers(total: &Tally) -> Vec<String> {
    let mut missing = Vec::new();
    for ((name, numbers), replies) in CALLS.iter().zip(&total.replies) {
        let lacking = numbers.iter().filter(|&&number| replies[number] == 0);
        missing.extend(lacking.map(|number| format!("the reply {number} to {name}")));
    }
    missing
}
