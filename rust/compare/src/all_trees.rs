//! All trees of a yard, and what follows from them by the definitions of the documents.
//!
//! It reads surveys and writes lists itself and uses nothing of either planner.

/// A link.
pub struct Link {
    /// The stations it joins.
    pub ends: [usize; 2],
    /// Its sum cost.
    pub sum: i64,
    /// Its cost for each present ceiling.
    pub costs: Vec<i64>,
}

/// A yard.
pub struct Yard {
    /// Whether each station rests.
    pub rests: Vec<bool>,
    /// The rank of each present ceiling.
    pub ranks: Vec<usize>,
    /// The links in survey order.
    pub links: Vec<Link>,
}

impl Yard {
    /// Reads an accepted survey.
    pub fn read(survey: &[u8]) -> Yard {
        let (yard_bytes, link_bytes, rest_at) = match survey[1] {
            0x44 => (6, 12, None),
            0x45 => (7, 12, None),
            0x46 => (10, 12, Some(7)),
            _ => (11, 14, Some(8)),
        };
        let [stations, ceilings] = [survey[2], survey[3]].map(usize::from);
        let rests = |j: usize| rest_at.is_some_and(|at| survey[at + j / 8] >> (j % 8) & 1 == 1);
        let link = |record: &[u8]| Link {
            ends: [record[2], record[3]].map(usize::from),
            sum: signed(&record[4..8]),
            costs: record[8..].chunks(2).take(ceilings).map(signed).collect(),
        };
        Yard {
            rests: (0..stations).map(rests).collect(),
            ranks: survey[4..4 + ceilings].iter().map(|&k| k.into()).collect(),
            links: survey[yard_bytes..].chunks(link_bytes).map(link).collect(),
        }
    }

    /// How many links a tree has.
    pub fn tree_len(&self) -> usize {
        self.rests.iter().filter(|&&rests| !rests).count() - 1
    }

    fn is_usable(&self, link: &Link) -> bool {
        link.ends.iter().all(|&end| !self.rests[end])
    }

    /// The different values of each ceiling over the usable links, falling.
    fn values(&self) -> Vec<Vec<i64>> {
        let of_ceiling = |i: usize| {
            let usable = self.links.iter().filter(|link| self.is_usable(link));
            let mut values: Vec<i64> = usable.map(|link| link.costs[i]).collect();
            values.sort_by_key(|&value| -value);
            values.dedup();
            values
        };
        (0..self.ranks.len()).map(of_ceiling).collect()
    }

    /// The cost vector of some links.
    fn costs(&self, links: &[u8]) -> Vec<i64> {
        let links: Vec<&Link> = links.iter().map(|&i| &self.links[usize::from(i)]).collect();
        let mut costs = vec![links.iter().map(|link| link.sum).sum()];
        for (i, rank) in self.ranks.iter().enumerate() {
            let mut falling: Vec<i64> = links.iter().map(|link| link.costs[i]).collect();
            falling.sort_by_key(|&cost| -cost);
            costs.push(falling[rank - 1]);
        }
        costs
    }
}

/// A tree.
pub struct Tree {
    /// Its link numbers, rising.
    pub links: Vec<u8>,
    /// Its cost vector: the sum, then the present ceiling costs.
    pub costs: Vec<i64>,
}

/// A yard with all its trees.
pub struct AllTrees {
    /// The yard.
    pub yard: Yard,
    /// The trees in dictionary order.
    pub trees: Vec<Tree>,
}

impl AllTrees {
    /// All trees of a yard.
    pub fn of(yard: Yard) -> AllTrees {
        let (mut trees, colours) = (Vec::new(), Vec::from_iter(0..yard.rests.len()));
        grow(&yard, &mut Vec::new(), &colours, &mut trees);
        AllTrees { yard, trees }
    }

    /// The best tree under a bound for each present ceiling.
    pub fn best(&self, bounds: &[i64]) -> Option<&Tree> {
        let fits = |tree: &&Tree| at_most(&tree.costs[1..], bounds);
        let fitting = self.trees.iter().filter(fits);
        fitting.min_by_key(|tree| tree.costs[0])
    }

    /// The plans: each vector that no other dominates, with its first tree, in the order of a list.
    pub fn plans(&self) -> Vec<&Tree> {
        let mut plans: Vec<&Tree> = Vec::new();
        for tree in &self.trees {
            let vector = &tree.costs;
            let dominates = |v: &Vec<i64>| at_most(v, vector) && v != vector;
            let is_dominated = self.trees.iter().any(|other| dominates(&other.costs));
            if !is_dominated && plans.iter().all(|plan| plan.costs != *vector) {
                plans.push(tree);
            }
        }
        plans.sort_by_key(|plan| &plan.costs);
        plans
    }

    /// How many positions the walk solves.
    pub fn solved_count(&self) -> u32 {
        let values = self.yard.values();
        let positions = positions(&values);
        let (mut marked, mut solved) = (vec![false; positions.len()], 0);
        for (number, position) in positions.iter().enumerate() {
            if !marked[number] {
                solved += 1;
                let last = self.last_marked(&values, position);
                for (mark, other) in marked.iter_mut().zip(&positions) {
                    *mark |= at_most(position, other) && at_most(other, &last);
                }
            }
        }
        solved
    }

    /// The last place of each ceiling that is marked once a position is solved.
    fn last_marked(&self, values: &[Vec<i64>], position: &[usize]) -> Vec<usize> {
        let picked = values.iter().zip(position);
        let bounds: Vec<i64> = picked.map(|(values, &place)| values[place]).collect();
        let Some(tree) = self.best(&bounds) else {
            return values.iter().map(|values| values.len() - 1).collect();
        };
        let above = |(values, cost): (&Vec<i64>, _)| values.iter().filter(|v| *v > cost).count();
        values.iter().zip(&tree.costs[1..]).map(above).collect()
    }

    /// How many bytes a list buffer needs.
    pub fn list_need(&self) -> usize {
        let positions: usize = self.yard.values().iter().map(Vec::len).product();
        10 + positions * self.plan_bytes()
    }

    /// How many bytes each plan of the list has.
    pub fn plan_bytes(&self) -> usize {
        self.links_at() + self.yard.tree_len()
    }

    /// Where in a plan its link numbers start: after the mark, the sum and two ceiling costs, or three.
    pub fn links_at(&self) -> usize {
        6 + 2 * self.yard.ranks.len().max(2)
    }

    /// The bytes of the list up to its last plan.
    pub fn list(&self) -> Vec<u8> {
        let (plans, ceilings) = (self.plans(), self.yard.ranks.len());
        let mut bytes = vec![0x50, 0x48];
        bytes.extend((plans.len() as u16).to_le_bytes());
        bytes.extend(self.solved_count().to_le_bytes());
        bytes.extend([self.yard.tree_len() as u8, ceilings as u8]);
        for Tree { links, costs } in plans {
            let mut record = vec![0x50, if ceilings == 3 { 0x4d } else { 0x4c }];
            record.extend((costs[0] as i32).to_le_bytes());
            record.extend(costs[1..].iter().flat_map(|&y| (y as i16).to_le_bytes()));
            record.resize(self.links_at(), 0);
            bytes.extend([&record[..], links].concat());
        }
        bytes
    }

    /// The plan numbers in the order of the index: by y1, sum, y2 and number.
    pub fn index(&self) -> Vec<u16> {
        let plans = self.plans();
        let mut numbers: Vec<u16> = (0..plans.len() as u16).collect();
        numbers.sort_by_key(|&number| {
            let costs = &plans[usize::from(number)].costs;
            (costs.get(1), costs[0], costs.get(2), number)
        });
        numbers
    }

    /// The number of the cheapest plan whose y1 is at most a value, the earliest of equal sums.
    pub fn cheapest(&self, value: i64) -> Option<usize> {
        let plans = self.plans();
        let meets = |plan: &usize| plans[*plan].costs.get(1).is_none_or(|&y1| y1 <= value);
        let met = (0..plans.len()).filter(meets);
        met.min_by_key(|&plan| plans[plan].costs[0])
    }
}

/// Adds the trees that go on from some links, in dictionary order. Stations that these links
/// connect have the same colour, and no others have.
fn grow(yard: &Yard, links: &mut Vec<u8>, colours: &[usize], trees: &mut Vec<Tree>) {
    if links.len() == yard.tree_len() {
        let (links, costs) = (links.clone(), yard.costs(links));
        return trees.push(Tree { links, costs });
    }
    let from = links.last().map_or(0, |&last| usize::from(last) + 1);
    for (number, link) in yard.links.iter().enumerate().skip(from) {
        let [a, b] = link.ends.map(|end| colours[end]);
        if a != b && yard.is_usable(link) {
            let joined = colours.iter().map(|&c| if c == b { a } else { c });
            links.push(number as u8);
            grow(yard, links, &joined.collect::<Vec<_>>(), trees);
            links.pop();
        }
    }
}

/// All positions in dictionary order, each as a place for every ceiling. Places are from 0 here.
fn positions(values: &[Vec<i64>]) -> Vec<Vec<usize>> {
    let Some((first, later)) = values.split_first() else {
        return vec![Vec::new()];
    };
    let later = positions(later);
    let with = |place: usize| later.iter().map(move |rest| [&[place], &rest[..]].concat());
    (0..first.len()).flat_map(with).collect()
}

/// Whether no entry of one is above that of the other.
fn at_most<T: PartialOrd>(one: &[T], other: &[T]) -> bool {
    one.iter().zip(other).all(|(a, b)| a <= b)
}

/// The number of bytes in two's complement, low byte first.
fn signed(bytes: &[u8]) -> i64 {
    let high_first = bytes.iter().rev();
    let unsigned = high_first.fold(0, |n, &byte| n << 8 | i64::from(byte));
    let unused = 64 - 8 * bytes.len();
    unsigned << unused >> unused
}
