//! The plans of a list by their first ceiling cost.

use crate::{index, index_lookup, Cause, Plan, PlanList, Refusal};

/// The bytes of a plan's number.
const NUMBER_LEN: usize = 2;

/// The plans of a list by rising first ceiling cost, then sum, second ceiling cost and number; in a
/// list without ceilings by sum and number.
///
/// ```
/// use ranqustei::{Link, PlanIndex, Yard};
///
/// let links = [Link::new([0, 1], 4, [9]), Link::new([0, 1], 7, [2])];
/// let plans = Yard::new(2, [1], links).survey()?.plans()?;
/// let index = plans.index()?;
/// for (number, plan) in index.iter() {
///     println!("plan {number}: {plan}");
/// }
///
/// // Stored beside the list, it is the list's index again.
/// assert_eq!(PlanIndex::from_bytes(&plans, index.as_bytes().to_vec())?, index);
/// # Ok::<(), Box<dyn std::error::Error>>(())
/// ```
#[derive(Clone, PartialEq, Eq, Debug)]
pub struct PlanIndex<'a> {
    plans: &'a PlanList,
    bytes: Vec<u8>,
}

impl<'a> PlanIndex<'a> {
    /// Builds the index of a list.
    pub(crate) fn of(plans: &'a PlanList) -> Result<PlanIndex<'a>, Refusal> {
        let mut bytes = vec![0; need(plans)];
        index(plans.as_bytes(), &mut bytes)?;
        Ok(PlanIndex { plans, bytes })
    }

    /// Takes the bytes of a list's index, as the index call wrote them. Bytes after it are dropped.
    ///
    /// # Errors
    /// 16 if there are fewer than 2 bytes for each plan, 12 if they are not the index of this list.
    pub fn from_bytes(plans: &'a PlanList, mut bytes: Vec<u8>) -> Result<PlanIndex<'a>, Refusal> {
        // Every plan meets the largest value. So 13 comes exactly if the list is empty.
        match index_lookup(plans.as_bytes(), &bytes, i16::MAX) {
            Err(refusal) if refusal.cause() != Cause::PlanNumber => Err(refusal),
            _ => {
                bytes.truncate(need(plans));
                Ok(PlanIndex { plans, bytes })
            }
        }
    }

    /// The plans in the order of the index, each with its number in the list.
    pub fn iter(&self) -> impl Iterator<Item = (u32, Plan)> + '_ {
        let (entries, _) = self.bytes.as_chunks::<NUMBER_LEN>();
        let numbers = entries.iter().map(|&entry| u16::from_le_bytes(entry));
        numbers.filter_map(|number| self.numbered(number).ok())
    }

    /// The plan with the least sum of those whose first ceiling cost is at most `value`, with its
    /// number in the list; of equal sums, the first in the list. In a list without ceilings every
    /// plan meets every value.
    ///
    /// # Errors
    /// 13 if no plan meets the value.
    pub fn cheapest(&self, value: i16) -> Result<(u32, Plan), Refusal> {
        self.numbered(index_lookup(self.plans.as_bytes(), &self.bytes, value)?)
    }

    /// The bytes of the index, without bytes after it.
    pub fn as_bytes(&self) -> &[u8] {
        &self.bytes
    }

    /// A plan of the list with its number.
    fn numbered(&self, number: u16) -> Result<(u32, Plan), Refusal> {
        let number = u32::from(number);
        Ok((number, self.plans.get(number)?))
    }
}

/// The bytes that the index of a list needs.
fn need(plans: &PlanList) -> usize {
    plans.len() as usize * NUMBER_LEN
}
