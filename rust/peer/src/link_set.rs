//! Sets of links.

/// A set of links by number, or by place in a sorted row: bit i stands for link i.
#[derive(Clone, Copy, PartialEq, Eq, Debug, Default)]
pub struct LinkSet(u64);

impl LinkSet {
    /// The set with one more link.
    pub fn with(self, link: u8) -> LinkSet {
        LinkSet(self.0 | 1 << link)
    }

    /// The links of either set.
    pub fn or(self, other: LinkSet) -> LinkSet {
        LinkSet(self.0 | other.0)
    }

    /// The links of the set that come after one.
    pub fn after(self, link: u8) -> LinkSet {
        LinkSet(self.0 & !1 << link)
    }

    /// The links, rising.
    pub fn links(self) -> impl Iterator<Item = u8> {
        let mut rest = self.0;
        std::iter::from_fn(move || {
            let link = rest.trailing_zeros();
            rest &= rest.checked_sub(1)?;
            Some(link as u8)
        })
    }

    /// Writes the links, rising, to the front of a buffer that is long enough.
    pub fn write(self, bytes: &mut [u8]) {
        for (byte, link) in bytes.iter_mut().zip(self.links()) {
            *byte = link;
        }
    }

    /// Whether this set is before another of the same size in dictionary order:
    /// it holds the lowest link that only one of them holds.
    pub fn is_before(self, other: LinkSet) -> bool {
        self.0.reverse_bits() > other.0.reverse_bits()
    }
}

impl FromIterator<u8> for LinkSet {
    fn from_iter<I: IntoIterator<Item = u8>>(links: I) -> LinkSet {
        links.into_iter().fold(LinkSet::default(), LinkSet::with)
    }
}

#[cfg(test)]
mod tests {
    use super::*;

    fn set(links: &[u8]) -> LinkSet {
        links.iter().copied().collect()
    }

    #[test]
    fn dictionary_order() {
        assert!(set(&[0, 9]).is_before(set(&[1, 2])));
        assert!(set(&[0, 39]).is_before(set(&[1, 39])));
        assert!(!set(&[3, 5]).is_before(set(&[3, 4])));
        assert!(!set(&[3]).is_before(set(&[3])));
    }

    #[test]
    fn links_rise() {
        assert_eq!(set(&[39, 0, 7]).links().collect::<Vec<_>>(), [0, 7, 39]);
        assert_eq!(set(&[39, 0]).or(set(&[7, 0])), set(&[0, 7, 39]));
        assert_eq!(set(&[0, 7, 39]).after(7), set(&[39]));
    }
}
