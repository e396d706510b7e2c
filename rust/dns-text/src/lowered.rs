//! Octets that compare without regard to the case of ASCII letters.
use std::cmp::Ordering;
use std::hash::{Hash, Hasher};

/// Octets, compared and hashed in lower case. The first difference decides, and a prefix is less.
#[derive(Clone, Copy)]
pub(crate) struct Lowered<'o>(pub(crate) &'o [u8]);

impl<'o> Lowered<'o> {
    fn octets(self) -> impl Iterator<Item = u8> + 'o {
        self.0.iter().map(u8::to_ascii_lowercase)
    }
}

impl PartialEq for Lowered<'_> {
    fn eq(&self, other: &Self) -> bool {
        self.0.eq_ignore_ascii_case(other.0)
    }
}

impl Eq for Lowered<'_> {}

impl PartialOrd for Lowered<'_> {
    fn partial_cmp(&self, other: &Self) -> Option<Ordering> {
        Some(self.cmp(other))
    }
}

impl Ord for Lowered<'_> {
    fn cmp(&self, other: &Self) -> Ordering {
        self.octets().cmp(other.octets())
    }
}

impl Hash for Lowered<'_> {
    fn hash<H: Hasher>(&self, state: &mut H) {
        self.0.len().hash(state);
        self.octets().for_each(|octet| octet.hash(state));
    }
}
