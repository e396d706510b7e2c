//! The octets of a name, which need no allocation if they are few.

/// Maximum number of octets without an allocation: with three more octets, 32.
const MOST: usize = 29;

/// The wire format of a name, and whether it ends in the root.
#[derive(Clone)]
pub(crate) enum NameOctets {
    Few {
        is_absolute: bool,
        length: u8,
        octets: [u8; MOST],
    },
    Many {
        is_absolute: bool,
        octets: Box<[u8]>,
    },
}

impl NameOctets {
    /// Returns a copy of octets.
    #[inline]
    pub(crate) fn copy(from: &[u8], is_absolute: bool) -> NameOctets {
        let length = from.len();
        if length > MOST {
            return NameOctets::Many {
                is_absolute,
                octets: from.into(),
            };
        }
        let mut octets = [0; MOST];
        octets[..length].copy_from_slice(from);
        NameOctets::Few {
            is_absolute,
            length: length as u8,
            octets,
        }
    }

    /// Returns these octets.
    pub(crate) fn of(octets: Vec<u8>, is_absolute: bool) -> NameOctets {
        if octets.len() <= MOST {
            return NameOctets::copy(&octets, is_absolute);
        }
        NameOctets::Many {
            is_absolute,
            octets: octets.into_boxed_slice(),
        }
    }

    #[inline]
    pub(crate) fn is_absolute(&self) -> bool {
        match self {
            NameOctets::Few { is_absolute, .. } | NameOctets::Many { is_absolute, .. } => {
                *is_absolute
            }
        }
    }

    #[inline]
    pub(crate) fn as_slice(&self) -> &[u8] {
        match self {
            NameOctets::Few { length, octets, .. } => &octets[..usize::from(*length)],
            NameOctets::Many { octets, .. } => octets,
        }
    }

    pub(crate) fn into_vec(self) -> Vec<u8> {
        match self {
            NameOctets::Few { .. } => self.as_slice().to_vec(),
            NameOctets::Many { octets, .. } => octets.into_vec(),
        }
    }
}

#[cfg(test)]
mod tests {
    use super::{NameOctets, MOST};

    #[test]
    fn octets_are_kept() {
        assert!(size_of::<NameOctets>() <= 32);
        for length in 0..=255 {
            let octets: Vec<u8> = (0..length).collect();
            for is_absolute in [false, true] {
                let same = |found: NameOctets| {
                    assert_eq!(found.as_slice(), octets);
                    assert_eq!(found.is_absolute(), is_absolute);
                    let is_few = matches!(found, NameOctets::Few { .. });
                    assert_eq!(is_few, octets.len() <= MOST);
                    assert_eq!(found.clone().into_vec(), octets);
                };
                same(NameOctets::copy(&octets, is_absolute));
                same(NameOctets::of(octets.clone(), is_absolute));
            }
        }
    }
}
