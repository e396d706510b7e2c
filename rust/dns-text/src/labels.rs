//! The labels of names.
use crate::lowered::Lowered;
use crate::{Name, NameOctetsError};
use std::iter::FusedIterator;

/// Maximum number of labels of a name: 127 labels of one octet and their lengths, and the root.
const MOST: usize = 127;

/// An iterator over the labels of a name; see [`Name::labels`].
#[derive(Clone, Debug)]
pub struct Labels<'n> {
    octets: &'n [u8],
    /// Offsets of the labels. Those from `next` to before `end` remain.
    starts: [u8; MOST],
    next: usize,
    end: usize,
}

impl<'n> Labels<'n> {
    /// Returns the labels of a name's octets.
    pub(crate) fn of(octets: &'n [u8]) -> Labels<'n> {
        let mut starts = [0; MOST];
        let mut end = 0;
        let mut place: u8 = 0;
        while let Some(length) = length_at(octets, place) {
            starts[end] = place;
            end += 1;
            place += length + 1;
        }
        Labels {
            octets,
            starts,
            next: 0,
            end,
        }
    }

    fn label(&self, index: usize) -> &'n [u8] {
        let start = usize::from(self.starts[index]);
        let length = usize::from(self.octets[start]);
        &self.octets[start + 1..][..length]
    }

    /// Returns the offsets of the remaining labels.
    fn starts(&self) -> &[u8] {
        &self.starts[self.next..self.end]
    }
}

/// Returns the length of the label at an offset, if one begins there and is not the root.
fn length_at(octets: &[u8], place: u8) -> Option<u8> {
    octets
        .get(usize::from(place))
        .copied()
        .filter(|length| *length != 0)
}

impl<'n> Iterator for Labels<'n> {
    type Item = &'n [u8];

    fn next(&mut self) -> Option<&'n [u8]> {
        if self.next == self.end {
            return None;
        }
        self.next += 1;
        Some(self.label(self.next - 1))
    }

    fn size_hint(&self) -> (usize, Option<usize>) {
        let count = self.end - self.next;
        (count, Some(count))
    }
}

impl<'n> DoubleEndedIterator for Labels<'n> {
    fn next_back(&mut self) -> Option<&'n [u8]> {
        if self.next == self.end {
            return None;
        }
        self.end -= 1;
        Some(self.label(self.end))
    }
}

impl ExactSizeIterator for Labels<'_> {}

impl FusedIterator for Labels<'_> {}

impl Name {
    /// Returns the root: the absolute name without labels.
    ///
    /// ```
    /// use dns_text::Name;
    ///
    /// assert_eq!(Name::root().as_octets(), [0]);
    /// assert_eq!(Name::root().to_string(), ".");
    /// ```
    #[must_use]
    pub fn root() -> Name {
        Name::of_valid(vec![0])
    }

    /// Returns whether the name is the root.
    #[must_use]
    pub fn is_root(&self) -> bool {
        self.as_octets() == [0]
    }

    /// Returns an iterator over the octets of the labels, without the root, from both ends and with
    /// their number.
    ///
    /// ```
    /// use dns_text::Name;
    ///
    /// let name: Name = "www.example.com.".parse()?;
    /// assert_eq!(name.labels().len(), 3);
    /// assert_eq!(name.labels().next(), Some(b"www".as_slice()));
    /// assert_eq!(name.labels().next_back(), Some(b"com".as_slice()));
    /// assert_eq!(Name::root().labels().len(), 0);
    /// # Ok::<(), dns_text::NameError>(())
    /// ```
    #[must_use]
    pub fn labels(&self) -> Labels<'_> {
        Labels::of(self.as_octets())
    }

    /// Returns the name without its first label, or `None` if it has no labels.
    ///
    /// ```
    /// use dns_text::Name;
    ///
    /// let name: Name = "www.example.".parse()?;
    /// assert_eq!(name.parent(), Some("example.".parse()?));
    /// assert_eq!(Name::root().parent(), None);
    /// # Ok::<(), dns_text::NameError>(())
    /// ```
    #[must_use]
    pub fn parent(&self) -> Option<Name> {
        let first = self.labels().next()?;
        Some(Name::of_valid(self.as_octets()[first.len() + 1..].to_vec()))
    }

    /// Returns whether the first labels are those of another name. A name starts with an absolute name
    /// only if it is that name.
    ///
    /// ```
    /// use dns_text::Name;
    ///
    /// let name: Name = "www.example.".parse()?;
    /// assert!(name.starts_with(&"WWW".parse()?));
    /// assert!(!name.starts_with(&"w".parse()?));
    /// # Ok::<(), dns_text::NameError>(())
    /// ```
    #[must_use]
    pub fn starts_with(&self, start: &Name) -> bool {
        let octets = self.as_octets().get(..start.as_octets().len());
        octets.is_some_and(|octets| Lowered(octets) == Lowered(start.as_octets()))
    }

    /// Returns whether the last labels are those of another name, where the root counts as a label: for
    /// absolute names, whether the name is at or below the other.
    ///
    /// ```
    /// use dns_text::Name;
    ///
    /// let name: Name = "www.example.".parse()?;
    /// assert!(name.ends_with(&"Example.".parse()?));
    /// assert!(name.ends_with(&Name::root()));
    /// assert!(!name.ends_with(&"ample.".parse()?));
    /// assert!(!name.ends_with(&"example".parse()?));
    /// # Ok::<(), dns_text::NameError>(())
    /// ```
    #[must_use]
    pub fn ends_with(&self, end: &Name) -> bool {
        let (octets, end) = (self.as_octets(), end.as_octets());
        let Some(place) = octets.len().checked_sub(end.len()) else {
            return false;
        };
        self.has_border(place) && Lowered(&octets[place..]) == Lowered(end)
    }

    /// Returns whether a label or the root begins at an offset, or the octets end there.
    fn has_border(&self, place: usize) -> bool {
        let length = self.as_octets().len();
        let last = length - usize::from(self.is_absolute());
        let labels = self.labels();
        place == last
            || place == length
            || labels
                .starts()
                .iter()
                .any(|start| usize::from(*start) == place)
    }

    /// Returns a relative name with an origin appended; an absolute one unchanged.
    ///
    /// Fails with [`NameOctetsError::TooLong`] if the result has more than 255 octets, or, as a relative
    /// name, more than 254.
    ///
    /// ```
    /// use dns_text::Name;
    ///
    /// let origin: Name = "example.".parse()?;
    /// let name: Name = "www".parse()?;
    /// assert_eq!(name.append_origin(&origin)?.to_string(), "www.example.");
    /// assert_eq!(origin.append_origin(&origin)?, origin);
    /// # Ok::<(), Box<dyn std::error::Error>>(())
    /// ```
    pub fn append_origin(&self, origin: &Name) -> Result<Name, NameOctetsError> {
        if self.is_absolute() {
            return Ok(self.clone());
        }
        Name::from_octets([self.as_octets(), origin.as_octets()].concat())
    }

    /// Returns the name with its ASCII letters in lower case, which is its canonical form (RFC 4034
    /// section 6.2).
    #[must_use]
    pub fn to_lowercase(&self) -> Name {
        Name::of_valid(self.as_octets().to_ascii_lowercase())
    }
}
