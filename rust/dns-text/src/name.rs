//! Domain names.
use crate::call::{give, print};
use crate::labels::Labels;
use crate::library;
use crate::lowered::Lowered;
use crate::name_octets::NameOctets;
use crate::status::reasons;
use crate::strings::reads_strings;
use dns_text_sys::{
    dnstext_call, dnstext_name_print, dnstext_name_print_dotted, dnstext_name_print_zone,
    dnstext_name_read, dnstext_outcome, DNSTEXT_OK,
};
use std::cmp::Ordering;
use std::error::Error;
use std::fmt;
use std::hash::{Hash, Hasher};

/// A name, absolute or relative: at most 255 octets in wire format (RFC 1035 section 3.1).
///
/// It displays as one word of a zone file, which is parsed back to that name;
/// [`zone_text`](Name::zone_text) has the rule. [`dotted`](Name::dotted) and
/// [`without_dot`](Name::without_dot) return the forms of the crate `domain`.
///
/// Equality, order and hash ignore the case of ASCII letters (RFC 1035 section 2.3.3). A relative name
/// never equals an absolute one. If case matters, compare the octets. The order of absolute names is
/// the canonical one (RFC 4034 section 6.1): by labels from the last to the first, where a missing
/// label is less. Relative names follow, in the same order.
///
/// ```
/// use dns_text::Name;
///
/// let name = Name::from_text(br"Action\.domains.ISI.EDU.")?;
/// assert_eq!(name.as_octets(), b"\x0EAction.domains\x03ISI\x03EDU\0");
/// assert!(name.is_absolute());
/// assert_eq!(name.to_string(), r"Action\.domains.ISI.EDU.");
/// assert_eq!(name.dotted(), r"Action\.domains.ISI.EDU.");
/// assert_eq!(name.without_dot(), r"Action\.domains.ISI.EDU");
/// assert_eq!(name, r"action\.domains.isi.edu.".parse()?);
/// assert_eq!(format!("{name:?}"), r"Name(Action\.domains.ISI.EDU.)");
/// assert!("example.".parse::<Name>()? < "a.example.".parse()?);
/// assert_eq!(Name::try_from(b"\x03ISI\x03EDU\0".as_slice())?.into_iter().len(), 2);
/// assert_eq!(Name::default(), ".".parse()?);
/// # Ok::<(), Box<dyn std::error::Error>>(())
/// ```
#[derive(Clone)]
pub struct Name {
    octets: NameOctets,
}

impl Name {
    /// Parses a name: labels separated by plain dots. A dot at the end makes it absolute. The empty text
    /// is the relative name without labels.
    ///
    /// ```
    /// use dns_text::{Name, NameErrorKind};
    ///
    /// let error = Name::from_text(b"www..example").unwrap_err();
    /// assert_eq!((error.kind, error.place), (NameErrorKind::EmptyLabel, 4));
    /// ```
    pub fn from_text(text: &[u8]) -> Result<Name, NameError> {
        library::check();
        let mut octets = [0; 255];
        let mut is_absolute = false;
        let mut outcome = dnstext_outcome::default();
        // SAFETY: the pointers and lengths are those of two slices, and the call stays within them.
        let status = unsafe {
            dnstext_name_read(
                text.as_ptr(),
                text.len(),
                octets.as_mut_ptr(),
                octets.len(),
                &mut is_absolute,
                &mut outcome,
            )
        };
        if status != DNSTEXT_OK {
            return Err(NameError {
                kind: NameErrorKind::of(status),
                place: outcome.place,
            });
        }
        Ok(Name {
            octets: NameOctets::copy(&octets[..outcome.length], is_absolute),
        })
    }

    /// Returns the name with this wire format. No octets are the relative name without labels.
    ///
    /// ```
    /// use dns_text::{Name, NameOctetsError};
    ///
    /// assert_eq!(Name::from_octets(b"\x03www".to_vec()).unwrap().to_string(), "www");
    /// let error = Name::from_octets(b"\x04www".to_vec()).unwrap_err();
    /// assert_eq!(error, NameOctetsError::ShortInput);
    /// ```
    pub fn from_octets(octets: Vec<u8>) -> Result<Name, NameOctetsError> {
        let is_absolute = check_octets(&octets)?;
        Ok(Name {
            octets: NameOctets::of(octets, is_absolute),
        })
    }

    /// Returns the name with this wire format.
    pub(crate) fn from_slice(octets: &[u8]) -> Result<Name, NameOctetsError> {
        let is_absolute = check_octets(octets)?;
        Ok(Name {
            octets: NameOctets::copy(octets, is_absolute),
        })
    }

    /// Returns the absolute name of octets that are known to be one.
    #[inline]
    pub(crate) fn of_absolute(octets: &[u8]) -> Name {
        Name {
            octets: NameOctets::copy(octets, true),
        }
    }

    /// Returns the name of octets that are known to be a name.
    pub(crate) fn of_valid(octets: Vec<u8>) -> Name {
        let is_absolute = ends_in_root(&octets);
        Name {
            octets: NameOctets::of(octets, is_absolute),
        }
    }

    /// Returns whether the name is absolute: whether it ends in the root.
    #[must_use]
    pub fn is_absolute(&self) -> bool {
        self.octets.is_absolute()
    }

    /// Returns the wire format.
    #[must_use]
    pub fn as_octets(&self) -> &[u8] {
        self.octets.as_slice()
    }

    /// Returns the wire format.
    #[must_use]
    pub fn into_octets(self) -> Vec<u8> {
        self.octets.into_vec()
    }

    /// Returns the labels joined by dots, with a dot at the end of an absolute name, as `domain` prints
    /// it. Space, dot and backslash have simple escapes, and octets outside printable ASCII decimal ones.
    /// So this is not a word of a zone file if a label has a parenthesis, a semicolon or a quote.
    pub fn dotted(&self) -> String {
        self.printed(dnstext_name_print_dotted)
    }

    /// Returns [`dotted`](Name::dotted) without the dot at the end. The root alone is one dot.
    pub fn without_dot(&self) -> String {
        self.printed(dnstext_name_print)
    }

    /// Returns the name as in zone files, with a dot at the end of an absolute name. A backslash
    /// precedes `"`, `$`, `(`, `)`, `.`, `;`, `@` and the backslash. Other octets from 0x21 to 0x7E are
    /// plain, and all others have decimal escapes. So a name with a label, or the root, is one word, which
    /// is parsed back to that name. The relative name without labels is the empty text.
    ///
    /// ```
    /// use dns_text::Name;
    ///
    /// let name = Name::from_octets(b"\x03a(b\x040/25\x02\xC3\xA9\0".to_vec())?;
    /// assert_eq!(name.zone_text(), r"a\(b.0/25.\195\169.");
    /// # Ok::<(), dns_text::NameOctetsError>(())
    /// ```
    pub fn zone_text(&self) -> String {
        self.printed(dnstext_name_print_zone)
    }

    fn printed(&self, call: dnstext_call) -> String {
        let octets = self.as_octets();
        print(call, octets, octets.len() + 1)
    }
}

/// Returns whether a name with this wire format is absolute: labels of 1 to 63 octets, with or without the root
/// at the end, and at most 255 octets with the root.
fn check_octets(octets: &[u8]) -> Result<bool, NameOctetsError> {
    let mut rest = octets;
    while let Some((length, after)) = rest.split_first() {
        if *length == 0 && after.is_empty() && octets.len() <= 255 {
            return Ok(true);
        }
        match after.get(usize::from(*length)..) {
            Some(next) if (1..64).contains(length) => rest = next,
            _ => return Err(octets_error(octets)),
        }
    }
    if octets.len() > 254 {
        return Err(octets_error(octets));
    }
    Ok(false)
}

/// Returns why octets are not a name, as the library reports it.
#[cold]
fn octets_error(octets: &[u8]) -> NameOctetsError {
    let status = give(dnstext_name_print, octets, 0).err();
    NameOctetsError::of(status.map_or(u32::MAX, |refused| refused.status))
}

/// Returns whether the labels of a name's octets end in the root.
fn ends_in_root(octets: &[u8]) -> bool {
    let mut rest = octets;
    while let Some((length, after)) = rest.split_first() {
        if *length == 0 {
            return true;
        }
        rest = &after[usize::from(*length)..];
    }
    false
}

reads_strings! {
    Name: NameError,
}

/// The name with this wire format, as by [`Name::from_octets`].
impl TryFrom<Vec<u8>> for Name {
    type Error = NameOctetsError;

    fn try_from(octets: Vec<u8>) -> Result<Name, NameOctetsError> {
        Name::from_octets(octets)
    }
}

/// The name with this wire format, as by [`Name::from_octets`]; a text is parsed by [`Name::from_text`].
impl TryFrom<&[u8]> for Name {
    type Error = NameOctetsError;

    fn try_from(octets: &[u8]) -> Result<Name, NameOctetsError> {
        Name::from_slice(octets)
    }
}

/// The root.
impl Default for Name {
    fn default() -> Name {
        Name::root()
    }
}

/// The labels, as by [`Name::labels`].
impl<'n> IntoIterator for &'n Name {
    type Item = &'n [u8];
    type IntoIter = Labels<'n>;

    fn into_iter(self) -> Labels<'n> {
        self.labels()
    }
}

/// The wire octets.
impl AsRef<[u8]> for Name {
    fn as_ref(&self) -> &[u8] {
        self.as_octets()
    }
}

// A label's length is at most 63, and so no letter: lowered octets are the lowered labels.
impl PartialEq for Name {
    fn eq(&self, other: &Name) -> bool {
        Lowered(self.as_octets()) == Lowered(other.as_octets())
    }
}

impl Eq for Name {}

impl PartialOrd for Name {
    fn partial_cmp(&self, other: &Name) -> Option<Ordering> {
        Some(self.cmp(other))
    }
}

impl Ord for Name {
    fn cmp(&self, other: &Name) -> Ordering {
        let labels = |octets| Labels::of(octets).rev().map(Lowered);
        let by_root = other.is_absolute().cmp(&self.is_absolute());
        by_root.then_with(|| labels(self.as_octets()).cmp(labels(other.as_octets())))
    }
}

impl Hash for Name {
    fn hash<H: Hasher>(&self, state: &mut H) {
        Lowered(self.as_octets()).hash(state);
    }
}

impl fmt::Display for Name {
    fn fmt(&self, f: &mut fmt::Formatter<'_>) -> fmt::Result {
        f.pad(&self.zone_text())
    }
}

/// Shows the name as in zone files.
impl fmt::Debug for Name {
    fn fmt(&self, f: &mut fmt::Formatter<'_>) -> fmt::Result {
        write!(f, "Name({self})")
    }
}

/// The error of a text that is not a name, with its offset.
#[derive(Clone, Copy, Debug, PartialEq, Eq)]
pub struct NameError {
    pub kind: NameErrorKind,
    /// Offset of the rejected symbol.
    pub place: usize,
}

reasons! {
    /// Why a text is not a name.
    NameErrorKind {
        /// A backslash that begins no escape.
        BadEscape = DNSTEXT_BAD_ESCAPE,
        /// The text ends inside an escape or a character.
        ShortInput = DNSTEXT_SHORT_INPUT,
        /// Octets that are not UTF-8.
        BadUtf8 = DNSTEXT_BAD_UTF8,
        /// A plain character outside printable ASCII, which has no octet.
        BadSymbol = DNSTEXT_BAD_SYMBOL,
        /// More than 254 octets before the root.
        TooLong = DNSTEXT_TOO_LONG,
        /// A plain dot after an empty label.
        EmptyLabel = DNSTEXT_EMPTY_LABEL,
        /// More than 63 octets in a label.
        LongLabel = DNSTEXT_LONG_LABEL,
        /// A label that begins with an escaped opening bracket.
        BinaryLabel = DNSTEXT_BINARY_LABEL,
    }
}

impl fmt::Display for NameError {
    fn fmt(&self, f: &mut fmt::Formatter<'_>) -> fmt::Result {
        write!(f, "{} at {}", self.kind.status(), self.place)
    }
}

impl Error for NameError {}

reasons! {
    /// Why octets are not a name.
    NameOctetsError {
        /// The octets end inside a label.
        ShortInput = DNSTEXT_SHORT_INPUT,
        /// More than 255 octets, or 255 without the root.
        TooLong = DNSTEXT_TOO_LONG,
        /// A first octet of an unknown label type.
        BadLabel = DNSTEXT_BAD_LABEL,
        /// A compression pointer in place of a label.
        Pointer = DNSTEXT_POINTER,
        /// Octets after the root.
        TrailingOctets = DNSTEXT_TRAILING_OCTETS,
    }
}

impl fmt::Display for NameOctetsError {
    fn fmt(&self, f: &mut fmt::Formatter<'_>) -> fmt::Result {
        self.status().fmt(f)
    }
}

impl Error for NameOctetsError {}
