//! The tokens and the entries of a zone file.
use crate::position::{position, Position};
use crate::scan::Scan;
use crate::status::reasons;
use dns_text_sys::dnstext_token;
use std::error::Error;
use std::fmt;
use std::iter::FusedIterator;

/// A token of a zone file: a word, or a quoted string with its double quotes.
#[derive(Clone, Copy, Debug, PartialEq, Eq, Hash)]
pub struct Token<'t> {
    /// Offset of its first octet.
    pub start: usize,
    /// The octets of the token, as in the text.
    pub text: &'t [u8],
    /// Whether it is a quoted string.
    pub is_quoted: bool,
}

impl<'t> Token<'t> {
    /// Returns the token at a span of a text that begins at the offset `before`.
    pub(crate) fn at(place: dnstext_token, before: usize, text: &'t [u8]) -> Token<'t> {
        Token {
            start: before + place.start,
            text: &text[place.start..place.end],
            is_quoted: place.is_quoted,
        }
    }

    /// Returns the text between the double quotes of a quoted string, or the word itself.
    #[must_use]
    pub fn content(self) -> &'t [u8] {
        if self.is_quoted {
            &self.text[1..self.text.len() - 1]
        } else {
            self.text
        }
    }
}

/// Returns the tokens at spans of a text that begins at the offset `before`.
pub(crate) fn tokens_at<'p, 't: 'p>(
    places: &'p [dnstext_token],
    before: usize,
    text: &'t [u8],
) -> impl ExactSizeIterator<Item = Token<'t>> + 'p {
    let places = places.iter();
    places.map(move |place| Token::at(*place, before, text))
}

/// A syntax error, with its offset.
#[derive(Clone, Copy, Debug, PartialEq, Eq)]
pub struct Fault {
    pub kind: FaultKind,
    /// Length of the longest prefix that some text could complete.
    pub place: usize,
    /// Offset of the double quote that isn't closed, of [`FaultKind::OpenQuote`], or the
    /// outermost parenthesis, of [`FaultKind::OpenParenthesis`].
    pub opened: Option<usize>,
}

impl Fault {
    /// Returns line and column of the error in its text, or `None` if the text is shorter.
    ///
    /// ```
    /// use dns_text::entries;
    ///
    /// let text = b"a A 192.0.2.1\nb TXT (";
    /// let fault = entries(text).find_map(Result::err).unwrap();
    /// let position = fault.locate(text).unwrap();
    /// assert_eq!(format!("{position}: {}", fault.message()), "2:8: parenthesis is not closed");
    /// ```
    #[must_use]
    pub fn locate(&self, text: &[u8]) -> Option<Position> {
        position(text, self.place)
    }

    /// Returns the message, without the offset.
    #[must_use]
    pub fn message(&self) -> &'static str {
        self.kind.status().message()
    }

    /// Returns the error with the offsets of a text that begins at the offset `before`.
    pub(crate) fn behind(self, before: usize) -> Fault {
        Fault {
            kind: self.kind,
            place: before + self.place,
            opened: self.opened.map(|place| before + place),
        }
    }
}

reasons! {
    /// The kinds of syntax errors.
    FaultKind {
        /// A backslash that begins no escape.
        BadEscape = DNSTEXT_BAD_ESCAPE,
        /// A closing parenthesis without an open one.
        Closing = DNSTEXT_CLOSING,
        /// The text ends inside parentheses.
        OpenParenthesis = DNSTEXT_OPEN_PARENTHESIS,
        /// The text or a line ends inside a quoted string.
        OpenQuote = DNSTEXT_OPEN_QUOTE,
        /// A CR without its LF.
        LoneReturn = DNSTEXT_LONE_RETURN,
    }
}

impl FaultKind {
    /// Returns whether a parenthesis or a double quote isn't closed.
    pub(crate) fn is_open(self) -> bool {
        matches!(self, FaultKind::OpenParenthesis | FaultKind::OpenQuote)
    }
}

impl fmt::Display for Fault {
    fn fmt(&self, f: &mut fmt::Formatter<'_>) -> fmt::Result {
        write!(f, "{} at {}", self.message(), self.place)
    }
}

impl Error for Fault {}

/// An entry of a zone file.
#[derive(Clone, Debug, PartialEq, Eq, Hash)]
pub struct Entry<'t> {
    /// Whether it begins with a blank: such a record has the owner of the one before.
    pub begins_blank: bool,
    /// Its tokens in order.
    pub tokens: Vec<Token<'t>>,
}

/// Returns the entries of a zone file, up to a syntax error.
///
/// ```
/// use dns_text::{entries, FaultKind};
///
/// let mut found = entries(b"www A 192.0.2.1\n  TXT (");
/// assert_eq!(found.next().unwrap()?.tokens[2].text, b"192.0.2.1");
/// let fault = found.next().unwrap().unwrap_err();
/// assert_eq!((fault.kind, fault.place), (FaultKind::OpenParenthesis, 23));
/// assert_eq!(fault.opened, Some(22));
/// assert!(found.next().is_none());
/// # Ok::<(), dns_text::Fault>(())
/// ```
#[must_use]
pub fn entries(text: &[u8]) -> Entries<'_> {
    let scan = Scan::new();
    Entries { text, scan }
}

/// An iterator over the entries of a zone file; see [`entries`].
#[derive(Clone, Debug)]
pub struct Entries<'t> {
    text: &'t [u8],
    scan: Scan,
}

impl<'t> Iterator for Entries<'t> {
    type Item = Result<Entry<'t>, Fault>;

    fn next(&mut self) -> Option<Result<Entry<'t>, Fault>> {
        let read = self.scan.read(self.text)?;
        Some(read.map(|()| Entry {
            begins_blank: self.scan.begins_blank(),
            tokens: tokens_at(self.scan.places(), 0, self.text).collect(),
        }))
    }
}

impl FusedIterator for Entries<'_> {}

/// Returns the tokens of a zone file, without their entries, up to a syntax error. None is copied.
///
/// An octet of 0x80 or more counts as a character of its own.
///
/// ```
/// use dns_text::tokens;
///
/// let words: Result<Vec<_>, _> = tokens(b"a ( b ; why\n \"c d\" )\ne")
///     .map(|token| token.map(|token| token.text))
///     .collect();
/// assert_eq!(words?, [b"a".as_slice(), b"b", b"\"c d\"", b"e"]);
/// # Ok::<(), dns_text::Fault>(())
/// ```
#[must_use]
pub fn tokens(text: &[u8]) -> Tokens<'_> {
    Tokens {
        text,
        scan: Scan::new(),
        next: 0,
        fault: None,
    }
}

/// An iterator over the tokens of a zone file; see [`tokens`].
#[derive(Clone, Debug)]
pub struct Tokens<'t> {
    text: &'t [u8],
    scan: Scan,
    next: usize,
    fault: Option<Fault>,
}

impl<'t> Iterator for Tokens<'t> {
    type Item = Result<Token<'t>, Fault>;

    fn next(&mut self) -> Option<Result<Token<'t>, Fault>> {
        loop {
            if let Some(place) = self.scan.places().get(self.next) {
                self.next += 1;
                return Some(Ok(Token::at(*place, 0, self.text)));
            }
            if let Some(fault) = self.fault.take() {
                return Some(Err(fault));
            }
            self.next = 0;
            self.fault = self.scan.read(self.text)?.err();
        }
    }
}

impl FusedIterator for Tokens<'_> {}
