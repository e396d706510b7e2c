//! Lines and columns.
use crate::library;
use dns_text_sys::{dnstext_position, dnstext_position_move, DNSTEXT_OK};
use std::fmt;

/// A position in a text. It displays as `line:column`.
#[derive(Clone, Copy, Debug, PartialEq, Eq, PartialOrd, Ord, Hash)]
pub struct Position {
    /// The line, which starts at 1. Each LF ends a line.
    pub line: usize,
    /// The octet in the line, which starts at 1.
    pub column: usize,
}

/// Returns line and column of an offset of a text, or `None` past its end. The offset can be the text's
/// length. The time is linear in the offset: for many offsets of a text use [`Positions`].
///
/// ```
/// use dns_text::position;
///
/// assert_eq!(position(b"a\nbc", 3).unwrap().to_string(), "2:2");
/// assert_eq!(position(b"a\nbc", 5), None);
/// ```
#[must_use]
pub fn position(text: &[u8], place: usize) -> Option<Position> {
    library::check();
    let (mut line, mut column) = (0, 0);
    // SAFETY: the pointer and the length are those of the text, and the call stays within it.
    let status =
        unsafe { dnstext_position(text.as_ptr(), text.len(), place, &mut line, &mut column) };
    (status == DNSTEXT_OK).then_some(Position { line, column })
}

/// Finds lines and columns of offsets in one text, each from the one before.
///
/// The time is linear in the octets between them, or, for an offset before the last one, in the offset.
/// So offsets in order cost one pass over the text, however many they are.
///
/// ```
/// use dns_text::{records, Positions};
///
/// let zone = b"a 1h A 192.0.2\nb 1h A 192.0.2.1\nc 1h A 192.0.2.256\n";
/// let mut positions = Positions::new(zone);
/// let mut wrong = Vec::new();
/// for fault in records(zone).with_origin(&"example.".parse()?)?.filter_map(Result::err) {
///     let position = positions.find(fault.place).unwrap();
///     wrong.push(format!("{position}: {}", fault.message()));
/// }
/// assert_eq!(wrong[1], "3:8: A: address: expected IPv4 address");
/// # Ok::<(), Box<dyn std::error::Error>>(())
/// ```
#[derive(Clone, Debug)]
pub struct Positions<'t> {
    text: &'t [u8],
    last: dnstext_position,
}

impl<'t> Positions<'t> {
    /// Returns the positions of a text, from its start.
    #[must_use]
    pub fn new(text: &'t [u8]) -> Positions<'t> {
        library::check();
        Positions {
            text,
            last: dnstext_position::default(),
        }
    }

    /// Returns line and column of an offset, or `None` past the text's end. The offset can be the text's
    /// length.
    pub fn find(&mut self, place: usize) -> Option<Position> {
        // SAFETY: the pointer and the length are those of the text, and the call stays within it.
        let status = unsafe {
            dnstext_position_move(self.text.as_ptr(), self.text.len(), &mut self.last, place)
        };
        (status == DNSTEXT_OK).then_some(Position {
            line: self.last.line,
            column: self.last.column,
        })
    }
}

impl fmt::Display for Position {
    fn fmt(&self, f: &mut fmt::Formatter<'_>) -> fmt::Result {
        f.pad(&format!("{}:{}", self.line, self.column))
    }
}
