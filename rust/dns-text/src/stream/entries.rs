//! The entries of a zone file from a `BufRead`.
use super::window::{advance, Window};
use super::StreamError;
use crate::scan::Scan;
use crate::zone::tokens_at;
use crate::{Entry, Fault, Position, Token};
use dns_text_sys::dnstext_token;
use std::io::BufRead;
use std::iter::FusedIterator;

/// An entry of a zone file that owns its octets.
#[derive(Clone, Debug, PartialEq, Eq)]
pub struct OwnedEntry {
    begins_blank: bool,
    /// The octets up to the end of its last token, with their offset, line and column.
    octets: Vec<u8>,
    start: usize,
    position: Position,
    tokens: Vec<dnstext_token>,
}

impl OwnedEntry {
    /// Returns whether it begins with a blank: such a record has the owner of the one before.
    #[must_use]
    pub fn begins_blank(&self) -> bool {
        self.begins_blank
    }

    /// Returns its tokens. Their offsets count from where reading began.
    #[must_use]
    pub fn tokens(&self) -> impl ExactSizeIterator<Item = Token<'_>> {
        tokens_at(&self.tokens, self.start, &self.octets)
    }

    /// Returns the entry with borrowed octets.
    #[must_use]
    pub fn as_entry(&self) -> Entry<'_> {
        Entry {
            begins_blank: self.begins_blank,
            tokens: self.tokens().collect(),
        }
    }

    /// Returns the line and column of its first octet.
    #[must_use]
    pub fn position(&self) -> Position {
        self.position
    }

    /// Returns line and column of an offset in it, such as that of a token, or `None` before the entry and
    /// after its last token.
    #[must_use]
    pub fn locate(&self, place: usize) -> Option<Position> {
        let before = self.octets.get(..place.checked_sub(self.start)?)?;
        Some(advance(self.position, before))
    }
}

/// Returns the entries of a zone file from a `BufRead`, which is read in chunks.
///
/// Up to the first syntax error they are those of [`entries`](crate::entries). Then reading continues at
/// the next line, as in [`read_records`](crate::read_records). An error of the `BufRead` comes after the
/// entries that end before it, and is the last item. Interrupted calls are repeated.
///
/// At most a chunk and twice the longest entry are in memory. An entry of up to 4 KB is returned once its
/// line has ended; a longer one perhaps only after the same number of octets again.
///
/// ```
/// use dns_text::{read_entries, StreamError};
///
/// let mut found = read_entries(b"www A 192.0.2.1\na )\n  TXT b".as_slice());
/// let entry = found.next().unwrap()?;
/// let words: Vec<_> = entry.tokens().map(|token| token.text).collect();
/// assert_eq!(words, [b"www".as_slice(), b"A", b"192.0.2.1"]);
/// let error = found.next().unwrap().unwrap_err();
/// assert_eq!(error.to_string(), "2:3: closing parenthesis, and none is open");
/// let entry = found.next().unwrap()?;
/// assert!(entry.begins_blank());
/// let txt = entry.tokens().next().unwrap();
/// assert_eq!((txt.start, entry.locate(txt.start).unwrap().to_string()), (22, "3:3".to_string()));
/// assert!(found.next().is_none());
/// # Ok::<(), StreamError<dns_text::Fault>>(())
/// ```
#[must_use]
pub fn read_entries<R: BufRead>(reader: R) -> EntryReader<R> {
    EntryReader {
        window: Window::new(reader),
        scan: Scan::new(),
        is_done: false,
    }
}

/// An iterator over the entries of a zone file; see [`read_entries`].
#[derive(Debug)]
pub struct EntryReader<R> {
    pub(super) window: Window<R>,
    scan: Scan,
    is_done: bool,
}

impl<R: BufRead> EntryReader<R> {
    /// Returns the next entry, or the syntax error before its end, if the octets in memory decide it.
    fn read(&mut self) -> Option<Result<OwnedEntry, StreamError<Fault>>> {
        if !self.window.skip_line() {
            return None;
        }
        let text = self.window.rest();
        let may_go_on = !self.window.is_ended();
        self.scan.restart();
        match self.scan.read(text)? {
            Ok(()) if may_go_on && self.scan.is_done() => None,
            Ok(()) => Some(Ok(self.pass_entry())),
            Err(fault) if may_go_on && fault.place == text.len() => None,
            Err(fault) => Some(Err(self.pass_fault(fault))),
        }
    }

    fn pass_entry(&mut self) -> OwnedEntry {
        let tokens = self.scan.places();
        let end = tokens.last().map_or(0, |token| token.end);
        let entry = OwnedEntry {
            begins_blank: self.scan.begins_blank(),
            octets: self.window.rest()[..end].to_vec(),
            start: self.window.place(),
            position: self.window.position(),
            tokens: tokens.to_vec(),
        };
        self.is_done = self.scan.is_done();
        self.window.pass(self.scan.at());
        // (each entry has its position)
        self.window.count_lines();
        entry
    }

    fn pass_fault(&mut self, fault: Fault) -> StreamError<Fault> {
        let before = self.window.place();
        self.window.pass_line(fault.place);
        StreamError::Fault {
            fault: fault.behind(before),
            position: self.window.position(),
        }
    }
}

impl<R: BufRead> Iterator for EntryReader<R> {
    type Item = Result<OwnedEntry, StreamError<Fault>>;

    fn next(&mut self) -> Option<Self::Item> {
        while !self.is_done {
            if let Some(found) = self.read() {
                return Some(found);
            }
            self.is_done = self.window.is_ended();
            if let Err(error) = self.window.fill() {
                self.is_done = true;
                return Some(Err(StreamError::Io(error)));
            }
        }
        None
    }
}

impl<R: BufRead> FusedIterator for EntryReader<R> {}
