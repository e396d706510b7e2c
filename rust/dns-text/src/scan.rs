//! The entries of a zone file, as the offsets of their tokens.
use crate::library;
use crate::zone::{Fault, FaultKind};
use dns_text_sys::{
    dnstext_cursor, dnstext_entry_next, dnstext_outcome, dnstext_token, DNSTEXT_END,
    DNSTEXT_NO_ROOM, DNSTEXT_OK,
};

/// The offset at which reading continues, and the tokens of the last entry.
#[derive(Clone, Debug)]
pub(crate) struct Scan {
    cursor: dnstext_cursor,
    tokens: Vec<dnstext_token>,
    count: usize,
}

impl Scan {
    /// Returns the state at the start of a text.
    pub(crate) fn new() -> Scan {
        library::check();
        Scan {
            cursor: dnstext_cursor::default(),
            tokens: vec![dnstext_token::default(); 16],
            count: 0,
        }
    }

    /// Goes back to the start.
    pub(crate) fn restart(&mut self) {
        self.cursor = dnstext_cursor::default();
        self.count = 0;
    }

    /// Returns the offset of the next entry.
    pub(crate) fn at(&self) -> usize {
        self.cursor.at
    }

    /// Returns whether the last entry began with a blank.
    pub(crate) fn begins_blank(&self) -> bool {
        self.cursor.begins_blank
    }

    /// Returns whether nothing remains: the last entry then ended with the text and not with a line.
    pub(crate) fn is_done(&self) -> bool {
        self.cursor.is_done
    }

    /// Returns the offsets of the tokens of the last entry.
    pub(crate) fn places(&self) -> &[dnstext_token] {
        &self.tokens[..self.count]
    }

    /// Reads the next entry. Returns a syntax error after the tokens before it.
    pub(crate) fn read(&mut self, text: &[u8]) -> Option<Result<(), Fault>> {
        loop {
            let before = self.cursor;
            let mut outcome = dnstext_outcome::default();
            // SAFETY: the pointers and lengths are those of two slices, and the call stays within them.
            let status = unsafe {
                dnstext_entry_next(
                    text.as_ptr(),
                    text.len(),
                    &mut self.cursor,
                    self.tokens.as_mut_ptr(),
                    self.tokens.len(),
                    &mut outcome,
                )
            };
            if let Some(room) = self.lacking(status, outcome.length) {
                self.tokens.resize(room, dnstext_token::default());
                self.cursor = before;
                continue;
            }
            self.count = outcome.length;
            return self.tell(status, outcome.place);
        }
    }

    /// Returns the number of tokens that the array must hold, if it was too small. Tokens before a syntax
    /// error that fill the array may not be all.
    fn lacking(&self, status: u32, given: usize) -> Option<usize> {
        let room = self.tokens.len();
        match status {
            DNSTEXT_NO_ROOM => Some(given.max(room + 1)),
            DNSTEXT_OK | DNSTEXT_END => None,
            _ => (given >= room).then_some(2 * room),
        }
    }

    fn tell(&self, status: u32, place: usize) -> Option<Result<(), Fault>> {
        match status {
            DNSTEXT_OK => Some(Ok(())),
            DNSTEXT_END => None,
            status => {
                let kind = FaultKind::of(status);
                Some(Err(Fault {
                    kind,
                    place,
                    opened: kind.is_open().then_some(self.cursor.opened),
                }))
            }
        }
    }
}
