//! Zone files from a `BufRead`, chunk by chunk.
mod entries;
mod files;
mod follow;
mod records;
mod window;

pub use entries::{read_entries, EntryReader, OwnedEntry};
pub use files::{read_zone, ZoneRecords};
pub use follow::{FollowError, FollowErrorKind, FollowedRecords, TextReader};
pub use records::{read_records, RecordReader};

use crate::{Fault, Position, RecordFault};
use std::error::Error;
use std::{fmt, io};

/// An error of reading a zone file: of the `BufRead`, or of the text.
///
/// Offsets count from where reading began. An error of the text displays as `line:column: message`, and an
/// error of the `BufRead` as it does itself.
#[derive(Debug)]
pub enum StreamError<F> {
    /// The `BufRead` failed. No item follows.
    Io(io::Error),
    /// A syntax error or a rejected entry. Reading continues after it.
    Fault { fault: F, position: Position },
}

impl<F> StreamError<F> {
    /// Returns line and column of an error of the text.
    pub fn position(&self) -> Option<Position> {
        match self {
            StreamError::Io(_) => None,
            StreamError::Fault { position, .. } => Some(*position),
        }
    }

    /// Returns the error of the text.
    pub fn fault(&self) -> Option<&F> {
        match self {
            StreamError::Io(_) => None,
            StreamError::Fault { fault, .. } => Some(fault),
        }
    }

    /// Displays an error of the `BufRead`, or the position and message of an error of the text.
    fn write<'e>(
        &'e self,
        message: fn(&'e F) -> &'e str,
        f: &mut fmt::Formatter<'_>,
    ) -> fmt::Result {
        match self {
            StreamError::Io(error) => fmt::Display::fmt(error, f),
            StreamError::Fault { fault, position } => write!(f, "{position}: {}", message(fault)),
        }
    }

    fn cause(&self) -> Option<&(dyn Error + 'static)> {
        match self {
            StreamError::Io(error) => error.source(),
            StreamError::Fault { .. } => None,
        }
    }
}

impl fmt::Display for StreamError<Fault> {
    fn fmt(&self, f: &mut fmt::Formatter<'_>) -> fmt::Result {
        self.write(Fault::message, f)
    }
}

impl fmt::Display for StreamError<RecordFault> {
    fn fmt(&self, f: &mut fmt::Formatter<'_>) -> fmt::Result {
        self.write(RecordFault::message, f)
    }
}

impl Error for StreamError<Fault> {
    fn source(&self) -> Option<&(dyn Error + 'static)> {
        self.cause()
    }
}

impl Error for StreamError<RecordFault> {
    fn source(&self) -> Option<&(dyn Error + 'static)> {
        self.cause()
    }
}

#[cfg(test)]
mod tests {
    use super::{read_entries, read_records};
    use std::io::BufReader;

    /// At most a chunk and an entry are in memory, however long the text is.
    #[test]
    fn little_is_held() {
        let line = [
            b"; a comment\n$TTL 60\n\n a ) b\n".repeat(100),
            b"w TXT (a\n".to_vec(),
            b"b ; c\n".repeat(1000),
            b")\n\\300".to_vec(),
            b"x".repeat(6000),
            b"\n".to_vec(),
        ];
        let text = line.concat().repeat(50);
        let block = || BufReader::with_capacity(1000, text.as_slice());
        let mut entries = read_entries(block());
        while entries.next().is_some() {
            assert!(entries.window.room() < 20_000);
        }
        let mut records = read_records(block());
        while records.next().is_some() {
            assert!(records.window.room() < 20_000);
        }
    }
}
