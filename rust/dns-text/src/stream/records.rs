//! The records of a zone file from a `BufRead`.
use super::window::Window;
use super::{FollowedRecords, StreamError};
use crate::records::{RelativeOrigin, RelativeOwner, ZoneItem, ZoneState};
use crate::{pieces, Class, Name, PieceKind, Position, RecordFault, Ttl};
use std::io::BufRead;
use std::iter::FusedIterator;

/// Returns the records of a zone file from a `BufRead`, which is read in chunks.
///
/// Records and errors are those of [`records`](crate::records); errors have lines and columns. An error of
/// the `BufRead` comes after the records that end before it, and is the last item. Interrupted calls are
/// repeated.
///
/// At most a chunk, twice the longest entry, and 64 KB for RDATA are in memory. An entry of up to 4 KB is
/// returned once its line has ended; a longer one perhaps only after the same number of octets again.
///
/// ```
/// use dns_text::{read_records, Name, RecordData, ZoneItem};
/// use std::io::BufReader;
///
/// let file = b"$TTL 1h\n@ MX 10 mail\nmail A 192.0.2\n  A 192.0.2.1\n".as_slice();
/// let mut found = read_records(BufReader::new(file)).with_origin(&"example.".parse()?)?;
/// let Some(Ok(ZoneItem::Record(mx))) = found.next() else { panic!() };
/// assert_eq!((mx.owner.to_string(), mx.ttl.seconds()), ("example.".to_string(), 3600));
/// let error = found.next().unwrap().unwrap_err();
/// assert_eq!(error.to_string(), "3:8: A: address: expected IPv4 address");
/// let Some(Ok(ZoneItem::Record(a))) = found.next() else { panic!() };
/// assert_eq!(a.data, RecordData::A("192.0.2.1".parse()?));
/// assert_eq!(found.locate(a.place).unwrap().to_string(), "4:3");
/// assert!(found.next().is_none());
/// # Ok::<(), Box<dyn std::error::Error>>(())
/// ```
#[must_use]
pub fn read_records<R: BufRead>(reader: R) -> RecordReader<R> {
    RecordReader {
        window: Window::new(reader),
        state: ZoneState::new(),
        is_done: false,
    }
}

/// An iterator over the records of a zone file; see [`read_records`].
#[derive(Debug)]
pub struct RecordReader<R> {
    pub(super) window: Window<R>,
    state: ZoneState,
    is_done: bool,
}

impl<R> RecordReader<R> {
    /// Sets the origin, which is appended to relative names. Fails if it is a relative name.
    pub fn with_origin(mut self, origin: &Name) -> Result<Self, RelativeOrigin> {
        self.state.set_origin(origin)?;
        Ok(self)
    }

    /// Sets the class of records without one.
    #[must_use]
    pub fn with_class(mut self, class: Class) -> Self {
        self.state.set_class(class);
        self
    }

    /// Sets the default TTL, as `$TTL` does (RFC 2308 section 4).
    #[must_use]
    pub fn with_default_ttl(mut self, ttl: Ttl) -> Self {
        self.state.set_default_ttl(ttl);
        self
    }

    /// Sets the owner of records that begin with a blank, up to the first record with an owner. Fails if it
    /// is a relative name.
    pub fn with_owner(mut self, owner: &Name) -> Result<Self, RelativeOwner> {
        self.state.set_owner(owner)?;
        Ok(self)
    }

    /// Returns the origin that applies to the next entry, if there is one.
    pub fn origin(&self) -> Option<Name> {
        self.state.origin()
    }

    /// Returns the records of an included file, as [`Records::include`](crate::Records::include) does.
    pub fn include<S>(
        &self,
        origin: Option<&Name>,
        reader: S,
    ) -> Result<RecordReader<S>, RelativeOrigin> {
        Ok(RecordReader {
            window: Window::new(reader),
            state: self.state.included(origin)?,
            is_done: false,
        })
    }

    /// Applies the default TTL and the last TTL of an included file to the entries after it, as BIND does.
    pub fn copy_ttls<S>(&mut self, included: &RecordReader<S>) {
        self.state.copy_ttls(&included.state);
    }

    /// Returns the records of this file and of the files that it includes. `open` opens a file, by its name
    /// in the text. See [`FollowedRecords`].
    ///
    /// ```no_run
    /// use dns_text::read_records;
    /// use std::{fs::File, io::BufReader, path::Path};
    ///
    /// let open = |name: &str| File::open(Path::new("zones").join(name)).map(BufReader::new);
    /// let found = read_records(open("example.zone")?).with_origin(&"example.".parse()?)?;
    /// for record in found.follow_includes(|name| open(&String::from_utf8_lossy(name))) {
    ///     match record {
    ///         Ok(record) => println!("{}", record.owner),
    ///         Err(error) => eprintln!("{error}"),
    ///     }
    /// }
    /// # Ok::<(), Box<dyn std::error::Error>>(())
    /// ```
    #[must_use]
    pub fn follow_includes<F, T, E>(self, open: F) -> FollowedRecords<R, F>
    where
        F: FnMut(&[u8]) -> Result<T, E>,
        T: Into<R>,
    {
        FollowedRecords::new(self, open)
    }

    /// Returns a reader that continues at an offset.
    pub(crate) fn resumed(
        reader: R,
        state: ZoneState,
        place: usize,
        position: Option<Position>,
    ) -> RecordReader<R> {
        let start = Position { line: 1, column: 1 };
        RecordReader {
            window: Window::starting_at(reader, place, position.unwrap_or(start)),
            state,
            is_done: false,
        }
    }

    /// Reads an entry of a `$GENERATE` directive, as if it were in the place of the last item. Offsets are
    /// those in the entry. The TTLs that it sets apply to later records, and its owner doesn't.
    pub fn read_entry(&mut self, entry: &[u8]) -> Option<Result<ZoneItem, RecordFault>> {
        self.state.read_entry(entry)
    }

    /// Returns line and column of an offset in the last item, such as where a record begins.
    pub fn locate(&self, place: usize) -> Option<Position> {
        self.window.locate(place)
    }
}

/// Returns the length of the entries of a text that end with a line end.
fn whole_entries(text: &[u8]) -> usize {
    let (mut whole, mut ended) = (0, 0);
    for piece in pieces(text) {
        // Something follows the end, if only the empty entry after the last line.
        whole = ended;
        if let Ok(piece) = piece {
            if piece.kind == PieceKind::EntryEnd {
                ended = piece.start;
            }
        }
    }
    whole
}

impl<R: BufRead> RecordReader<R> {
    /// Returns the next record, file to include or error, if the octets in memory decide it.
    fn read(&mut self) -> Option<Result<ZoneItem, StreamError<RecordFault>>> {
        if !self.window.skip_line() {
            return None;
        }
        let mut text = self.window.rest();
        let before = self.state.keep();
        let (mut step, mut at) = self.state.step(text);
        if !self.window.is_ended() && !step.is_settled(at, text) {
            self.state.go_back(before);
            text = &text[..whole_entries(text)];
            (step, at) = self.state.step(text);
        }
        let place = self.window.place();
        match self.state.item(step, text) {
            None => {
                self.window.pass(at);
                None
            }
            Some(Ok(mut item)) => {
                item.move_behind(place);
                self.window.pass(at);
                Some(Ok(item))
            }
            Some(Err(fault)) => Some(Err(self.pass_fault(fault, at))),
        }
    }

    /// Advances past an error.
    fn pass_fault(&mut self, fault: RecordFault, at: usize) -> StreamError<RecordFault> {
        let before = self.window.place();
        if fault.is_of_text() {
            self.window.pass_line(fault.place);
        } else if fault.is_unknown() {
            self.is_done = true;
        } else {
            self.window.pass(at);
        }
        self.refusal(fault.behind(before))
    }

    fn refusal(&self, fault: RecordFault) -> StreamError<RecordFault> {
        let position = self.window.locate(fault.place);
        StreamError::Fault {
            position: position.unwrap_or(self.window.position()),
            fault,
        }
    }
}

impl<R: BufRead> Iterator for RecordReader<R> {
    type Item = Result<ZoneItem, StreamError<RecordFault>>;

    fn next(&mut self) -> Option<Self::Item> {
        while !self.is_done {
            if let Some(found) = self.read() {
                return Some(found);
            }
            self.is_done = self.window.is_ended();
            if let Err(error) = self.window.fill() {
                self.is_done = true;
                return Some(Err(StreamError::Io(error)));
            }
        }
        None
    }
}

impl<R: BufRead> FusedIterator for RecordReader<R> {}
