//! The records of a zone file and of the files that it includes.
use super::{RecordReader, StreamError};
use crate::{
    Generate, GenerateFault, GenerateFaultKind, Name, Position, Record, RecordFault, ZoneItem,
};
use std::borrow::Cow;
use std::error::Error;
use std::fmt;
use std::io::{self, BufRead, Read};
use std::iter::FusedIterator;

/// Greatest number of files that are open, besides the first.
const MOST_OPEN: usize = 10;

/// Greatest number of files that are included.
const MOST_FILES: usize = 10_000;

/// Greatest number of entries of a `$GENERATE` directive, unless another is set; that of `zonetext`.
const MOST_ENTRIES: u64 = 1 << 20;

/// An iterator over the records of a zone file and of the files that it includes, in order; see
/// [`Records::follow_includes`](crate::Records::follow_includes) and [`RecordReader::follow_includes`].
///
/// An included file begins with the class, the owner and the TTLs after its `$INCLUDE`, and with the origin of
/// the directive, or else with the one before it. After the file, origin and owner are as before it, and its
/// TTLs apply (RFC 1035 section 5.1; BIND). After an error, reading continues at the next entry, or after the
/// line of a syntax error; and after the `$INCLUDE` of a file that isn't read. At most 10 files include one
/// another, and at most 10,000 are included in all.
///
/// The records of a `$GENERATE` directive are in its place, one by one. Their offsets are that of the directive,
/// and so is the position of their errors. They have the origin, the class and the TTLs at the directive. The
/// TTLs that they set apply after it, and their owners don't. A rejected entry ends its directive. A directive
/// with more than 1,048,576 entries has none: [`with_max_generate`](FollowedRecords::with_max_generate) sets
/// another limit.
///
/// ```
/// use dns_text::{records, FollowErrorKind};
///
/// let zone = b"$TTL 1h\n$GENERATE 1-3 h$.example. A 192.0.2.$\n";
/// let open = |_: &[u8]| Err::<&[u8], _>("no file");
/// let found = || records(zone).follow_includes(open);
/// let owners: Result<Vec<_>, _> = found().map(|it| it.map(|it| it.owner.to_string())).collect();
/// assert_eq!(owners?, ["h1.example.", "h2.example.", "h3.example."]);
/// let error = found().with_max_generate(2).next().unwrap().unwrap_err();
/// assert!(matches!(error.kind, FollowErrorKind::TooManyEntries { most: 2 }));
/// assert_eq!(error.to_string(), "2:1: $GENERATE has more than 2 entries");
/// # Ok::<(), Box<dyn std::error::Error>>(())
/// ```
#[derive(Debug)]
pub struct FollowedRecords<R, F> {
    open: F,
    /// The files that are open. The last one is read.
    files: Vec<OpenFile<R>>,
    /// Number of files that were included.
    included: usize,
    /// Greatest number of entries of a `$GENERATE` directive.
    most_entries: u64,
    /// The directive of the file that is read, while its entries are.
    generated: Option<GeneratedRecords>,
    /// How the names of included files are made; without it they are those in the text.
    join: Option<Join>,
}

/// Returns the name of an included file from that of the file that includes it and that in the text.
type Join = fn(&[u8], &[u8]) -> Vec<u8>;

/// A file that is open, and its name, if it is not the first.
#[derive(Debug)]
struct OpenFile<R> {
    name: Option<Vec<u8>>,
    reader: RecordReader<R>,
}

/// A `$GENERATE` directive, and the index of its next entry.
#[derive(Debug)]
struct GeneratedRecords {
    directive: Generate,
    index: u64,
}

/// An error of a zone file or of a file that it includes. It displays as `file:line:column: message`, without
/// a file in the first one.
#[derive(Debug)]
pub struct FollowError<E> {
    /// Name of the file, as in its `$INCLUDE`; `None` for the first file.
    pub file: Option<Vec<u8>>,
    /// Line and column, if it is not an error of reading. Those of the directive for an error of `$GENERATE` or
    /// of one of its entries.
    pub position: Option<Position>,
    pub kind: FollowErrorKind<E>,
}

/// What is wrong with a file.
#[derive(Debug)]
#[non_exhaustive]
pub enum FollowErrorKind<E> {
    /// A syntax error or a rejected entry.
    Fault(RecordFault),
    /// The file that an `$INCLUDE` names is not read: the error of the function.
    Open { file: Vec<u8>, error: E },
    /// The file that an `$INCLUDE` names is not read: more than 10 files include one another, perhaps since one
    /// includes itself.
    TooDeep { file: Vec<u8> },
    /// The file that an `$INCLUDE` names is not read: 10,000 files are included already.
    TooMany { file: Vec<u8> },
    /// A rejected `$GENERATE` directive. The offset of the rejected token is in the fault.
    Generate(GenerateFault),
    /// A rejected entry of a `$GENERATE` directive, whose offset is in the fault, and its number. No record of
    /// the directive follows.
    GeneratedEntry { number: u32, fault: RecordFault },
    /// A `$GENERATE` directive that isn't read: it has more than `most` entries.
    TooManyEntries { most: u64 },
    /// Reading failed. No record of this file follows.
    Io(io::Error),
}

impl<E: fmt::Display> fmt::Display for FollowErrorKind<E> {
    fn fmt(&self, f: &mut fmt::Formatter<'_>) -> fmt::Result {
        let shown = String::from_utf8_lossy;
        match self {
            FollowErrorKind::Fault(fault) => f.write_str(fault.message()),
            FollowErrorKind::Open { file, error } => {
                write!(f, "cannot open '{}': {error}", shown(file))
            }
            FollowErrorKind::TooDeep { file } => {
                let why = "more than 10 files include one another";
                write!(f, "not included: {why} '{}'", shown(file))
            }
            FollowErrorKind::TooMany { file } => {
                let why = "10000 files are included already";
                write!(f, "not included: {why} '{}'", shown(file))
            }
            FollowErrorKind::Generate(fault) => f.write_str(&fault.reason),
            FollowErrorKind::GeneratedEntry { number, fault } => {
                write!(f, "$GENERATE {number}: {}", fault.message())
            }
            FollowErrorKind::TooManyEntries { most } => {
                write!(f, "$GENERATE has more than {most} entries")
            }
            FollowErrorKind::Io(error) => write!(f, "{error}"),
        }
    }
}

impl<E: fmt::Display> fmt::Display for FollowError<E> {
    fn fmt(&self, f: &mut fmt::Formatter<'_>) -> fmt::Result {
        if let Some(file) = &self.file {
            write!(f, "{}:", String::from_utf8_lossy(file))?;
        }
        if let Some(position) = self.position {
            write!(f, "{position}:")?;
        }
        if self.file.is_some() || self.position.is_some() {
            f.write_str(" ")?;
        }
        self.kind.fmt(f)
    }
}

impl<E: fmt::Debug + fmt::Display> Error for FollowError<E> {}

impl<R, F> FollowedRecords<R, F> {
    pub(super) fn new(reader: RecordReader<R>, open: F) -> FollowedRecords<R, F> {
        let first = OpenFile { name: None, reader };
        FollowedRecords {
            open,
            files: vec![first],
            included: 0,
            most_entries: MOST_ENTRIES,
            generated: None,
            join: None,
        }
    }

    /// Sets the name of the first file, and how the names of included files are made.
    pub(super) fn named(mut self, name: Vec<u8>, join: Join) -> FollowedRecords<R, F> {
        if let Some(first) = self.files.first_mut() {
            first.name = Some(name);
        }
        self.join = Some(join);
        self
    }

    /// Changes the reader of the first file.
    pub(super) fn with_first(
        mut self,
        change: impl FnOnce(RecordReader<R>) -> RecordReader<R>,
    ) -> FollowedRecords<R, F> {
        if self.files.len() == 1 {
            let first = self.files.pop().map(|file| OpenFile {
                reader: change(file.reader),
                ..file
            });
            self.files.extend(first);
        }
        self
    }

    /// Sets the greatest number of entries of a `$GENERATE` directive.
    #[must_use]
    pub fn with_max_generate(mut self, most: u64) -> Self {
        self.most_entries = most;
        self
    }

    /// Returns the name of the last item's file, as in its `$INCLUDE`; `None` for the first file, and at the
    /// end.
    pub fn file(&self) -> Option<&[u8]> {
        self.files.last()?.name.as_deref()
    }

    /// Returns line and column of an offset in the last item, such as where a record begins, in its file.
    pub fn locate(&self, place: usize) -> Option<Position> {
        self.files.last()?.reader.locate(place)
    }

    /// Closes the file that is read. Its TTLs apply after it.
    fn close(&mut self) {
        if let (Some(ended), Some(outer)) = (self.files.pop(), self.files.last_mut()) {
            outer.reader.copy_ttls(&ended.reader);
        }
    }

    /// Returns an error of the file that is read.
    fn error<E>(&self, position: Option<Position>, kind: FollowErrorKind<E>) -> FollowError<E> {
        FollowError {
            file: self.file().map(<[u8]>::to_vec),
            position,
            kind,
        }
    }

    /// Begins to read the entries of a directive. Returns the error if it has too many.
    fn generate<E>(&mut self, directive: Generate) -> Result<(), FollowErrorKind<E>> {
        let most = self.most_entries;
        match directive.entry(most) {
            Ok(None) => {}
            Err(fault) if fault.kind == GenerateFaultKind::BadGenerate => {
                return Err(FollowErrorKind::Generate(fault));
            }
            // (perhaps one that is too long)
            _ => return Err(FollowErrorKind::TooManyEntries { most }),
        }
        let index = 0;
        self.generated = Some(GeneratedRecords { directive, index });
        Ok(())
    }

    /// Returns the record of the next entry of the directive that is read, or the error that ends it; `None`
    /// after its last entry, and if none is read.
    fn next_generated<E>(&mut self) -> Option<Result<Record, FollowError<E>>> {
        let reader = &mut self.files.last_mut()?.reader;
        let generated = self.generated.as_mut()?;
        let place = generated.directive.place;
        let found = generated.next(reader);
        if !matches!(found, Some(Ok(_))) {
            self.generated = None;
        }
        Some(found?.map_err(|kind| self.error(self.locate(place), kind)))
    }

    /// Opens an included file. Returns the error if it isn't read.
    fn include<T: Into<R>, E>(
        &mut self,
        file: Vec<u8>,
        origin: Option<&Name>,
    ) -> Result<(), FollowErrorKind<E>>
    where
        F: FnMut(&[u8]) -> Result<T, E>,
    {
        let Some(outer) = self.files.last() else {
            return Ok(());
        };
        let file = match (self.join, &outer.name) {
            (Some(join), Some(name)) => join(name, &file),
            _ => file,
        };
        if self.files.len() > MOST_OPEN {
            return Err(FollowErrorKind::TooDeep { file });
        }
        if self.included >= MOST_FILES {
            return Err(FollowErrorKind::TooMany { file });
        }
        let opened = match (self.open)(&file) {
            Ok(opened) => opened.into(),
            Err(error) => return Err(FollowErrorKind::Open { file, error }),
        };
        // The library returns absolute origins only.
        if let Ok(reader) = outer.reader.include(origin, opened) {
            self.included += 1;
            self.files.push(OpenFile {
                name: Some(file),
                reader,
            });
        }
        Ok(())
    }
}

impl GeneratedRecords {
    /// Returns the record of the next entry, or the error that ends the directive.
    fn next<R, E>(
        &mut self,
        reader: &mut RecordReader<R>,
    ) -> Option<Result<Record, FollowErrorKind<E>>> {
        let entry = match self.directive.entry(self.index) {
            Ok(entry) => entry?,
            Err(fault) => return Some(Err(FollowErrorKind::Generate(fault))),
        };
        self.index += 1;
        let place = self.directive.place;
        match reader.read_entry(&entry.text)? {
            Ok(ZoneItem::Record(record)) => Some(Ok(Record {
                place,
                data_place: place,
                end: place,
                ..record
            })),
            // (the library writes no directives as entries)
            Ok(_) => None,
            Err(fault) => Some(Err(FollowErrorKind::GeneratedEntry {
                number: entry.number,
                fault: RecordFault { place, ..fault },
            })),
        }
    }
}

impl<R, F, T, E> Iterator for FollowedRecords<R, F>
where
    R: BufRead,
    F: FnMut(&[u8]) -> Result<T, E>,
    T: Into<R>,
{
    type Item = Result<Record, FollowError<E>>;

    fn next(&mut self) -> Option<Self::Item> {
        loop {
            if let Some(found) = self.next_generated() {
                return Some(found);
            }
            match self.files.last_mut()?.reader.next() {
                None => self.close(),
                Some(Ok(ZoneItem::Record(record))) => return Some(Ok(record)),
                Some(Ok(ZoneItem::Include {
                    place,
                    file,
                    origin,
                })) => {
                    let position = self.locate(place);
                    if let Err(kind) = self.include(file, origin.as_ref()) {
                        return Some(Err(self.error(position, kind)));
                    }
                }
                Some(Ok(ZoneItem::Generate(directive))) => {
                    let position = self.locate(directive.place);
                    if let Err(kind) = self.generate(directive) {
                        return Some(Err(self.error(position, kind)));
                    }
                }
                Some(Err(StreamError::Fault { fault, position })) => {
                    let kind = FollowErrorKind::Fault(fault);
                    return Some(Err(self.error(Some(position), kind)));
                }
                Some(Err(StreamError::Io(error))) => {
                    return Some(Err(self.error(None, FollowErrorKind::Io(error))));
                }
            }
        }
    }
}

impl<R, F, T, E> FusedIterator for FollowedRecords<R, F>
where
    R: BufRead,
    F: FnMut(&[u8]) -> Result<T, E>,
    T: Into<R>,
{
}

/// A text in memory that is read as a file: the reader of
/// [`Records::follow_includes`](crate::Records::follow_includes).
#[derive(Clone, Debug)]
pub struct TextReader<'t> {
    text: Cow<'t, [u8]>,
    at: usize,
}

impl TextReader<'_> {
    fn rest(&self) -> &[u8] {
        self.text.get(self.at..).unwrap_or_default()
    }
}

impl Read for TextReader<'_> {
    fn read(&mut self, buffer: &mut [u8]) -> io::Result<usize> {
        let count = self.rest().read(buffer)?;
        self.consume(count);
        Ok(count)
    }
}

impl BufRead for TextReader<'_> {
    fn fill_buf(&mut self) -> io::Result<&[u8]> {
        Ok(self.rest())
    }

    fn consume(&mut self, count: usize) {
        self.at += count;
    }
}

impl<'s: 't, 't> From<&'s [u8]> for TextReader<'t> {
    fn from(text: &'s [u8]) -> TextReader<'t> {
        TextReader {
            text: Cow::Borrowed(text),
            at: 0,
        }
    }
}

impl From<Vec<u8>> for TextReader<'_> {
    fn from(text: Vec<u8>) -> Self {
        TextReader {
            text: Cow::Owned(text),
            at: 0,
        }
    }
}

impl From<String> for TextReader<'_> {
    fn from(text: String) -> Self {
        text.into_bytes().into()
    }
}
