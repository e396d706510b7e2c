//! Zone files and their includes, from the file system.
use super::{read_records, FollowError, FollowedRecords, RecordReader};
use crate::sets::{record_sets, RecordSet};
use crate::{Class, Name, Position, Record, Ttl};
use std::fs::{self, File};
use std::io::{self, BufReader, ErrorKind};
use std::iter::FusedIterator;
use std::path::{Path, PathBuf};
use std::{env, fmt};

/// The reader of a file.
type Reader = BufReader<File>;

/// Opens an included file.
type Open = Box<dyn FnMut(&[u8]) -> io::Result<Reader> + Send>;

/// Returns the records of a zone file and of the files that it includes, in order.
///
/// A file that an `$INCLUDE` names is relative to the folder of the file that includes it. After links and `..` are
/// resolved, it must be in the folder of the first file, or below: in that of its name, or of the file that a link
/// with its name leads to. Otherwise the directive is an error. This is not a security boundary: links can change
/// meanwhile. The rest is as with [`RecordReader::follow_includes`](crate::RecordReader::follow_includes).
///
/// Fails if the first file can't be opened, or with [`ErrorKind::InvalidInput`] if the origin is a relative name. All
/// other errors are items: after an error, reading continues at the next entry, or after the line of a syntax error.
///
/// ```
/// use dns_text::read_zone;
///
/// # let folder = std::env::temp_dir().join(format!("dns_text-read_zone-{}", std::process::id()));
/// # std::fs::create_dir_all(&folder)?;
/// # std::fs::write(folder.join("example.zone"), "$TTL 1h\n@ MX 10 mail\n$INCLUDE hosts\n")?;
/// # std::fs::write(folder.join("hosts"), "mail A 192.0.2.1\n A 192.0.2.256\n")?;
/// let origin = "example.".parse()?;
/// let mut lines = Vec::new();
/// for record in read_zone(folder.join("example.zone"), &origin)? {
///     match record {
///         Ok(record) => lines.push(record.to_string()),
///         Err(error) => eprintln!("{error}"), // FOLDER/hosts:2:4: A: address: expected IPv4 address
///     }
/// }
/// assert_eq!(lines, ["example. 3600 IN MX 10 mail.example.", "mail.example. 3600 IN A 192.0.2.1"]);
/// # std::fs::remove_dir_all(&folder)?;
/// # Ok::<(), Box<dyn std::error::Error>>(())
/// ```
pub fn read_zone(path: impl AsRef<Path>, origin: &Name) -> io::Result<ZoneRecords> {
    let path = path.as_ref();
    let reader = read_records(BufReader::new(File::open(path)?));
    let reader = reader
        .with_origin(origin)
        .map_err(|error| io::Error::new(ErrorKind::InvalidInput, error))?;
    let folders = [folder_of(path)?, folder_of(&fs::canonicalize(path)?)?];
    let open: Open = Box::new(move |file| open_below(&folders, file));
    let found = FollowedRecords::new(reader, open);
    Ok(ZoneRecords {
        found: found.named(octets_of(path), join),
    })
}

/// Returns the folder of a file, without links.
fn folder_of(path: &Path) -> io::Result<PathBuf> {
    match path.parent() {
        Some(folder) if folder != Path::new("") => fs::canonicalize(folder),
        _ => env::current_dir().and_then(fs::canonicalize),
    }
}

/// Opens a file that is in one of the folders, or below.
fn open_below(folders: &[PathBuf], file: &[u8]) -> io::Result<Reader> {
    let path = fs::canonicalize(path_of(file)?)?;
    if !folders.iter().any(|folder| path.starts_with(folder)) {
        let why = "file outside the folder of the zone";
        return Err(io::Error::new(ErrorKind::PermissionDenied, why));
    }
    File::open(path).map(BufReader::new)
}

/// Returns the path of a file that another one includes.
fn join(outer: &[u8], file: &[u8]) -> Vec<u8> {
    match (path_of(outer), path_of(file)) {
        (Ok(outer), Ok(inner)) => octets_of(&outer.with_file_name("").join(inner)),
        _ => file.to_vec(),
    }
}

#[cfg(unix)]
fn path_of(octets: &[u8]) -> io::Result<PathBuf> {
    use std::ffi::OsStr;
    use std::os::unix::ffi::OsStrExt;
    Ok(OsStr::from_bytes(octets).into())
}

#[cfg(unix)]
fn octets_of(path: &Path) -> Vec<u8> {
    use std::os::unix::ffi::OsStrExt;
    path.as_os_str().as_bytes().to_vec()
}

#[cfg(not(unix))]
fn path_of(octets: &[u8]) -> io::Result<PathBuf> {
    let name = std::str::from_utf8(octets);
    name.map(PathBuf::from)
        .map_err(|error| io::Error::new(ErrorKind::InvalidInput, error))
}

#[cfg(not(unix))]
fn octets_of(path: &Path) -> Vec<u8> {
    path.to_string_lossy().into_owned().into_bytes()
}

/// An iterator over the records of a zone file and of the files that it includes; see [`read_zone`]. The files in
/// errors are paths.
pub struct ZoneRecords {
    found: FollowedRecords<Reader, Open>,
}

impl ZoneRecords {
    /// Sets the class of records without one.
    #[must_use]
    pub fn with_class(self, class: Class) -> Self {
        self.with_reader(|reader| reader.with_class(class))
    }

    /// Sets the default TTL, as `$TTL` does (RFC 2308 section 4).
    #[must_use]
    pub fn with_default_ttl(self, ttl: Ttl) -> Self {
        self.with_reader(|reader| reader.with_default_ttl(ttl))
    }

    /// Sets the greatest number of entries of a `$GENERATE` directive.
    #[must_use]
    pub fn with_max_generate(self, most: u64) -> Self {
        ZoneRecords {
            found: self.found.with_max_generate(most),
        }
    }

    fn with_reader(
        self,
        change: impl FnOnce(RecordReader<Reader>) -> RecordReader<Reader>,
    ) -> Self {
        ZoneRecords {
            found: self.found.with_first(change),
        }
    }

    /// Returns the path of the last item's file, as its octets; `None` at the end.
    #[must_use]
    pub fn file(&self) -> Option<&[u8]> {
        self.found.file()
    }

    /// Returns line and column of an offset in the last item, such as where a record begins, in its file.
    #[must_use]
    pub fn locate(&self, place: usize) -> Option<Position> {
        self.found.locate(place)
    }

    /// Returns the records as sets in canonical order, or the first error. For the sets of a zone with errors, pass
    /// the records to [`record_sets`].
    ///
    /// ```no_run
    /// use dns_text::read_zone;
    ///
    /// for set in read_zone("example.zone", &"example.".parse()?)?.into_sets()? {
    ///     println!("{} {}: {} records", set.owner, set.record_type, set.data.len());
    /// }
    /// # Ok::<(), Box<dyn std::error::Error>>(())
    /// ```
    pub fn into_sets(self) -> Result<Vec<RecordSet>, FollowError<io::Error>> {
        let records: Vec<Record> = self.collect::<Result<_, _>>()?;
        Ok(record_sets(records))
    }
}

impl Iterator for ZoneRecords {
    type Item = Result<Record, FollowError<io::Error>>;

    fn next(&mut self) -> Option<Self::Item> {
        self.found.next()
    }
}

impl FusedIterator for ZoneRecords {}

impl fmt::Debug for ZoneRecords {
    fn fmt(&self, f: &mut fmt::Formatter<'_>) -> fmt::Result {
        let file = self.file().map(String::from_utf8_lossy);
        f.debug_struct("ZoneRecords")
            .field("file", &file)
            .finish_non_exhaustive()
    }
}
