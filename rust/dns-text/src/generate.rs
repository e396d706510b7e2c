//! The `$GENERATE` directive of BIND.
use crate::library;
use crate::status::reasons;
use dns_text_sys::{
    dnstext_generate_entry, dnstext_outcome, DNSTEXT_END, DNSTEXT_NO_ROOM, DNSTEXT_OK,
};
use std::error::Error;
use std::fmt;

/// A `$GENERATE` directive of a zone file: an entry for each number of a range.
///
/// ```
/// use dns_text::{records, RecordData, ZoneItem};
///
/// let zone = b"$GENERATE 1-3 h$.example. 1h A 192.0.2.$\n";
/// let mut found = records(zone);
/// let Some(Ok(ZoneItem::Generate(directive))) = found.next() else { panic!() };
/// let Some(entry) = directive.entry(1)? else { panic!() };
/// assert_eq!((entry.number, entry.text.as_slice()), (2, b"h2.example. 1h A 192.0.2.2\n".as_slice()));
/// let Some(Ok(ZoneItem::Record(record))) = found.read_entry(&entry.text) else { panic!() };
/// assert_eq!(record.data, RecordData::A("192.0.2.2".parse()?));
/// assert!(directive.entry(3)?.is_none());
/// # Ok::<(), Box<dyn std::error::Error>>(())
/// ```
#[derive(Clone, Debug, PartialEq, Eq, Hash)]
pub struct Generate {
    /// Offset of its first token.
    pub place: usize,
    /// Its octets, with its comment and its line end. It is parsed only when an entry is asked for.
    pub text: Vec<u8>,
}

/// An entry of a `$GENERATE` directive.
#[derive(Clone, Debug, PartialEq, Eq, Hash)]
pub struct GeneratedEntry {
    /// Its number.
    pub number: u32,
    /// Its text in a zone file, with a line feed at its end.
    pub text: Vec<u8>,
}

/// The error of a `$GENERATE` directive, with its offset.
#[derive(Clone, Debug, PartialEq, Eq)]
pub struct GenerateFault {
    pub kind: GenerateFaultKind,
    /// Offset of the rejected token.
    pub place: usize,
    /// Why it is rejected, as in `step of the range is 0`.
    pub reason: String,
}

reasons! {
    /// Why a `$GENERATE` directive has no entries.
    GenerateFaultKind {
        /// The directive is rejected.
        BadGenerate = DNSTEXT_BAD_GENERATE,
        /// The text of an entry has more than 65,535 octets.
        TooLong = DNSTEXT_TOO_LONG,
    }
}

impl fmt::Display for GenerateFault {
    fn fmt(&self, f: &mut fmt::Formatter<'_>) -> fmt::Result {
        write!(f, "{} at {}", self.reason, self.place)
    }
}

impl Error for GenerateFault {}

/// Length of a buffer that suffices for most entries and for the text of an error.
const FEW: usize = 512;

impl Generate {
    /// Returns the entry with an index, which counts from 0, or `None` after the last one. A range may have
    /// 2^31 numbers: the caller decides how many it reads.
    pub fn entry(&self, index: u64) -> Result<Option<GeneratedEntry>, GenerateFault> {
        library::check();
        let mut text = vec![0; FEW];
        loop {
            let mut number = 0;
            let mut outcome = dnstext_outcome::default();
            // SAFETY: the pointers and lengths are those of two slices, and the call stays within them.
            let status = unsafe {
                dnstext_generate_entry(
                    self.text.as_ptr(),
                    self.text.len(),
                    index,
                    &mut number,
                    text.as_mut_ptr(),
                    text.len(),
                    &mut outcome,
                )
            };
            if status == DNSTEXT_NO_ROOM && outcome.length > text.len() {
                text.resize(outcome.length, 0);
                continue;
            }
            text.truncate(outcome.length);
            return match status {
                DNSTEXT_OK => Ok(Some(GeneratedEntry { number, text })),
                DNSTEXT_END => Ok(None),
                status => Err(self.fault(status, outcome.place, &text)),
            };
        }
    }

    /// Returns the entries in order, up to the first error.
    pub fn entries(&self) -> impl Iterator<Item = Result<GeneratedEntry, GenerateFault>> + '_ {
        let mut is_done = false;
        (0..).map_while(move |index| match self.entry(index) {
            _ if is_done => None,
            Ok(entry) => entry.map(Ok),
            Err(fault) => {
                is_done = true;
                Some(Err(fault))
            }
        })
    }

    /// Returns the error of a status, with an offset in the whole text.
    fn fault(&self, status: u32, place: usize, reason: &[u8]) -> GenerateFault {
        let kind = GenerateFaultKind::of(status);
        let reason = match reason {
            [] => kind.status().message().to_string(),
            reason => String::from_utf8_lossy(reason).into_owned(),
        };
        GenerateFault {
            kind,
            place: self.place + place,
            reason,
        }
    }
}
