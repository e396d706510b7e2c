//! The records of zone files.
use crate::call::with_room;
use crate::data::RecordData;
use crate::generate::Generate;
use crate::library;
use crate::status::reasons;
use crate::stream::{FollowedRecords, RecordReader, TextReader};
use crate::{position, Class, Name, Position, Positions, RecordType, Ttl};
use dns_text_sys::{
    dnstext_kept_name, dnstext_outcome, dnstext_record, dnstext_record_next, dnstext_record_print,
    dnstext_zone, dnstext_zone_origin, DNSTEXT_END, DNSTEXT_GENERATE, DNSTEXT_INCLUDE,
    DNSTEXT_NO_ROOM, DNSTEXT_OK,
};
use std::cmp::Ordering;
use std::error::Error;
use std::fmt;
use std::hash::{Hash, Hasher};
use std::iter::FusedIterator;

/// A record of a zone file.
///
/// It displays on one line, as by `zonetext records`: owner, TTL, class, type and RDATA, with a space between. With a
/// line feed after it, this line is read back as that record. A record with values that the library doesn't print,
/// such as a relative owner, displays its parts.
///
/// Records are compared, sorted and hashed by owner, class, type and RDATA, and then TTL, without their offsets:
/// by names and RDATA in canonical form and order (RFC 4034 section 6). So the records of a zone in order are
/// those of each RRset together, and [`dedup`](Vec::dedup) removes repetitions.
///
/// ```
/// use dns_text::{records, ZoneItem};
///
/// let zone = b"$ORIGIN example.\n@ 1H IN MX 010 mail\n";
/// let Some(Ok(ZoneItem::Record(record))) = records(zone).next() else { panic!() };
/// assert_eq!(record.to_string(), "example. 3600 IN MX 10 mail.example.");
///
/// let zone = b"b. 1 MX 2 m.\na. 2 A 192.0.2.1\nB. 1 MX 2 M.\na. 1 A 192.0.2.1\n";
/// let mut found = Vec::new();
/// for item in records(zone) {
///     if let ZoneItem::Record(record) = item? {
///         found.push(record);
///     }
/// }
/// found.sort();
/// found.dedup();
/// let places: Vec<_> = found.iter().map(|record| record.place).collect();
/// assert_eq!(places, [43, 13, 0]);
/// # Ok::<(), dns_text::RecordFault>(())
/// ```
///
/// An editor can replace a record, or its RDATA alone, by their offsets:
///
/// ```
/// use dns_text::{records, ZoneItem};
///
/// let mut zone = "w.example. 60 A (192.0.2.1 ) ; web\n".to_string();
/// let Some(Ok(ZoneItem::Record(web))) = records(zone.as_bytes()).next() else { panic!() };
/// zone.replace_range(web.data_place..web.end, "192.0.2.2");
/// assert_eq!(zone, "w.example. 60 A (192.0.2.2 ) ; web\n");
/// ```
#[derive(Clone, Debug)]
pub struct Record {
    /// Offset of its first token.
    pub place: usize,
    /// Offset of the first token of its RDATA, or `end` if there is none.
    pub data_place: usize,
    /// Offset after its last token.
    pub end: usize,
    /// The owner, an absolute name.
    pub owner: Name,
    /// Its own TTL; or else that of `$TTL`; or else the last one of a record; or else, for an SOA, its
    /// minimum (RFC 1035 section 5.1, RFC 2308 section 4). A TTL of 2^31 seconds or more in the text is 0
    /// (RFC 2181 section 8).
    pub ttl: Ttl,
    /// The class.
    pub class: Class,
    /// The RDATA, which have the type.
    pub data: RecordData,
}

impl Record {
    /// Returns the type.
    #[must_use]
    pub fn record_type(&self) -> RecordType {
        self.data.record_type()
    }

    /// Returns the line that the library prints, or `None` if it rejects the record.
    fn line(&self) -> Option<String> {
        let octets = self.data.to_octets().ok()?;
        let record = dnstext_record {
            ttl: self.ttl.seconds(),
            class_code: self.class.0,
            type_code: self.record_type().0,
            name: kept(&self.owner),
            ..dnstext_record::default()
        };
        let expected = 4 * (self.owner.as_octets().len() + octets.len()) + 64;
        let (status, _, text) = with_room(expected, |into, outcome| {
            // SAFETY: the pointers and lengths are those of a struct and of slices, and the call stays within them.
            unsafe {
                dnstext_record_print(
                    &record,
                    octets.as_ptr(),
                    octets.len(),
                    into.as_mut_ptr(),
                    into.len(),
                    outcome,
                )
            }
        });
        (status == DNSTEXT_OK).then(|| String::from_utf8_lossy(&text).into_owned())
    }

    /// Returns what is compared, in order.
    fn key(&self) -> (&Name, Class, &RecordData, Ttl) {
        (&self.owner, self.class, &self.data, self.ttl)
    }
}

impl fmt::Display for Record {
    fn fmt(&self, f: &mut fmt::Formatter<'_>) -> fmt::Result {
        let parts = || {
            let (owner, ttl, class) = (&self.owner, self.ttl, self.class);
            format!("{owner} {ttl} {class} {} {}", self.record_type(), self.data)
        };
        f.pad(&self.line().unwrap_or_else(parts))
    }
}

impl PartialEq for Record {
    fn eq(&self, other: &Record) -> bool {
        self.key() == other.key()
    }
}

impl Eq for Record {}

impl PartialOrd for Record {
    fn partial_cmp(&self, other: &Record) -> Option<Ordering> {
        Some(self.cmp(other))
    }
}

impl Ord for Record {
    fn cmp(&self, other: &Record) -> Ordering {
        self.key().cmp(&other.key())
    }
}

impl Hash for Record {
    fn hash<H: Hasher>(&self, state: &mut H) {
        self.key().hash(state);
    }
}

/// An item of a zone file.
#[derive(Clone, Debug, PartialEq, Eq)]
#[non_exhaustive]
pub enum ZoneItem {
    /// A record.
    Record(Record),
    /// `$INCLUDE`: the offset of the directive, the name of a file as in the text, and its origin, if there
    /// is one. The caller reads the file, with [`Records::include`]; or [`Records::follow_includes`] does.
    Include {
        place: usize,
        file: Vec<u8>,
        origin: Option<Name>,
    },
    /// `$GENERATE`: an entry for each number of a range. The caller reads them by
    /// [`Records::read_entry`] or [`RecordReader::read_entry`](crate::RecordReader::read_entry); or
    /// [`Records::follow_includes`] does.
    Generate(Generate),
}

impl ZoneItem {
    /// Changes its offsets to those in a text that begins at the offset `before`.
    pub(crate) fn move_behind(&mut self, before: usize) {
        match self {
            ZoneItem::Record(record) => {
                record.place += before;
                record.data_place += before;
                record.end += before;
            }
            ZoneItem::Include { place, .. } | ZoneItem::Generate(Generate { place, .. }) => {
                *place += before
            }
        }
    }
}

/// The error of an entry of a zone file, with its offset.
#[derive(Clone, Debug, PartialEq, Eq)]
pub struct RecordFault {
    pub kind: RecordFaultKind,
    /// Offset of the rejected token, or of the syntax error.
    pub place: usize,
    /// Why an entry is rejected, as in `MX: preference: decimal number overflow`: the type and the field of
    /// RDATA, and what is wrong, as `zonetext check` reports it. Empty for a syntax error.
    pub reason: String,
}

impl RecordFault {
    /// Returns line and column of the error in its text, or `None` if the text is shorter. The time is
    /// linear in the offset: for all errors of a text use [`Records::locate`] or [`Positions`].
    #[must_use]
    pub fn locate(&self, text: &[u8]) -> Option<Position> {
        position(text, self.place)
    }

    /// Returns the message, without the offset: the reason, if there is one.
    #[must_use]
    pub fn message(&self) -> &str {
        if self.reason.is_empty() {
            return self.kind.status().message();
        }
        &self.reason
    }

    /// Returns the error with the offset of a text that begins at the offset `before`.
    pub(crate) fn behind(self, before: usize) -> RecordFault {
        RecordFault {
            place: before + self.place,
            ..self
        }
    }

    /// Returns whether this is a syntax error, and not a rejected entry.
    pub(crate) fn is_of_text(&self) -> bool {
        self.kind.is_of_text()
    }

    /// Returns whether the status is unknown; the library then did not advance.
    pub(crate) fn is_unknown(&self) -> bool {
        matches!(self.kind, RecordFaultKind::Unknown(_))
    }
}

reasons! {
    /// Why an entry of a zone file is rejected.
    RecordFaultKind {
        /// A backslash that begins no escape.
        BadEscape = DNSTEXT_BAD_ESCAPE,
        /// A closing parenthesis without an open one.
        Closing = DNSTEXT_CLOSING,
        /// The text ends inside parentheses.
        OpenParenthesis = DNSTEXT_OPEN_PARENTHESIS,
        /// The text or a line ends inside a quoted string.
        OpenQuote = DNSTEXT_OPEN_QUOTE,
        /// A CR without its LF.
        LoneReturn = DNSTEXT_LONE_RETURN,
        /// A wrong directive, or a wrong header of a record: owner, TTL, class, type.
        BadHead = DNSTEXT_BAD_HEAD,
        /// A directive that is not supported. No call of this version returns it.
        NotSupported = DNSTEXT_NOT_SUPPORTED,
        /// A token that is not a name, as owner or origin.
        BadName = DNSTEXT_BAD_NAME,
        /// A relative name without an origin, also in RDATA.
        NoOrigin = DNSTEXT_NO_ORIGIN,
        /// A record that begins with a blank, without an owner before it.
        NoOwner = DNSTEXT_NO_OWNER,
        /// A record that begins with a blank, after a rejected owner.
        RefusedOwner = DNSTEXT_REFUSED_OWNER,
        /// Tokens that are not RDATA of their type.
        BadData = DNSTEXT_BAD_DATA,
        /// A record without a TTL, and none that it could inherit.
        NoTtl = DNSTEXT_NO_TTL,
        /// An origin that is a relative name.
        RelativeOrigin = DNSTEXT_RELATIVE_NAME,
    }
}

impl RecordFaultKind {
    /// Returns whether this is a syntax error.
    fn is_of_text(self) -> bool {
        matches!(
            self,
            RecordFaultKind::BadEscape
                | RecordFaultKind::Closing
                | RecordFaultKind::OpenParenthesis
                | RecordFaultKind::OpenQuote
                | RecordFaultKind::LoneReturn
        )
    }
}

impl fmt::Display for RecordFault {
    fn fmt(&self, f: &mut fmt::Formatter<'_>) -> fmt::Result {
        write!(f, "{} at {}", self.message(), self.place)
    }
}

impl Error for RecordFault {}

/// The error of a relative name as origin: an origin is absolute.
#[derive(Clone, Copy, Debug, PartialEq, Eq)]
pub struct RelativeOrigin;

impl fmt::Display for RelativeOrigin {
    fn fmt(&self, f: &mut fmt::Formatter<'_>) -> fmt::Result {
        f.pad("the origin is a relative name")
    }
}

impl Error for RelativeOrigin {}

/// The error of a relative name as owner: an owner is absolute.
#[derive(Clone, Copy, Debug, PartialEq, Eq)]
pub struct RelativeOwner;

impl fmt::Display for RelativeOwner {
    fn fmt(&self, f: &mut fmt::Formatter<'_>) -> fmt::Result {
        f.pad("the owner is a relative name")
    }
}

impl Error for RelativeOwner {}

/// Returns the records of a zone file in order. `$ORIGIN` and `$TTL` are applied. After a rejected entry,
/// reading continues at the next entry; after a syntax error, at the next line.
///
/// Without an origin, relative names are rejected; see [`Records::with_origin`]. The class of records
/// without one is IN.
///
/// ```
/// use dns_text::{records, Name, RecordData, ZoneItem};
///
/// let zone = b"$TTL 1h\n@ MX 10 mail\nmail A 192.0.2.1\n     A 192.0.2.256\n";
/// let mut found = records(zone).with_origin(&Name::from_text(b"example.")?)?;
/// let Some(Ok(ZoneItem::Record(mx))) = found.next() else { panic!() };
/// assert_eq!((mx.owner.to_string(), mx.ttl.seconds()), ("example.".to_string(), 3600));
/// let RecordData::Mx { preference, exchange } = mx.data else { panic!() };
/// assert_eq!((preference, exchange.to_string()), (10, "mail.example.".to_string()));
/// let Some(Ok(ZoneItem::Record(a))) = found.next() else { panic!() };
/// assert_eq!(a.data, RecordData::A("192.0.2.1".parse()?));
/// let fault = found.next().unwrap().unwrap_err();
/// assert_eq!(fault.reason, "A: address: expected IPv4 address");
/// assert_eq!(found.locate(fault.place).unwrap().to_string(), "4:8");
/// assert!(found.next().is_none());
/// # Ok::<(), Box<dyn std::error::Error>>(())
/// ```
#[must_use]
pub fn records(text: &[u8]) -> Records<'_> {
    Records {
        text,
        state: ZoneState::new(),
        positions: Positions::new(text),
        is_done: false,
    }
}

/// An iterator over the records of a zone file; see [`records`].
#[derive(Clone, Debug)]
pub struct Records<'t> {
    text: &'t [u8],
    state: ZoneState,
    positions: Positions<'t>,
    is_done: bool,
}

impl<'t> Records<'t> {
    /// Sets the origin, which is appended to relative names. Fails if it is a relative name.
    pub fn with_origin(mut self, origin: &Name) -> Result<Self, RelativeOrigin> {
        self.state.set_origin(origin)?;
        Ok(self)
    }

    /// Sets the class of records without one.
    #[must_use]
    pub fn with_class(mut self, class: Class) -> Self {
        self.state.set_class(class);
        self
    }

    /// Sets the default TTL, as `$TTL` does (RFC 2308 section 4).
    #[must_use]
    pub fn with_default_ttl(mut self, ttl: Ttl) -> Self {
        self.state.set_default_ttl(ttl);
        self
    }

    /// Sets the owner of records that begin with a blank, up to the first record with an owner. Fails if it
    /// is a relative name.
    pub fn with_owner(mut self, owner: &Name) -> Result<Self, RelativeOwner> {
        self.state.set_owner(owner)?;
        Ok(self)
    }

    /// Returns the origin that applies to the next entry, if there is one.
    #[must_use]
    pub fn origin(&self) -> Option<Name> {
        self.state.origin()
    }

    /// Returns the records of an included file. Class, owner and TTLs at its start are those after the
    /// `$INCLUDE`, and so is the origin, if the directive has none. Fails if the origin is a relative name.
    ///
    /// After the file, [`copy_ttls`](Records::copy_ttls) applies its TTLs. Origin and owner are as before it
    /// (RFC 1035 section 5.1). [`follow_includes`](Records::follow_includes) does all of this.
    ///
    /// ```
    /// use dns_text::{records, ZoneItem};
    ///
    /// let zone = b"$INCLUDE hosts lan\nmail A 192.0.2.1\n";
    /// let hosts = b"$TTL 1h\nnas A 192.0.2.2\n";
    /// let mut found = records(zone).with_origin(&"example.".parse()?)?;
    /// let Some(Ok(ZoneItem::Include { file, origin, .. })) = found.next() else { panic!() };
    /// assert_eq!(file, b"hosts");
    /// let mut included = found.include(origin.as_ref(), hosts)?;
    /// let Some(Ok(ZoneItem::Record(nas))) = included.next() else { panic!() };
    /// assert_eq!(nas.owner.to_string(), "nas.lan.example.");
    /// assert!(included.next().is_none());
    /// found.copy_ttls(&included);
    /// let Some(Ok(ZoneItem::Record(mail))) = found.next() else { panic!() };
    /// assert_eq!((mail.owner.to_string(), mail.ttl.seconds()), ("mail.example.".to_string(), 3600));
    /// # Ok::<(), Box<dyn std::error::Error>>(())
    /// ```
    pub fn include<'i>(
        &self,
        origin: Option<&Name>,
        text: &'i [u8],
    ) -> Result<Records<'i>, RelativeOrigin> {
        Ok(Records {
            state: self.state.included(origin)?,
            ..records(text)
        })
    }

    /// Applies the default TTL and the last TTL of an included file to the entries after it, as BIND does.
    pub fn copy_ttls(&mut self, included: &Records<'_>) {
        self.state.copy_ttls(&included.state);
    }

    /// Returns the records of this text and of the files that it includes. `read` returns the octets of a
    /// file, by its name in the text. See [`FollowedRecords`].
    ///
    /// ```
    /// use dns_text::records;
    ///
    /// let zone = b"$TTL 1h\n$INCLUDE hosts\nmail A 192.0.2.1\n";
    /// let found = records(zone).with_origin(&"example.".parse()?)?;
    /// let mut found = found.follow_includes(|file| match file {
    ///     b"hosts" => Ok(b"nas A 192.0.2.2\n    A 192.0.2.256\n".as_slice()),
    ///     _ => Err("no such file"),
    /// });
    /// assert_eq!(found.next().unwrap()?.owner.to_string(), "nas.example.");
    /// let error = found.next().unwrap().unwrap_err();
    /// assert_eq!(error.to_string(), "hosts:2:7: A: address: expected IPv4 address");
    /// assert_eq!(found.next().unwrap()?.owner.to_string(), "mail.example.");
    /// assert!(found.next().is_none());
    /// # Ok::<(), Box<dyn std::error::Error>>(())
    /// ```
    #[must_use]
    pub fn follow_includes<F, T, E>(mut self, read: F) -> FollowedRecords<TextReader<'t>, F>
    where
        F: FnMut(&[u8]) -> Result<T, E>,
        T: Into<TextReader<'t>>,
    {
        let place = self.place();
        let rest = self.text.get(place..).unwrap_or_default();
        let position = self.locate(place);
        RecordReader::resumed(rest.into(), self.state, place, position).follow_includes(read)
    }

    /// Reads an entry of a `$GENERATE` directive, as if it were in the place of the last item. Offsets are
    /// those in the entry. The TTLs that it sets apply to later records, and its owner doesn't.
    pub fn read_entry(&mut self, entry: &[u8]) -> Option<Result<ZoneItem, RecordFault>> {
        self.state.read_entry(entry)
    }

    /// Returns the offset of the next entry.
    #[must_use]
    pub fn place(&self) -> usize {
        self.state.zone.at
    }

    /// Returns line and column of an offset, such as that of an error, or `None` past the text's end.
    /// Offsets in order cost one pass over the text; see [`Positions`].
    pub fn locate(&mut self, place: usize) -> Option<Position> {
        self.positions.find(place)
    }
}

impl Iterator for Records<'_> {
    type Item = Result<ZoneItem, RecordFault>;

    fn next(&mut self) -> Option<Result<ZoneItem, RecordFault>> {
        if self.is_done {
            return None;
        }
        let found = self.state.next(self.text);
        self.is_done = match &found {
            Some(Err(fault)) => fault.is_unknown(),
            found => found.is_none(),
        };
        found
    }
}

impl FusedIterator for Records<'_> {}

/// The state after the entries read so far, the offset of the next one, and a buffer for RDATA.
#[derive(Clone, Debug)]
pub(crate) struct ZoneState {
    zone: dnstext_zone,
    /// The last record.
    record: dnstext_record,
    octets: Vec<u8>,
}

impl ZoneState {
    /// Returns the state at the start of a zone file.
    pub(crate) fn new() -> ZoneState {
        library::check();
        ZoneState {
            zone: dnstext_zone {
                class_code: Class::IN.0,
                ..dnstext_zone::default()
            },
            record: dnstext_record::default(),
            octets: vec![0; 512],
        }
    }

    /// Sets the origin. Fails if it is a relative name.
    pub(crate) fn set_origin(&mut self, origin: &Name) -> Result<(), RelativeOrigin> {
        if !origin.is_absolute() {
            return Err(RelativeOrigin);
        }
        let octets = origin.as_octets();
        let mut outcome = dnstext_outcome::default();
        // SAFETY: the pointer and the length are those of the octets, and the call stays within them.
        let status = unsafe {
            dnstext_zone_origin(&mut self.zone, octets.as_ptr(), octets.len(), &mut outcome)
        };
        match status {
            DNSTEXT_OK => Ok(()),
            _ => Err(RelativeOrigin),
        }
    }

    /// Sets the class of records without one.
    pub(crate) fn set_class(&mut self, class: Class) {
        self.zone.class_code = class.0;
    }

    /// Sets the default TTL.
    pub(crate) fn set_default_ttl(&mut self, ttl: Ttl) {
        self.zone.has_default_ttl = true;
        self.zone.default_ttl = ttl.seconds();
    }

    /// Sets the last owner. Fails if it is a relative name.
    pub(crate) fn set_owner(&mut self, owner: &Name) -> Result<(), RelativeOwner> {
        if !owner.is_absolute() {
            return Err(RelativeOwner);
        }
        self.zone.owner = kept(owner);
        Ok(())
    }

    /// Returns the origin, if there is one.
    pub(crate) fn origin(&self) -> Option<Name> {
        name_of(&self.zone.origin)
    }

    /// Returns the state at the start of an included file, which may have an origin of its own. Fails if
    /// that is a relative name.
    pub(crate) fn included(&self, origin: Option<&Name>) -> Result<ZoneState, RelativeOrigin> {
        let mut state = ZoneState::new();
        state.zone = dnstext_zone { at: 0, ..self.zone };
        if let Some(origin) = origin {
            state.set_origin(origin)?;
        }
        Ok(state)
    }

    /// Copies the TTLs of the state at the end of an included file.
    pub(crate) fn copy_ttls(&mut self, included: &ZoneState) {
        let zone = &included.zone;
        self.zone.has_default_ttl = zone.has_default_ttl;
        self.zone.default_ttl = zone.default_ttl;
        self.zone.has_last_ttl = zone.has_last_ttl;
        self.zone.last_ttl = zone.last_ttl;
    }

    /// Returns a copy of the state.
    pub(crate) fn keep(&self) -> dnstext_zone {
        self.zone
    }

    /// Restores a copy of the state.
    pub(crate) fn go_back(&mut self, kept: dnstext_zone) {
        self.zone = kept;
    }

    /// Reads up to the first item of a text that follows what was read. Returns what the library did, and the offset of
    /// the next entry.
    pub(crate) fn step(&mut self, text: &[u8]) -> (Step, usize) {
        self.zone.at = 0;
        let (status, outcome) = self.call(text);
        (Step { status, outcome }, self.zone.at)
    }

    /// Reads an entry of a `$GENERATE` directive. Of its state only the TTLs stay.
    pub(crate) fn read_entry(&mut self, entry: &[u8]) -> Option<Result<ZoneItem, RecordFault>> {
        let kept = self.zone;
        self.zone.at = 0;
        let found = self.next(entry);
        self.zone = dnstext_zone {
            has_default_ttl: self.zone.has_default_ttl,
            default_ttl: self.zone.default_ttl,
            has_last_ttl: self.zone.has_last_ttl,
            last_ttl: self.zone.last_ttl,
            ..kept
        };
        found
    }

    /// Reads the next item of a text.
    fn next(&mut self, text: &[u8]) -> Option<Result<ZoneItem, RecordFault>> {
        let (status, outcome) = self.call(text);
        self.item(Step { status, outcome }, text)
    }

    /// Returns the item of what the library did last.
    #[inline]
    pub(crate) fn item(&self, step: Step, text: &[u8]) -> Option<Result<ZoneItem, RecordFault>> {
        let Step { status, outcome } = step;
        let given = self.octets.get(..outcome.length).unwrap_or_default();
        let record = &self.record;
        Some(Ok(match status {
            DNSTEXT_END => return None,
            DNSTEXT_OK => ZoneItem::Record(Record {
                place: record.place,
                data_place: record.data,
                end: record.end,
                owner: name_of(&record.name).unwrap_or_default(),
                ttl: Ttl::from_seconds(record.ttl).unwrap_or(Ttl::MAX),
                class: Class(record.class_code),
                data: RecordData::of_read(RecordType(record.type_code), given),
            }),
            DNSTEXT_INCLUDE => ZoneItem::Include {
                place: record.place,
                file: given.to_vec(),
                origin: name_of(&record.name),
            },
            DNSTEXT_GENERATE => ZoneItem::Generate(Generate {
                place: record.place,
                text: text
                    .get(record.place..self.zone.at)
                    .unwrap_or_default()
                    .to_vec(),
            }),
            status => {
                return Some(Err(RecordFault {
                    kind: RecordFaultKind::of(status),
                    place: outcome.place,
                    reason: String::from_utf8_lossy(given).into_owned(),
                }))
            }
        }))
    }

    /// Makes a call with a buffer of the size that it needs. Returns its status and outcome.
    fn call(&mut self, text: &[u8]) -> (u32, dnstext_outcome) {
        loop {
            let mut outcome = dnstext_outcome::default();
            // SAFETY: the pointers and lengths are those of two slices, and the call stays within them.
            let status = unsafe {
                dnstext_record_next(
                    text.as_ptr(),
                    text.len(),
                    &mut self.zone,
                    &mut self.record,
                    self.octets.as_mut_ptr(),
                    self.octets.len(),
                    &mut outcome,
                )
            };
            if status != DNSTEXT_NO_ROOM || outcome.length <= self.octets.len() {
                return (status, outcome);
            }
            self.octets.resize(outcome.length, 0);
        }
    }
}

/// Status and outcome of a call. The item is made once they are known to be final.
#[derive(Clone, Copy)]
pub(crate) struct Step {
    status: u32,
    outcome: dnstext_outcome,
}

impl Step {
    /// Returns whether the item is final, whatever octets follow the text. `at` is the offset at which reading
    /// continues.
    pub(crate) fn is_settled(self, at: usize, text: &[u8]) -> bool {
        let is_syntax_error = || RecordFaultKind::of(self.status).is_of_text();
        at < text.len() || (self.outcome.place < text.len() && is_syntax_error())
    }
}

/// Returns a name as the library keeps an absolute one.
fn kept(name: &Name) -> dnstext_kept_name {
    let mut kept = dnstext_kept_name::default();
    let octets = name.as_octets();
    kept.octets[..octets.len()].copy_from_slice(octets);
    kept.length = octets.len();
    kept
}

/// Returns the absolute name that the library wrote, if there is one.
fn name_of(name: &dnstext_kept_name) -> Option<Name> {
    match name.octets.get(..name.length)? {
        [] => None,
        octets => Some(Name::of_absolute(octets)),
    }
}
