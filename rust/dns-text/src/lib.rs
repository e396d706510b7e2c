//! Parses and prints DNS presentation format (RFC 1035 section 5.1, RFC 4648): safe types over a proved
//! library.
//!
//! ```
//! use dns_text::{tokens, CharStr};
//!
//! let zone = b"www TXT \"say \\\"so\\\"\" plain ; a comment\n";
//! let mut strings = Vec::new();
//! for token in tokens(zone).skip(2) {
//!     strings.push(CharStr::from_text(token?.content())?);
//! }
//! assert_eq!(strings[0].as_octets(), b"say \"so\"");
//! assert_eq!(strings[1].to_string(), "plain");
//! # Ok::<(), Box<dyn std::error::Error>>(())
//! ```
//!
//! # Which reader of zone files
//!
//! | To read | Use | Memory |
//! |---|---|---|
//! | records: owner, TTL, class, type and RDATA | [`records`] | the RDATA |
//! | the tokens of each entry, and whether it began with a blank | [`entries`] | a list for each entry |
//! | tokens, without their entries | [`tokens`] | a list for the longest entry |
//! | also comments and ends of entries, or without memory | [`pieces`] | none |
//! | records of a file or a stream | [`read_records`] | a chunk, the longest entry twice, the RDATA |
//! | entries of a file or a stream | [`read_entries`] | the same, and each entry |
//! | records of a file and of those that it includes | [`read_zone`] | the same, for each open file |
//! | the same, where a function opens the files | [`RecordReader::follow_includes`] | the same, for each open file |
//!
//! [`tokens`], [`entries`] and [`pieces`] return what comes before the first syntax error, and then the
//! error. The others continue after its line. An error has an offset (`place`). [`Fault::locate`] and
//! [`RecordFault::locate`] return its line and column, and [`Positions`] those of many errors. An error
//! of a stream has line and column.
//!
//! The records and the errors of a file:
//!
//! ```
//! use dns_text::{read_records, RecordData, ZoneItem};
//! use std::io::BufReader;
//!
//! let file = b"$ORIGIN example.\nwww 1h A 192.0.2.1\n    1h AAAA 2001:db8::g\nmx 1h MX 10 www\n";
//! let (mut addresses, mut wrong) = (0, Vec::new());
//! for item in read_records(BufReader::new(file.as_slice())) {
//!     match item {
//!         Ok(ZoneItem::Record(record)) => match record.data {
//!             RecordData::A(_) | RecordData::Aaaa(_) => addresses += 1,
//!             _ => {}
//!         },
//!         Ok(_) => {}
//!         Err(error) => wrong.push(error.to_string()),
//!     }
//! }
//! assert_eq!(addresses, 1);
//! assert_eq!(wrong, ["3:13: AAAA: address: expected IPv6 address"]);
//! ```
//!
//! An entry that begins with a blank has the owner of the one before:
//!
//! ```
//! use dns_text::{entries, Ttl};
//!
//! let zone = b"www 1h A 192.0.2.1\n    1h A 192.0.2.2\n";
//! let mut owner = None;
//! for entry in entries(zone) {
//!     let entry = entry?;
//!     let mut tokens = entry.tokens.iter();
//!     if !entry.begins_blank {
//!         owner = tokens.next().map(|token| token.text);
//!     }
//!     let Some(ttl) = tokens.next() else { continue };
//!     assert_eq!(owner, Some(b"www".as_slice()));
//!     assert_eq!(Ttl::from_text(ttl.text)?.seconds(), 3600);
//! }
//! # Ok::<(), Box<dyn std::error::Error>>(())
//! ```
//!
//! Comments and their entries:
//!
//! ```
//! use dns_text::{pieces, PieceKind};
//!
//! let mut entry = 1;
//! let mut comments = Vec::new();
//! for piece in pieces(b"a A 192.0.2.1\nb A 192.0.2.2 ; the second\n") {
//!     let piece = piece?;
//!     match piece.kind {
//!         PieceKind::EntryEnd => entry += 1,
//!         PieceKind::Comment => comments.push((entry, piece.text)),
//!         PieceKind::Word | PieceKind::Quoted => {}
//!     }
//! }
//! assert_eq!(comments, [(2, b"; the second".as_slice())]);
//! # Ok::<(), dns_text::Fault>(())
//! ```
//!
//! # Names and RDATA
//!
//! [`Name`] compares, sorts and hashes without regard to the case of ASCII letters, in canonical order.
//! [`CharStr`] compares exactly. [`RecordData`] has the fields of common types, parses their wire format,
//! and compares in canonical form:
//!
//! ```
//! use dns_text::{Name, RecordData, RecordType};
//!
//! let zone: Name = "example.".parse()?;
//! let name = "www".parse::<Name>()?.append_origin(&zone)?;
//! assert!(name.ends_with(&zone) && name.parent() == Some(zone));
//! let data = RecordData::from_octets(RecordType::NS, name.as_octets())?;
//! assert_eq!(data, RecordData::Ns("WWW.Example.".parse()?));
//! # Ok::<(), Box<dyn std::error::Error>>(())
//! ```
//!
//! # The library
//!
//! The crate links a static library, `libdnstext.a`, of the same major and minor version. The first call
//! panics if [`version`] has others. Without the library, `cargo check` and `cargo doc` work.

mod call;
mod char_str;
pub mod codec;
mod data;
mod generate;
mod kinds;
mod labels;
mod library;
mod lowered;
mod name;
mod name_octets;
mod number;
mod pieces;
mod position;
mod records;
mod scan;
mod sets;
mod status;
mod stream;
mod strings;
mod types;
mod zone;

pub use char_str::{CharStr, LongString, ReadError, ReadErrorKind};
pub use data::{BadData, BadDataReason, RecordData, SvcParam};
pub use generate::{Generate, GenerateFault, GenerateFaultKind, GeneratedEntry};
pub use kinds::{Class, LongTtl, RecordType, Ttl, WordError, WordErrorKind};
pub use labels::Labels;
pub use library::version;
pub use name::{Name, NameError, NameErrorKind, NameOctetsError};
pub use number::{number, NumberError, NumberErrorKind};
pub use pieces::{pieces, Piece, PieceKind, Pieces};
pub use position::{position, Position, Positions};
pub use records::{
    records, Record, RecordFault, RecordFaultKind, Records, RelativeOrigin, RelativeOwner, ZoneItem,
};
pub use sets::{record_sets, RecordSet};
pub use status::Status;
pub use stream::{
    read_entries, read_records, read_zone, EntryReader, FollowError, FollowErrorKind,
    FollowedRecords, OwnedEntry, RecordReader, StreamError, TextReader, ZoneRecords,
};
pub use zone::{entries, tokens, Entries, Entry, Fault, FaultKind, Token, Tokens};

/// The example of README.md.
#[cfg(doctest)]
#[doc = include_str!("../README.md")]
struct Readme;
