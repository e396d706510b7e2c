//! Zone files: records, files to include and errors, in memory and in chunks.
use crate::blocks::{in_blocks, placed, Blocks, Placed};
use crate::data::{is_read_back, name_of};
use crate::table::octets_of;
use dns_text::{
    position, read_records, records, Position, RecordFault, RecordFaultKind, RecordType,
    StreamError, ZoneItem,
};
use std::io::BufRead;

/// The items with their offsets, and the errors with their positions.
type Found = Vec<Result<Placed, (RecordFault, Position)>>;

fn at_once(text: &[u8], origin: Option<&str>) -> Found {
    let mut found = records(text);
    if let Some(origin) = origin {
        found = found.with_origin(&name_of(origin)).unwrap();
    }
    let told = |fault: RecordFault| {
        let position = fault.locate(text).unwrap();
        (fault, position)
    };
    found.map(|item| item.map(placed).map_err(told)).collect()
}

/// The items of a `BufRead`, with the offsets of records.
fn of_reader(reader: impl BufRead, text: &[u8], origin: Option<&str>) -> Found {
    let mut reader = read_records(reader);
    if let Some(origin) = origin {
        reader = reader.with_origin(&name_of(origin)).unwrap();
    }
    let mut found = Vec::new();
    while let Some(item) = reader.next() {
        if let Ok(ZoneItem::Record(record)) = &item {
            assert_eq!(reader.locate(record.place), position(text, record.place));
        }
        found.push(item.map(placed).map_err(|error| match error {
            StreamError::Fault { fault, position } => (fault, position),
            StreamError::Io(error) => panic!("{error}"),
        }));
    }
    found
}

/// An error, as in rows.
fn refusal_of(fault: &RecordFault) -> String {
    let reason = match fault.kind {
        RecordFaultKind::BadEscape => "bad escape",
        RecordFaultKind::Closing => "closing",
        RecordFaultKind::OpenParenthesis => "open parenthesis",
        RecordFaultKind::OpenQuote => "open quote",
        RecordFaultKind::LoneReturn => "lone return",
        _ => &fault.reason,
    };
    format!("!{reason}|{}", fault.place)
}

/// Returns whether an item is that of the row.
fn agrees(wanted: &str, found: &Result<Placed, (RecordFault, Position)>) -> bool {
    match found.as_ref().map(|(_, item)| item) {
        Err((fault, _)) => refusal_of(fault) == wanted,
        Ok(ZoneItem::Include { file, origin, .. }) => {
            let mut octets = [b"include ", file.as_slice()].concat();
            if let Some(origin) = origin {
                octets.push(b' ');
                octets.extend_from_slice(origin.as_octets());
            }
            octets == octets_of(wanted)
        }
        Ok(ZoneItem::Generate(directive)) => wanted == format!("generate {}", directive.place),
        Ok(ZoneItem::Record(record)) => {
            let fields: Vec<&str> = wanted.splitn(6, '|').collect();
            let [place, owner, ttl, class, code, octets] = fields[..] else {
                return false;
            };
            place == record.place.to_string()
                && octets_of(owner) == record.owner.as_octets()
                && ttl.ends_with(&format!(" {}", record.ttl.seconds()))
                && class == record.class.0.to_string()
                && RecordType(code.parse().unwrap()) == record.record_type()
                && record.data.to_octets() == Ok(octets_of(octets))
        }
        Ok(_) => false,
    }
}

/// A row of a text and its entries. `$ORIGIN` and `$TTL` are no items here.
pub fn read(text: &[u8], origin: Option<&str>, wanted: &str) -> bool {
    let found = at_once(text, origin);
    let items: Vec<&str> = wanted
        .split_terminator(';')
        .filter(|it| *it != "directive")
        .collect();
    assert_eq!(items.len(), found.len(), "{wanted}: {found:?}");
    for (item, given) in items.iter().zip(&found) {
        assert!(agrees(item, given), "{item}: {given:?}");
        if let Ok((_, ZoneItem::Record(record))) = given {
            is_read_back(record);
        }
    }
    in_blocks(text, |blocks: Blocks| {
        assert_eq!(of_reader(blocks, text, origin), found)
    });
    true
}
