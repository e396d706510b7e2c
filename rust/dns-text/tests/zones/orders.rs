//! Orders and canonical forms.
use crate::data::{name_of, read_data};
use crate::table::octets_of;
use dns_text::{Class, Name, RecordData, RecordType};
use std::cmp::Ordering;

fn agrees(order: Ordering, wanted: &str) -> bool {
    assert_eq!(format!("{order:?}").to_lowercase(), wanted);
    true
}

pub fn names(left: &str, right: &str, wanted: &str) -> bool {
    agrees(name_of(left).cmp(&name_of(right)), wanted)
}

pub fn lower(octets: &str, wanted: &str) -> bool {
    assert_eq!(
        name_of(octets).to_lowercase().as_octets(),
        octets_of(wanted)
    );
    true
}

fn unknown(record_type: RecordType, octets: &str) -> RecordData {
    let octets = octets_of(octets);
    RecordData::Unknown {
        record_type,
        octets,
    }
}

pub fn octets(left: &str, right: &str, wanted: &str) -> bool {
    let data = |octets| unknown(RecordType(731), octets);
    agrees(data(left).cmp(&data(right)), wanted)
}

/// Records with RDATA as octets, by owner, class, type and RDATA.
pub fn octet_records(fields: &[&str], wanted: &str) -> bool {
    let records = fields.chunks(4).map(|fields| {
        let [owner, class, code, octets] = fields else {
            panic!("{fields:?}")
        };
        let data = unknown(RecordType(code.parse().unwrap()), octets);
        (name_of(owner), Class(class.parse().unwrap()), data)
    });
    let [left, right] = &records.collect::<Vec<_>>()[..] else {
        panic!("{fields:?}")
    };
    agrees(left.cmp(right), wanted)
}

/// A record from the fields of a row: owner, TTL, class, type, and RDATA in presentation format.
fn record(fields: &[&str]) -> (Name, Class, RecordData) {
    let [owner, _, class, record_type, text] = fields else {
        panic!("{fields:?}")
    };
    let data = read_data(record_type, text, Some(crate::EXAMPLE))
        .0
        .unwrap();
    (name_of(owner), Class(class.parse().unwrap()), data)
}

/// Two records, and their order: equal records have equal RDATA.
pub fn records(fields: &[&str], wanted: &str) -> bool {
    let (left, right) = (record(&fields[..5]), record(&fields[5..]));
    assert_eq!(left == right, wanted == "equal");
    agrees(left.cmp(&right), wanted)
}

/// A record as octets in canonical form (RFC 4034 section 6.2).
pub fn canonical(fields: &[&str], wanted: &str) -> bool {
    let (owner, class, data) = record(fields);
    let seconds: u32 = fields[1].parse().unwrap();
    let octets = data.canonical_octets();
    let found = [
        owner.to_lowercase().as_octets(),
        &data.record_type().0.to_be_bytes(),
        &class.0.to_be_bytes(),
        &seconds.to_be_bytes(),
        &(octets.len() as u16).to_be_bytes(),
        &octets,
    ]
    .concat();
    assert_eq!(found, octets_of(wanted), "{fields:?}");
    true
}
