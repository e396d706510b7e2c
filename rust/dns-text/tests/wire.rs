//! The rows of `crates/test_records/wire`, of the types with a variant: how many lists of octets are RDATA of the type
//! among all short ones, and among those near RDATA. Each is read, printed as the library prints its octets, and read
//! back.
#[path = "common/table.rs"]
mod table;

use dns_text::codec::BASE16;
use dns_text::{RecordData, RecordType};
use std::thread;
use table::{octets_of, rows_of};

/// Returns the RDATA of a type with a variant, or `None` if the octets are none.
fn read(record_type: RecordType, octets: &[u8]) -> Option<RecordData> {
    let data = RecordData::from_octets(record_type, octets);
    assert!(!matches!(data, Ok(RecordData::Unknown { .. })));
    data.ok()
}

/// Checks that RDATA are written as their octets, printed as the library prints these, and read back.
fn is_read_back(data: &RecordData, octets: &[u8]) {
    let record_type = data.record_type();
    assert_eq!(data.to_octets().as_deref(), Ok(octets), "{data:?}");
    let text = data.to_text().unwrap();
    let unknown = RecordData::Unknown {
        record_type,
        octets: octets.to_vec(),
    };
    assert_eq!(unknown.to_text().as_ref(), Ok(&text));
    assert_eq!(
        (&unknown, unknown.canonical_octets()),
        (data, data.canonical_octets())
    );
    let again = RecordData::from_text(record_type, text.as_bytes(), None).unwrap();
    assert_eq!(format!("{again:?}"), format!("{data:?}"), "{text}");
}

/// Returns whether octets are RDATA of a type, as the library decides too.
fn is_data(record_type: RecordType, octets: &[u8]) -> bool {
    let generic = format!("\\# {} {}", octets.len(), BASE16.print(octets));
    let found = RecordData::from_text(record_type, generic.as_bytes(), None);
    let data = read(record_type, octets);
    assert_eq!(data.is_some(), found.is_ok(), "{record_type} {generic}");
    if let Some(data) = &data {
        is_read_back(data, octets);
        assert_eq!(format!("{:?}", found.unwrap()), format!("{data:?}"));
    }
    data.is_some()
}

/// Counts among the lists of octets near RDATA: with another value of one octet, truncated, and with one octet
/// doubled.
fn damaged(record_type: RecordType, octets: &[u8]) -> String {
    assert!(is_data(record_type, octets));
    let mut counts = [0; 3];
    for place in 0..octets.len() {
        let mut changed = octets.to_vec();
        for value in 0..=255 {
            changed[place] = value;
            if value != octets[place] && is_data(record_type, &changed) {
                counts[0] += 1;
            }
        }
        let doubled = [&octets[..=place], &octets[place..]].concat();
        counts[1] += usize::from(is_data(record_type, &octets[..place]));
        counts[2] += usize::from(is_data(record_type, &doubled));
    }
    counts.map(|count| count.to_string()).join(",")
}

/// Counts among all lists of octets of a length. Checks one of `share` RDATA more closely.
fn short(record_type: RecordType, length: u32, share: usize) -> usize {
    let mut count = 0;
    for number in 0..1_u32 << (8 * length) {
        let octets = &number.to_be_bytes()[4 - length as usize..];
        if let Some(data) = read(record_type, octets) {
            if count % share == 0 {
                is_read_back(&data, octets);
            }
            count += 1;
        }
    }
    count
}

/// Calls a function for the rows of a call whose type has a variant, side by side. Returns their number.
fn each(call: &str, judge: impl Fn(RecordType, &[&str]) + Sync) -> usize {
    let rows = rows_of("test_records", &["wire"]);
    let rows: Vec<Vec<&str>> = rows
        .iter()
        .map(|(_, line)| line.split('\t').collect())
        .filter(|fields: &Vec<&str>| fields[0] == call)
        .collect();
    let has_variant = |record_type| {
        let data = RecordData::from_octets(record_type, &[]);
        !matches!(data, Ok(RecordData::Unknown { .. }))
    };
    let rows = rows
        .iter()
        .map(|fields| (fields[1].parse().unwrap(), &fields[2..]))
        .filter(|(record_type, _)| has_variant(*record_type))
        .collect::<Vec<_>>();
    thread::scope(|scope| {
        for part in rows.chunks(rows.len().div_ceil(4)) {
            let judge = &judge;
            scope.spawn(move || part.iter().for_each(|(code, fields)| judge(*code, fields)));
        }
    });
    rows.len()
}

#[test]
fn damaged_data() {
    let count = each("wire.damaged", |record_type, fields| {
        let [octets, wanted] = fields else {
            panic!("{fields:?}")
        };
        let found = damaged(record_type, &octets_of(octets));
        assert_eq!(found, *wanted, "{record_type} {octets}");
    });
    println!("{count} rows agree");
    assert!(count >= 35, "{count}");
}

/// Returns the counts of a row of short lists.
fn counts(fields: &[&str]) -> Vec<usize> {
    let [_, _, counts] = fields else {
        panic!("{fields:?}")
    };
    counts.split(',').map(|it| it.parse().unwrap()).collect()
}

#[test]
fn short_data() {
    let count = each("wire.short", |record_type, fields| {
        let found = (0..3).map(|length| short(record_type, length, 1));
        assert_eq!(
            found.collect::<Vec<_>>(),
            counts(fields)[..3],
            "{record_type}"
        );
    });
    println!("{count} rows agree");
    assert_eq!(count, 24);
}

/// All lists of three octets, of 24 types: 400 million.
#[test]
#[ignore = "takes a minute with optimisation"]
fn data_of_three_octets() {
    let count = each("wire.short", |record_type, fields| {
        let share = fields[1].parse::<usize>().unwrap().max(16);
        assert_eq!(
            short(record_type, 3, share),
            counts(fields)[3],
            "{record_type}"
        );
    });
    println!("{count} rows agree");
}
