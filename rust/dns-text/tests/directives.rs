//! `$GENERATE` directives, and the records of their entries.
#[path = "common/blocks.rs"]
mod blocks;

use blocks::{in_blocks, placed, Blocks};
use dns_text::{
    read_records, records, FollowError, FollowErrorKind, FollowedRecords, Generate,
    GenerateFaultKind, Record, RecordData, RecordFaultKind, ZoneItem,
};
use std::io::{BufRead, BufReader};

const ZONE: &[u8] = b"w 60 A 192.0.2.1\n$GENERATE 1-3/2 h$ 77 MX \"10 m$\" ; two\n TXT x\n";

/// The owner, the TTL and the RDATA of an item.
fn item_line(item: ZoneItem) -> String {
    match item {
        ZoneItem::Record(record) => {
            format!("{} {} {:?}", record.owner, record.ttl, record.data)
        }
        item => panic!("{item:?}"),
    }
}

fn directive(text: &str) -> Generate {
    Generate {
        place: 0,
        text: text.as_bytes().to_vec(),
    }
}

#[test]
fn entries_are_read_in_the_place_of_their_directive() {
    let origin = "example.".parse().unwrap();
    let mut found = records(ZONE).with_origin(&origin).unwrap();
    let mut lines = Vec::new();
    while let Some(item) = found.next() {
        match item.unwrap() {
            ZoneItem::Generate(directive) => {
                assert_eq!(directive.place, 17);
                for entry in directive.entries() {
                    let record = found.read_entry(&entry.unwrap().text).unwrap();
                    lines.push(item_line(record.unwrap()));
                }
            }
            item => lines.push(item_line(item)),
        }
    }
    let mx = |number| RecordData::Mx {
        preference: 10,
        exchange: format!("m{number}.example.").parse().unwrap(),
    };
    // The owner after the directive is that before it, and the TTL that of its entries.
    let wanted = [
        format!(
            "w.example. 60 {:?}",
            RecordData::A("192.0.2.1".parse().unwrap())
        ),
        format!("h1.example. 77 {:?}", mx(1)),
        format!("h3.example. 77 {:?}", mx(3)),
        format!(
            "w.example. 77 {:?}",
            RecordData::Txt(vec!["x".parse().unwrap()])
        ),
    ];
    assert_eq!(lines, wanted);
}

#[test]
fn offsets_of_generated_records_are_those_of_their_directive() {
    let origin = "example.".parse().unwrap();
    let found = records(ZONE).with_origin(&origin).unwrap();
    let found = found.follow_includes(|_| Err::<&[u8], _>("no file"));
    let places = found.map(|record| {
        let record = record.unwrap();
        (record.place, record.data_place, record.end)
    });
    let wanted = [(0, 7, 16), (17, 17, 17), (17, 17, 17), (57, 61, 62)];
    assert_eq!(places.collect::<Vec<_>>(), wanted);
}

#[test]
fn streams_have_the_directives_of_texts() {
    let at_once: Vec<_> = records(ZONE).filter_map(Result::ok).map(placed).collect();
    for size in 1..ZONE.len() {
        let reader = BufReader::with_capacity(size, ZONE);
        let items = read_records(reader).filter_map(Result::ok).map(placed);
        assert_eq!(items.collect::<Vec<_>>(), at_once);
    }
    assert!(at_once
        .iter()
        .any(|(_, item)| matches!(item, ZoneItem::Generate(_))));
}

#[test]
fn rejected_directives_have_no_entries() {
    for (text, place, reason) in [
        (
            "$GENERATE 3-1 a A 192.0.2.1",
            10,
            "start of the range exceeds its stop",
        ),
        (
            "$GENERATE 1-2 a${} A 192.0.2.1",
            14,
            "offset in braces is not a number",
        ),
        (
            "$GENERATE 1-2 a A ( 192.0.2.1 )",
            18,
            "parenthesis in $GENERATE",
        ),
    ] {
        let fault = directive(text).entry(0).unwrap_err();
        assert_eq!(fault.kind, GenerateFaultKind::BadGenerate);
        assert_eq!((fault.place, fault.reason.as_str()), (place, reason));
        assert_eq!(directive(text).entries().count(), 1);
    }
    let last = directive("$GENERATE 0-9/4 a$ A 192.0.2.1");
    assert_eq!(last.entry(2).unwrap().unwrap().number, 8);
    assert_eq!(last.entry(3), Ok(None));
    let long = format!("$GENERATE 1-1 a TXT {}", "x".repeat(65_529));
    let fault = directive(&long).entry(0).unwrap_err();
    assert_eq!(fault.kind, GenerateFaultKind::TooLong);
    assert_eq!(fault.to_string(), "too many octets at 0");
}

/// The files that are included in these tests.
fn text_of(file: &[u8]) -> Result<&'static [u8], &'static str> {
    match file {
        b"hosts" => Ok(
            b" TXT y\n$GENERATE 8-9 n${0,2} A 192.0.2.$\n TXT z\n$GENERATE 10-10 n$ 40 A 192.0.2.$",
        ),
        b"wrong" => Ok(b"\n $GENERATE\n$GENERATE 254-300 n$ A 192.0.2.$\n"),
        _ => Err("no such file"),
    }
}

/// A record as `owner TTL type RDATA`, and an error as it displays.
fn line(item: Result<Record, FollowError<&'static str>>) -> String {
    match item {
        Ok(record) => {
            let (ttl, record_type) = (record.ttl.seconds(), record.record_type());
            format!("{} {ttl} {record_type} {}", record.owner, record.data)
        }
        Err(error) => error.to_string(),
    }
}

/// Offset, line, column and file of each item.
fn places<R, F>(mut found: FollowedRecords<R, F>) -> Vec<(usize, String, String)>
where
    FollowedRecords<R, F>: Iterator<Item = Result<Record, FollowError<&'static str>>>,
{
    let mut places = Vec::new();
    while let Some(item) = found.next() {
        let place = match item {
            Ok(record) => record.place,
            Err(error) => match error.kind {
                FollowErrorKind::Fault(fault) => fault.place,
                FollowErrorKind::GeneratedEntry { fault, .. } => fault.place,
                kind => panic!("{kind:?}"),
            },
        };
        let file = String::from_utf8_lossy(found.file().unwrap_or(b"-")).into_owned();
        places.push((place, found.locate(place).unwrap().to_string(), file));
    }
    places
}

/// The items of a text and of its files: in memory, and the same in chunks of any size.
fn followed(text: &[u8]) -> Vec<String> {
    let origin = "example.".parse().unwrap();
    let found = records(text).with_origin(&origin).unwrap();
    let wanted: Vec<_> = found.follow_includes(text_of).map(line).collect();
    in_blocks(text, |blocks: Blocks| {
        let found = read_records(Box::new(blocks) as Box<dyn BufRead>);
        let found = found.with_origin(&origin).unwrap();
        let open = |file: &[u8]| {
            let text = text_of(file)?;
            Ok(Box::new(BufReader::with_capacity(3, text)) as Box<dyn BufRead>)
        };
        let found: Vec<_> = found.follow_includes(open).map(line).collect();
        assert_eq!(found, wanted);
    });
    wanted
}

/// The records are those that named-compilezone of BIND 9.18 writes, each with its own TTL.
#[test]
fn entries_are_followed() {
    let zone =
        b"w 50 A 192.0.2.1\n$INCLUDE hosts sub\n$GENERATE 1-3/2 h$ 77 MX \"10 m$\" ; two\n TXT x\n";
    assert_eq!(
        followed(zone),
        [
            "w.example. 50 A 192.0.2.1",
            "w.example. 50 TXT \"y\"",
            "n08.sub.example. 50 A 192.0.2.8",
            "n09.sub.example. 50 A 192.0.2.9",
            "w.example. 50 TXT \"z\"",
            "n10.sub.example. 40 A 192.0.2.10",
            "h1.example. 77 MX 10 m1.example.",
            "h3.example. 77 MX 10 m3.example.",
            "w.example. 77 TXT \"x\"",
        ]
    );
    let found = records(zone).with_origin(&"example.".parse().unwrap());
    let found = places(found.unwrap().follow_includes(text_of));
    let at = |place, position: &str, file: &str| (place, position.to_string(), file.to_string());
    assert_eq!(
        found,
        [
            at(0, "1:1", "-"),
            at(1, "1:2", "hosts"),
            at(7, "2:1", "hosts"),
            at(7, "2:1", "hosts"),
            at(42, "3:2", "hosts"),
            at(48, "4:1", "hosts"),
            at(36, "3:1", "-"),
            at(36, "3:1", "-"),
            at(76, "4:2", "-"),
        ]
    );
}

#[test]
fn rejected_entries_end_their_directive() {
    assert_eq!(
        followed(b"$TTL 5\na A 192.0.2.0\n$GENERATE 255-300 n$ A 192.0.2.$\n$INCLUDE wrong\n A 192.0.2.1\n"),
        [
            "a.example. 5 A 192.0.2.0",
            "n255.example. 5 A 192.0.2.255",
            "3:1: $GENERATE 256: A: address: expected IPv4 address",
            "wrong:2:2: unknown record type",
            "n254.example. 5 A 192.0.2.254",
            "n255.example. 5 A 192.0.2.255",
            "wrong:3:1: $GENERATE 256: A: address: expected IPv4 address",
            "a.example. 5 A 192.0.2.1",
        ]
    );
    // The offset is that of the directive.
    let zone = b"$TTL 5\n; x\n$GENERATE 256-256 n$. A 192.0.2.$\nb. A 192.0.2\n";
    let mut found = records(zone).follow_includes(text_of);
    let error = found.next().unwrap().unwrap_err();
    let FollowErrorKind::GeneratedEntry { number, fault } = &error.kind else {
        panic!("{error:?}")
    };
    assert_eq!((*number, fault.place), (256, 11));
    assert_eq!(fault.kind, RecordFaultKind::BadData);
    assert_eq!(error.position, found.locate(11));
    assert_eq!(
        found.next().map(line).unwrap(),
        "4:6: A: address: expected IPv4 address"
    );
    assert!(found.next().is_none());
}

#[test]
fn rejected_directives_are_errors_where_files_are_followed() {
    assert_eq!(
        followed(b"$TTL 5\n$GENERATE 3-1 a$ A 192.0.2.1\n$GENERATE 1-2 a${} A 192.0.2.1 ; x\nb A 192.0.2.1"),
        [
            "2:1: start of the range exceeds its stop",
            "3:1: offset in braces is not a number",
            "b.example. 5 A 192.0.2.1",
        ]
    );
    // The fault has the offset of the token.
    let mut found = records(b"\n$GENERATE 3-1 a$. 5 A 192.0.2.1").follow_includes(text_of);
    let error = found.next().unwrap().unwrap_err();
    let FollowErrorKind::Generate(fault) = error.kind else {
        panic!("{error:?}")
    };
    assert_eq!(fault.kind, GenerateFaultKind::BadGenerate);
    assert_eq!(fault.place, 11);
    assert_eq!(found.locate(fault.place).unwrap().to_string(), "2:11");
}

#[test]
fn numbers_of_entries_are_limited() {
    let zone =
        b"$TTL 5\n$GENERATE 1-4/2 a$. A 192.0.2.$\n$GENERATE 1-3 b$. A 192.0.2.$\nc. A 192.0.2.1\n";
    let lines = |most| -> Vec<String> {
        let found = records(zone).follow_includes(text_of);
        found.with_max_generate(most).map(line).collect()
    };
    let last = "c. 5 A 192.0.2.1";
    let many = "3:1: $GENERATE has more than 2 entries";
    assert_eq!(
        lines(2),
        ["a1. 5 A 192.0.2.1", "a3. 5 A 192.0.2.3", many, last]
    );
    assert_eq!(lines(3).len(), 6);
    assert_eq!(lines(0).len(), 3);
    // By default there are 2^20, as in `zonetext`.
    let zone = b"$GENERATE 0-1048576 a$. 5 A 192.0.2.1\n$GENERATE 0-1048575 a$. 5 TXT $\n";
    let mut found = records(zone).follow_includes(text_of);
    let error = found.next().unwrap().unwrap_err();
    let kind = &error.kind;
    assert!(matches!(
        kind,
        FollowErrorKind::TooManyEntries { most: 1_048_576 }
    ));
    assert_eq!(
        found.next().map(line).unwrap(),
        "a0. 5 TXT \"0\"".to_string()
    );
}
