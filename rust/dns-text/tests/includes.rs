//! Included files (RFC 1035 section 5.1): the state with which they begin, and what remains of it after them.
#[path = "common/blocks.rs"]
mod blocks;

use blocks::{in_blocks, Blocks};
use dns_text::{
    read_records, records, Class, FollowError, FollowErrorKind, FollowedRecords, Name, Record,
    RecordFaultKind, RecordReader, RelativeOrigin, RelativeOwner, Ttl, ZoneItem,
};
use std::cell::Cell;
use std::fmt;
use std::io::{self, BufRead, BufReader, Read};

fn name(text: &str) -> Name {
    text.parse().unwrap()
}

fn ttl(seconds: u32) -> Ttl {
    Ttl::from_seconds(seconds).unwrap()
}

/// A record as `owner TTL class type RDATA`.
fn shown(record: &Record) -> String {
    let (owner, ttl, class) = (&record.owner, record.ttl.seconds(), record.class);
    let (record_type, data) = (record.record_type(), &record.data);
    format!("{owner} {ttl} {class} {record_type} {data}")
}

fn item<E: fmt::Debug>(found: Option<Result<ZoneItem, E>>) -> ZoneItem {
    found.expect("an item").expect("no error")
}

fn record<E: fmt::Debug>(found: Option<Result<ZoneItem, E>>) -> String {
    match item(found) {
        ZoneItem::Record(record) => shown(&record),
        found => panic!("{found:?}"),
    }
}

/// The files that are included in these tests.
fn text_of(file: &[u8]) -> Result<&'static [u8], &'static str> {
    match file {
        b"hosts" => Ok(b" A 192.0.2.1\nh A 192.0.2.2\n$ORIGIN o.\nx A 192.0.2.3\n"),
        b"ttls" => Ok(b"$TTL 60\nt A 192.0.2.4\nu 30 A 192.0.2.5\n"),
        b"nested" => Ok(b"n A 192.0.2.6\n$INCLUDE hosts deep\nm A 192.0.2.7"),
        b"wrong" => Ok(b"w A 192.0.2\nv A )\n A 192.0.2.8\n"),
        b"itself" => Ok(b"i A 192.0.2.9\n$INCLUDE itself\nj A 192.0.2.10\n"),
        b"empty" => Ok(b""),
        _ => Err("no such file"),
    }
}

/// The items as lines: records, and errors as they display.
fn lines<R, F>(found: FollowedRecords<R, F>) -> Vec<String>
where
    FollowedRecords<R, F>: Iterator<Item = Result<Record, FollowError<&'static str>>>,
{
    let line = |item: Result<Record, FollowError<&'static str>>| match item {
        Ok(record) => shown(&record),
        Err(error) => error.to_string(),
    };
    found.map(line).collect()
}

/// The items of a text and of its files: in memory, and the same in chunks of any size.
fn followed(text: &[u8]) -> Vec<String> {
    let origin = name("example.");
    let found = records(text).with_origin(&origin).unwrap();
    let wanted = lines(found.follow_includes(text_of));
    in_blocks(text, |blocks: Blocks| {
        let found = read_records(Box::new(blocks) as Box<dyn BufRead>);
        let found = found.with_origin(&origin).unwrap();
        let open = |file: &[u8]| {
            let text = text_of(file)?;
            Ok(Box::new(BufReader::with_capacity(3, text)) as Box<dyn BufRead>)
        };
        assert_eq!(lines(found.follow_includes(open)), wanted);
    });
    wanted
}

#[test]
fn owner_and_ttl_can_be_set() {
    let zone = b" A 192.0.2.1\na A 192.0.2.2\n A 192.0.2.3\n";
    let found = records(zone).with_default_ttl(ttl(60));
    let mut found = found
        .with_owner(&name("w.example."))
        .unwrap()
        .with_origin(&name("o."))
        .unwrap()
        .with_class(Class::CH);
    assert_eq!(record(found.next()), "w.example. 60 CH A 192.0.2.1");
    assert_eq!(record(found.next()), "a.o. 60 CH A 192.0.2.2");
    assert_eq!(record(found.next()), "a.o. 60 CH A 192.0.2.3");
    assert!(found.next().is_none());
    in_blocks(zone, |blocks: Blocks| {
        let found = read_records(blocks).with_default_ttl(ttl(60));
        let mut found = found.with_owner(&name("w.example.")).unwrap();
        assert_eq!(record(found.next()), "w.example. 60 IN A 192.0.2.1");
    });
    // Without either these are errors.
    let kind_of = |text: &[u8]| records(text).next().unwrap().unwrap_err().kind;
    assert_eq!(kind_of(b" 60 A 192.0.2.1"), RecordFaultKind::NoOwner);
    assert_eq!(kind_of(b"a. A 192.0.2.1"), RecordFaultKind::NoTtl);
}

#[test]
fn relative_names_are_errors() {
    assert_eq!(
        records(b"").with_owner(&name("w")).err(),
        Some(RelativeOwner)
    );
    assert_eq!(RelativeOwner.to_string(), "the owner is a relative name");
    let found = records(b"");
    assert_eq!(
        found.include(Some(&name("w")), b"").err(),
        Some(RelativeOrigin)
    );
    let reader = read_records(io::empty());
    assert_eq!(
        reader.include(Some(&name("w")), io::empty()).err(),
        Some(RelativeOrigin)
    );
    assert_eq!(
        read_records(io::empty()).with_owner(&name("w")).err(),
        Some(RelativeOwner)
    );
}

#[test]
fn origin_is_that_of_the_next_entry() {
    let mut found =
        records(b"$ORIGIN b.\na 1 A 192.0.2.1\n$ORIGIN c\na 1 A 192.0.2.1\n$ORIGIN \"x\"\n");
    assert_eq!(found.origin(), None);
    found.next();
    assert_eq!(found.origin(), Some(name("b.")));
    found.next();
    assert_eq!(found.origin(), Some(name("c.b.")));
    // A directive that is rejected leaves no origin.
    assert!(found.next().unwrap().is_err());
    assert_eq!(found.origin(), None);
    let reader = read_records(io::empty()).with_origin(&name("o.")).unwrap();
    assert_eq!(reader.origin(), Some(name("o.")));
}

#[test]
fn include_has_its_place() {
    let zone = b"; a comment\n$TTL 60\n\n ( $ORIGIN\n o. )\n  ; (\n$INCLUDE (\n f g )\n\na A 192.0.2.1\n$include f ; \n";
    let wanted = |place, origin: &str| ZoneItem::Include {
        place,
        file: b"f".to_vec(),
        origin: (!origin.is_empty()).then(|| name(origin)),
    };
    let zone = String::from_utf8(zone.to_vec())
        .unwrap()
        .replace(" ( $ORIGIN", "( $ORIGIN");
    let first = zone.find("$INCLUDE").unwrap();
    let second = zone.find("$include").unwrap();
    let mut found = records(zone.as_bytes());
    assert_eq!(item(found.next()), wanted(first, "g.o."));
    assert_eq!(record(found.next()), "a.o. 60 IN A 192.0.2.1");
    assert_eq!(item(found.next()), wanted(second, ""));
    in_blocks(zone.as_bytes(), |blocks: Blocks| {
        let mut found = read_records(blocks);
        assert_eq!(item(found.next()), wanted(first, "g.o."));
        assert_eq!(found.locate(first).unwrap().to_string(), "7:1");
        found.next();
        assert_eq!(item(found.next()), wanted(second, ""));
        assert_eq!(found.locate(second).unwrap().to_string(), "11:1");
    });
}

/// Class, owner, origin and TTLs go in; TTLs come out (RFC 1035 section 5.1, RFC 2308 section 4).
#[test]
fn state_goes_in_and_ttls_come_out() {
    let zone = b"a 40 A 192.0.2.1\n$INCLUDE f\n A 192.0.2.2\n$INCLUDE f i\n A 192.0.2.3\n";
    let file = b" A 192.0.2.9\nb 50 A 192.0.2.8\n$ORIGIN q.\n";
    let mut found = records(zone)
        .with_origin(&name("o."))
        .unwrap()
        .with_class(Class::CH);
    assert_eq!(record(found.next()), "a.o. 40 CH A 192.0.2.1");
    let origins = [("o.", 40), ("i.o.", 50)];
    for (number, (origin, last)) in origins.into_iter().enumerate() {
        let ZoneItem::Include { origin: given, .. } = item(found.next()) else {
            panic!()
        };
        assert_eq!(given, (number == 1).then(|| name(origin)));
        let mut included = found.include(given.as_ref(), file).unwrap();
        assert_eq!(included.origin(), Some(name(origin)));
        assert_eq!(
            record(included.next()),
            format!("a.o. {last} CH A 192.0.2.9")
        );
        assert_eq!(
            record(included.next()),
            format!("b.{origin} 50 CH A 192.0.2.8")
        );
        assert!(included.next().is_none());
        assert_eq!(included.origin(), Some(name("q.")));
        found.copy_ttls(&included);
        assert_eq!(found.origin(), Some(name("o.")));
        assert_eq!(
            record(found.next()),
            format!("a.o. 50 CH A 192.0.2.{}", number + 2)
        );
    }
    assert!(found.next().is_none());
}

#[test]
fn stream_includes_as_texts_do() {
    let zone = b"$TTL 40\na A 192.0.2.1\n$INCLUDE f i.\n A 192.0.2.2\n".as_slice();
    let mut found = read_records(zone).with_origin(&name("o.")).unwrap();
    assert_eq!(record(found.next()), "a.o. 40 IN A 192.0.2.1");
    let ZoneItem::Include {
        file,
        origin,
        place,
    } = item(found.next())
    else {
        panic!()
    };
    assert_eq!((file.as_slice(), place), (b"f".as_slice(), 22));
    let file = BufReader::new(b" A 192.0.2.9\n$TTL 50\nb A 192.0.2.8\n".as_slice());
    let mut included: RecordReader<_> = found.include(origin.as_ref(), file).unwrap();
    assert_eq!(record(included.next()), "a.o. 40 IN A 192.0.2.9");
    assert_eq!(record(included.next()), "b.i. 50 IN A 192.0.2.8");
    assert!(included.next().is_none());
    found.copy_ttls(&included);
    assert_eq!(record(found.next()), "a.o. 50 IN A 192.0.2.2");
    assert!(found.next().is_none());
}

/// The records are those that named-compilezone of BIND 9.18 writes.
#[test]
fn includes_are_followed() {
    assert_eq!(
        followed(
            b"a 5 A 192.0.2.0\n$INCLUDE hosts\n A 192.0.2.10\n$INCLUDE hosts sub\nb A 192.0.2.11\n"
        ),
        [
            "a.example. 5 IN A 192.0.2.0",
            "a.example. 5 IN A 192.0.2.1",
            "h.example. 5 IN A 192.0.2.2",
            "x.o. 5 IN A 192.0.2.3",
            "a.example. 5 IN A 192.0.2.10",
            "a.example. 5 IN A 192.0.2.1",
            "h.sub.example. 5 IN A 192.0.2.2",
            "x.o. 5 IN A 192.0.2.3",
            "b.example. 5 IN A 192.0.2.11",
        ]
    );
    // `$TTL` and the last TTL of a file apply after it.
    assert_eq!(
        followed(b"$TTL 5\n$INCLUDE ttls\na A 192.0.2.0\n"),
        [
            "t.example. 60 IN A 192.0.2.4",
            "u.example. 30 IN A 192.0.2.5",
            "a.example. 60 IN A 192.0.2.0",
        ]
    );
    assert_eq!(
        followed(b"$TTL 5\n$INCLUDE nested in\n A 192.0.2.0\n$INCLUDE empty"),
        [
            "n.in.example. 5 IN A 192.0.2.6",
            "n.in.example. 5 IN A 192.0.2.1",
            "h.deep.in.example. 5 IN A 192.0.2.2",
            "x.o. 5 IN A 192.0.2.3",
            "m.in.example. 5 IN A 192.0.2.7",
            "3:2: no owner",
        ]
    );
    assert!(followed(b"$INCLUDE empty\n").is_empty());
}

#[test]
fn errors_name_their_files() {
    assert_eq!(
        followed(b"$TTL 5\na A 192.0.2.0 ; (\n\n$INCLUDE wrong\n$INCLUDE none ; x\nb A 192.0.2\n A 192.0.2.1\n"),
        [
            "a.example. 5 IN A 192.0.2.0",
            "wrong:1:5: A: address: expected IPv4 address",
            "wrong:2:5: closing parenthesis, and none is open",
            "v.example. 5 IN A 192.0.2.8",
            "5:1: cannot open 'none': no such file",
            "6:5: A: address: expected IPv4 address",
            "b.example. 5 IN A 192.0.2.1",
        ]
    );
}

#[test]
fn nested_files_are_limited() {
    let found = followed(b"$TTL 5\n$INCLUDE itself\nz A 192.0.2.0\n");
    assert_eq!(found.len(), 22);
    let told = "itself:2:1: not included: more than 10 files include one another 'itself'";
    assert_eq!(found[10], told);
    assert!(found[..10]
        .iter()
        .all(|line| line == "i.example. 5 IN A 192.0.2.9"));
    assert!(found[11..21]
        .iter()
        .all(|line| line == "j.example. 5 IN A 192.0.2.10"));
    assert_eq!(found[21], "z.example. 5 IN A 192.0.2.0");
    // A file that includes itself six times is opened 10,000 times, and not 6^10 times.
    let opened = Cell::new(0);
    let zone = b"$INCLUDE f\n".repeat(6);
    let found = records(&zone).follow_includes(|_| {
        opened.set(opened.get() + 1);
        Ok::<_, &str>(zone.as_slice())
    });
    let too_many = |it: &Result<Record, FollowError<&str>>| {
        matches!(
            it,
            Err(FollowError {
                kind: FollowErrorKind::TooMany { .. },
                ..
            })
        )
    };
    let mut found = found.skip_while(|it| !too_many(it));
    let error = found.next().unwrap().unwrap_err();
    assert_eq!(
        error.kind.to_string(),
        "not included: 10000 files are included already 'f'"
    );
    assert!(found.all(|it| too_many(&it) || it.is_err()));
    assert_eq!(opened.get(), 10_000);
}

#[test]
fn items_have_files_and_places() {
    let zone = b"$TTL 5\na A 192.0.2.0\n$INCLUDE hosts\n  b A 192.0.2.1\n";
    let found = records(zone).with_origin(&name("example.")).unwrap();
    let mut found = found.follow_includes(text_of);
    let mut places = Vec::new();
    while let Some(item) = found.next() {
        let position = item.ok().and_then(|record| found.locate(record.place));
        let file = found
            .file()
            .map(|file| String::from_utf8_lossy(file).into_owned());
        places.push((file, position.map(|it| it.to_string())));
    }
    let hosts = Some("hosts".to_string());
    let at = |text: &str| Some(text.to_string());
    let wanted = [
        (None, at("2:1")),
        (hosts.clone(), at("1:2")),
        (hosts.clone(), at("2:1")),
        (hosts, at("4:1")),
    ];
    assert_eq!(places[..4], wanted);
    // (an unknown type)
    assert_eq!(places[4..], [(None, None)]);
    assert!(found.next().is_none() && found.file().is_none() && found.locate(0).is_none());
}

/// Following begins with the next entry.
#[test]
fn records_before_are_not_repeated() {
    let zone = b"$TTL 5\na A 192.0.2.0\n$INCLUDE none\n A 192.0.2\n";
    let mut found = records(zone).with_origin(&name("example.")).unwrap();
    assert_eq!(record(found.next()), "a.example. 5 IN A 192.0.2.0");
    let found = lines(found.follow_includes(text_of));
    let wanted = [
        "3:1: cannot open 'none': no such file",
        "4:4: A: address: expected IPv4 address",
    ];
    assert_eq!(found, wanted);
    let mut ended = records(b"a");
    assert!(ended.next().is_some() && ended.next().is_none());
    assert!(ended.follow_includes(text_of).next().is_none());
}

/// A reader that fails after its text.
struct Failing(&'static [u8]);

impl Read for Failing {
    fn read(&mut self, buffer: &mut [u8]) -> io::Result<usize> {
        match self.0.read(buffer)? {
            0 => Err(io::Error::other("no disk")),
            count => Ok(count),
        }
    }
}

#[test]
fn failed_file_is_left() {
    let zone = b"$TTL 5\n$INCLUDE f\nb A 192.0.2.1\n";
    let open = |text| Box::new(BufReader::new(text)) as Box<dyn BufRead>;
    let found = read_records(Box::new(zone.as_slice()) as Box<dyn BufRead>);
    let found = found.with_origin(&name("example.")).unwrap();
    let found = found.follow_includes(|_| Ok::<_, &str>(open(Failing(b"a A 192.0.2.0\nx"))));
    let wanted = [
        "a.example. 5 IN A 192.0.2.0",
        "f: no disk",
        "b.example. 5 IN A 192.0.2.1",
    ];
    assert_eq!(lines(found), wanted);
}
