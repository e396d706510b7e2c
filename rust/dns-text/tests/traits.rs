//! Traits of values: conversions, order, hashes, iterators that stay at their end, and `Debug`.
use dns_text::{
    entries, pieces, records, tokens, CharStr, Class, Entry, Generate, LongString, LongTtl, Name,
    NameOctetsError, Piece, Record, RecordData, RecordType, Token, Ttl, ZoneItem,
};
use std::collections::hash_map::DefaultHasher;
use std::collections::HashSet;
use std::hash::{Hash, Hasher};
use std::iter::FusedIterator;

fn hash_of(value: &impl Hash) -> u64 {
    let mut state = DefaultHasher::new();
    value.hash(&mut state);
    state.finish()
}

/// The records of a text without errors.
fn records_of(text: &str) -> Vec<Record> {
    let found = records(text.as_bytes()).map(|item| match item {
        Ok(ZoneItem::Record(record)) => record,
        item => panic!("{item:?}"),
    });
    found.collect()
}

#[test]
fn names_from_octets() {
    let octets = b"\x03www\x07example\0";
    let name: Name = "www.example.".parse().unwrap();
    assert_eq!(Name::try_from(octets.as_slice()), Ok(name.clone()));
    assert_eq!(Name::try_from(octets.to_vec()), Ok(name.clone()));
    let relative = Name::try_from(b"\x01a".as_slice()).unwrap();
    assert!(!relative.is_absolute() && name.is_absolute());
    let error = |octets: &[u8]| {
        let error = Name::try_from(octets).unwrap_err();
        assert_eq!(Name::try_from(octets.to_vec()), Err(error));
        assert_eq!(Name::from_octets(octets.to_vec()), Err(error));
        error
    };
    let longest = [b"\x01a".repeat(127), vec![0]].concat();
    assert!(Name::try_from(longest.as_slice()).is_ok());
    assert!(Name::try_from(&longest[..254]).is_ok());
    assert_eq!(error(b"\x02a"), NameOctetsError::ShortInput);
    assert_eq!(error(b"\x40a\0"), NameOctetsError::BadLabel);
    assert_eq!(error(b"\x01a\xC0\x0C"), NameOctetsError::Pointer);
    assert_eq!(error(b"\x01a\0\0"), NameOctetsError::TrailingOctets);
    assert_eq!(
        error(&[b"\x01a".repeat(125), b"\x04abcd\0".to_vec()].concat()),
        NameOctetsError::TooLong
    );
    assert_eq!(error(&[3; 256]), NameOctetsError::TooLong);
}

#[test]
fn the_default_name_is_the_root() {
    assert_eq!(Name::default(), Name::root());
    assert_eq!(Name::default().as_octets(), [0]);
    assert!(Name::default().is_root() && Name::default().is_absolute());
}

#[test]
fn names_are_lists_of_labels() {
    let name: Name = "www.example.".parse().unwrap();
    let mut labels = Vec::new();
    for label in &name {
        labels.push(label);
    }
    assert_eq!(labels, [b"www".as_slice(), b"example"]);
    assert!(name.into_iter().eq(name.labels()));
    assert_eq!(Name::root().into_iter().next(), None);
}

#[test]
fn strings_from_octets() {
    let most = vec![7; 255];
    let string = CharStr::from_octets(most.clone()).unwrap();
    assert_eq!(CharStr::try_from(most.as_slice()), Ok(string.clone()));
    assert_eq!(CharStr::try_from(most), Ok(string));
    assert_eq!(CharStr::try_from([7; 256].as_slice()), Err(LongString));
    assert_eq!(CharStr::try_from(vec![7; 256]), Err(LongString));
}

#[test]
fn codes_and_numbers() {
    for code in 0..=u16::MAX {
        assert_eq!(u16::from(RecordType::from(code)), code);
        assert_eq!(u16::from(Class::from(code)), code);
    }
    assert_eq!(RecordType::from(65), RecordType::HTTPS);
    assert_eq!(Class::from(3), Class::CH);
    assert_eq!(u32::from(Ttl::MAX), 0x7FFF_FFFF);
    assert_eq!(Ttl::try_from(0x7FFF_FFFF), Ok(Ttl::MAX));
    assert_eq!(Ttl::try_from(0x8000_0000), Err(LongTtl));
    assert_eq!(LongTtl.to_string(), "TTL exceeds 2147483647 seconds");
}

#[test]
fn types_and_classes_are_shown_by_name() {
    assert_eq!(format!("{:?}", RecordType(15)), "RecordType(MX)");
    assert_eq!(
        format!("{:?}", RecordType::NSAP_PTR),
        "RecordType(NSAP-PTR)"
    );
    assert_eq!(format!("{:?}", RecordType(65280)), "RecordType(TYPE65280)");
    assert_eq!(format!("{:?}", Class(1)), "Class(IN)");
    assert_eq!(format!("{:?}", Class(254)), "Class(CLASS254)");
}

/// A name of the registry, and its constant.
#[test]
fn constants_have_their_names() {
    for (constant, name) in [
        (RecordType::A, "A"),
        (RecordType::HTTPS, "HTTPS"),
        (RecordType::SVCB, "SVCB"),
        (RecordType::TLSA, "TLSA"),
        (RecordType::NAPTR, "NAPTR"),
        (RecordType::SSHFP, "SSHFP"),
        (RecordType::NSAP_PTR, "NSAP-PTR"),
        (RecordType::DLV, "DLV"),
    ] {
        assert_eq!(name.parse(), Ok(constant));
    }
}

/// The order of records is that of owner, class, type, RDATA and TTL, and a record equals one elsewhere.
#[test]
fn records_are_sorted_and_hashed() {
    let sorted = records_of(concat!(
        "example. 9 IN A 192.0.2.9\n",
        "a.example. 9 IN A 192.0.2.9\n",
        "z.a.example. 9 IN A 192.0.2.9\n",
        "b.example. 9 IN NS z.\n",
        "b.example. 8 IN A 192.0.2.1\n",
    ));
    let [a, b, c, ns, address] = &sorted[..] else {
        panic!("{sorted:?}")
    };
    let mut found = vec![ns, c, address, b, a];
    found.sort();
    assert_eq!(found, [a, b, c, address, ns]);
    let later = records_of(concat!(
        "B. 1 IN MX 1 m.\n",
        "b. 1 IN MX 1 m.\n",
        "b. 2 IN MX 1 M.\n",
        "b. 1 IN MX 2 m.\n",
        "b. 1 IN TXT x\n",
        "b. 1 IN TXT X\n",
        "b. 1 CH MX 1 m.\n",
    ));
    let places: Vec<usize> = later.iter().map(|record| record.place).collect();
    let [first, same, ttl, preference, text, upper, chaos] = &later[..] else {
        panic!("{later:?}")
    };
    assert_eq!(first, same);
    assert_eq!(hash_of(first), hash_of(same));
    assert!(first < ttl && ttl < preference && preference < upper);
    assert!(upper < text && text < chaos);
    let set: HashSet<&Record> = later.iter().collect();
    assert_eq!(set.len(), 6);
    assert!(places.windows(2).all(|it| it[0] < it[1]));
}

/// A record displays as its line, and one that the library doesn't print as its parts.
#[test]
fn records_are_displayed() {
    let [mx] = &records_of("$ORIGIN A\\(.Example.\n@ 1H MX 010 mail\n")[..] else {
        panic!()
    };
    let line = "A\\(.Example. 3600 IN MX 10 mail.A\\(.Example.";
    assert_eq!(mx.to_string(), line);
    assert_eq!(format!("{mx:>60}").trim_start(), line);
    assert_eq!(format!("{mx:>60}").len(), 60);
    let octets = vec![1, 2];
    let record_type = RecordType::from(65280);
    let data = RecordData::Unknown {
        record_type,
        octets,
    };
    let unknown = Record { data, ..mx.clone() };
    assert_eq!(
        unknown.to_string(),
        "A\\(.Example. 3600 IN TYPE65280 \\# 2 0102"
    );
    let relative = Record {
        owner: "a".parse().unwrap(),
        ..mx.clone()
    };
    assert_eq!(relative.to_string(), "a 3600 IN MX 10 mail.A\\(.Example.");
    let wrong = Record {
        data: RecordData::Unknown {
            record_type: RecordType::A,
            octets: vec![1],
        },
        ..mx.clone()
    };
    assert_eq!(wrong.to_string(), "A\\(.Example. 3600 IN A \\# 1 01");
}

#[test]
fn tokens_entries_pieces_and_directives_are_hashed() {
    let text = b"a A b\na A b\n$GENERATE 1-2 a$ A 192.0.2.$";
    let all: Vec<Entry> = entries(text).map(Result::unwrap).collect();
    assert_eq!(hash_of(&all[0]), hash_of(&all[0].clone()));
    // (their tokens have other offsets)
    assert_eq!(all.iter().collect::<HashSet<&Entry>>().len(), all.len());
    let words: HashSet<Token> = tokens(text).map(Result::unwrap).collect();
    assert_eq!(words.len(), 11);
    let all: HashSet<Piece> = pieces(text).map(Result::unwrap).collect();
    assert_eq!((all.len(), pieces(text).count()), (14, 14));
    let place = 0;
    let directive = |text: &[u8]| Generate {
        place,
        text: text.to_vec(),
    };
    let set = HashSet::from([directive(b"a"), directive(b"b"), directive(b"a")]);
    assert_eq!(set.len(), 2);
}

fn ends_once<I: FusedIterator>(mut found: I) {
    while found.next().is_some() {}
    for _ in 0..3 {
        assert!(found.next().is_none());
    }
}

#[test]
fn iterators_stay_at_their_end() {
    let texts: [&[u8]; 6] = [b"", b"a b\nc", b"a\n", b"a )", b"a (", b"\"\n\nb\n"];
    for text in texts {
        ends_once(entries(text));
        ends_once(tokens(text));
        ends_once(pieces(text));
        ends_once(records(text));
    }
}

#[test]
fn data_of_any_type_have_an_order() {
    let mut data = [
        RecordData::Ns("b.".parse().unwrap()),
        RecordData::A("192.0.2.1".parse().unwrap()),
        RecordData::Ns("A.".parse().unwrap()),
    ];
    data.sort();
    let types = data.each_ref().map(RecordData::record_type);
    assert_eq!(types, [RecordType::A, RecordType::NS, RecordType::NS]);
    assert_eq!(data[1], RecordData::Ns("a.".parse().unwrap()));
}
