//! Each error, and the items before it.
use dns_text::codec::{BadEncoding, BASE16, BASE32HEX, BASE64};
use dns_text::{
    entries, number, pieces, position, records, tokens, CharStr, Class, FaultKind, LongString,
    Name, NameErrorKind, NameOctetsError, NumberErrorKind, Positions, ReadErrorKind, RecordType,
    Ttl, WordErrorKind, ZoneItem,
};
use std::time::Duration;

#[test]
fn character_strings() {
    let refused = |text: &[u8]| {
        let error = CharStr::from_text(text).unwrap_err();
        (error.kind, error.place)
    };
    assert_eq!(refused(br"a\25x"), (ReadErrorKind::BadEscape, 1));
    assert_eq!(refused(br"ab\25"), (ReadErrorKind::ShortInput, 2));
    assert_eq!(refused(b"\xFFabc"), (ReadErrorKind::BadUtf8, 0));
    assert_eq!(
        refused("ab\u{e9}".as_bytes()),
        (ReadErrorKind::BadSymbol, 2)
    );
    assert_eq!(refused(&[b'x'; 256]), (ReadErrorKind::TooLong, 255));
    assert_eq!(CharStr::from_octets(vec![0; 256]), Err(LongString));
    let long = CharStr::from_octets(vec![0; 255]).unwrap();
    assert_eq!(
        CharStr::from_text(long.to_string().as_bytes()).unwrap(),
        long
    );
    assert_eq!(long.quoted().len(), 1022);
    let error = CharStr::from_text(b"a\\").unwrap_err();
    assert_eq!(error.to_string(), "unexpected end of data at 1");
}

#[test]
fn texts_of_octets() {
    let read = |text: &[u8]| CharStr::from_octets_text(text).map(CharStr::into_octets);
    assert_eq!(read(b"a\tb").unwrap(), b"a\tb");
    assert_eq!(read(b"\x80\xC3\xFF").unwrap(), b"\x80\xC3\xFF");
    assert_eq!(read(b"\\\t\\\xFF\\009\\\\").unwrap(), b"\t\xFF\t\\");
    assert_eq!(read(&[0xFF; 255]).unwrap(), [0xFF; 255]);
    assert_eq!(read(b"").unwrap(), b"");
    let refused = |text: &[u8]| {
        let error = CharStr::from_octets_text(text).unwrap_err();
        (error.kind, error.place)
    };
    assert_eq!(refused(b"\xFF\\25x"), (ReadErrorKind::BadEscape, 1));
    assert_eq!(refused(b"\xFF\\256"), (ReadErrorKind::BadEscape, 1));
    assert_eq!(refused(b"ab\\25"), (ReadErrorKind::ShortInput, 2));
    assert_eq!(refused(b"ab\\"), (ReadErrorKind::ShortInput, 2));
    assert_eq!(refused(&[0xFF; 256]), (ReadErrorKind::TooLong, 255));
    let error = CharStr::from_text(b"a\tb").unwrap_err();
    assert_eq!(error.to_string(), "octet outside printable ASCII at 1");
}

#[test]
fn names() {
    let refused = |text: &[u8]| {
        let error = Name::from_text(text).unwrap_err();
        (error.kind, error.place)
    };
    assert_eq!(refused(br"a.\25x"), (NameErrorKind::BadEscape, 2));
    assert_eq!(refused(br"a.\25"), (NameErrorKind::ShortInput, 2));
    assert_eq!(refused(b"ab\xFFz"), (NameErrorKind::BadUtf8, 2));
    assert_eq!(
        refused("ab\u{e9}".as_bytes()),
        (NameErrorKind::BadSymbol, 2)
    );
    assert_eq!(refused(b"..a"), (NameErrorKind::EmptyLabel, 0));
    assert_eq!(refused(br"a.\[b"), (NameErrorKind::BinaryLabel, 2));
    assert_eq!(refused(&[b'a'; 64]), (NameErrorKind::LongLabel, 63));
    assert_eq!(refused(&b"a.".repeat(128)), (NameErrorKind::TooLong, 254));
    let longest = Name::from_text(&b"a.".repeat(127)).unwrap();
    assert_eq!(longest.as_octets().len(), 255);
    assert_eq!(longest.to_string().as_bytes(), b"a.".repeat(127));
    let octets: Vec<u8> = (1..=62).chain(192..=255).collect();
    for label in octets.chunks(63) {
        let wire = [&[label.len() as u8], label, b"\0"].concat();
        let name = Name::from_octets(wire).unwrap();
        assert!(name.is_absolute());
        assert_eq!(Name::from_text(name.to_string().as_bytes()).unwrap(), name);
        assert_eq!(Name::from_text(name.zone_text().as_bytes()).unwrap(), name);
    }
    let ends_in_zero = Name::from_text(br"a.\000").unwrap();
    assert!(!ends_in_zero.is_absolute());
    assert_eq!(
        Name::from_octets(ends_in_zero.as_octets().to_vec()).unwrap(),
        ends_in_zero
    );
    assert_eq!(Name::from_octets(vec![]).unwrap().to_string(), "");
    assert_eq!(Name::from_text(b".").unwrap().without_dot(), ".");
    let octets = |octets: &[u8]| Name::from_octets(octets.to_vec()).unwrap_err();
    assert_eq!(octets(b"\x02a"), NameOctetsError::ShortInput);
    assert_eq!(octets(&[0; 256]), NameOctetsError::TooLong);
    assert_eq!(octets(b"\x80a"), NameOctetsError::BadLabel);
    assert_eq!(octets(b"\x01a\xC0\x0C"), NameOctetsError::Pointer);
    assert_eq!(octets(b"\x01a\0b"), NameOctetsError::TrailingOctets);
    assert_eq!(
        NameOctetsError::TrailingOctets.to_string(),
        "octets after the root"
    );
}

#[test]
fn numbers() {
    let refused = |text: &[u8], greatest: u64| {
        let error = number(text, greatest).unwrap_err();
        (error.kind, error.place)
    };
    assert_eq!(number(b"", 255).unwrap(), 0);
    assert_eq!(number(b"00255", 255).unwrap(), 255);
    assert_eq!(number(b"18446744073709551615", u64::MAX).unwrap(), u64::MAX);
    assert_eq!(refused(b"256", 255), (NumberErrorKind::TooGreat, 2));
    assert_eq!(refused(b"12x", 255), (NumberErrorKind::NoDigit, 2));
    assert_eq!(refused(br"1\25", 255), (NumberErrorKind::ShortInput, 1));
    assert_eq!(refused(br"1\25x", 255), (NumberErrorKind::BadEscape, 1));
    assert_eq!(refused(b"1\xFFx", 255), (NumberErrorKind::BadUtf8, 1));
    let error = number(b"-1", 255).unwrap_err();
    assert_eq!(error.to_string(), "no decimal digit at 0");
}

#[test]
fn words() {
    let refused = |text: &[u8]| {
        let error = Ttl::from_text(text).unwrap_err();
        (error.kind, error.place)
    };
    assert_eq!(refused(b""), (WordErrorKind::BadTtl, 0));
    assert_eq!(refused(b"1h30"), (WordErrorKind::BadTtl, 0));
    assert_eq!(refused(b"2147483648"), (WordErrorKind::BadTtl, 0));
    assert_eq!(Ttl::from_text(b"2147483647").unwrap(), Ttl::MAX);
    assert_eq!(Ttl::from_seconds(0x8000_0000), None);
    assert_eq!(Duration::from(Ttl::MAX).as_secs(), 0x7FFF_FFFF);
    let error = RecordType::from_text(b"TYPE65536").unwrap_err();
    assert_eq!(error.kind, WordErrorKind::UnknownType);
    assert_eq!(error.kind.status().name(), "DNSTEXT_UNKNOWN_TYPE");
    let error = "CHAOS".parse::<Class>().unwrap_err();
    assert_eq!(error.to_string(), "unknown class at 0");
    assert_eq!(
        format!("{:<6}|{:>6}", RecordType::A, Class::CH),
        "A     |    CH"
    );
    for code in 0..=u16::MAX {
        let (kind, class) = (RecordType(code), Class(code));
        assert_eq!(kind.to_string().parse(), Ok(kind));
        assert_eq!(class.to_string().parse(), Ok(class));
    }
}

/// A TTL of 2^31 or more is 0 (RFC 2181 section 8): the minimum of an SOA, that of a record, and `$TTL`.
#[test]
fn long_ttls() {
    let zone = b"a. SOA . . 1 2 3 4 2147483648\na. A 192.0.2.1\nb. 4294967295 A 192.0.2.2\n$TTL 3551w\nc. A 192.0.2.3\n";
    let ttls: Vec<_> = records(zone)
        .map(|item| match item {
            Ok(ZoneItem::Record(record)) => record.ttl.seconds(),
            other => panic!("{other:?}"),
        })
        .collect();
    assert_eq!(ttls, [0, 0, 0, 0]);
    assert!(records(b"a. 4294967296 A 192.0.2.1")
        .next()
        .unwrap()
        .is_err());
}

/// The codes of RFC 1035, 2782, 3596, 4034 and 8659.
#[test]
fn types_of_records() {
    let known = [
        (RecordType::A, "A"),
        (RecordType::NS, "NS"),
        (RecordType::CNAME, "CNAME"),
        (RecordType::SOA, "SOA"),
        (RecordType::PTR, "PTR"),
        (RecordType::MX, "MX"),
        (RecordType::TXT, "TXT"),
        (RecordType::AAAA, "AAAA"),
        (RecordType::SRV, "SRV"),
        (RecordType::DS, "DS"),
        (RecordType::RRSIG, "RRSIG"),
        (RecordType::NSEC, "NSEC"),
        (RecordType::DNSKEY, "DNSKEY"),
        (RecordType::CAA, "CAA"),
    ];
    for (kind, name) in known {
        assert_eq!(kind.to_string(), name);
    }
    let classes = [Class::IN, Class::CH, Class::HS];
    assert_eq!(classes.map(|class| class.to_string()), ["IN", "CH", "HS"]);
}

#[test]
fn positions() {
    let text = b"a\n\nbc\r\n";
    let told = |place| position(text, place).map(|it| (it.line, it.column));
    assert_eq!(told(0), Some((1, 1)));
    assert_eq!(told(2), Some((2, 1)));
    assert_eq!(told(6), Some((3, 4)));
    assert_eq!(told(7), Some((4, 1)));
    assert_eq!(told(8), None);
    assert_eq!(told(usize::MAX), None);
    for from in 0..=text.len() {
        for place in 0..=text.len() + 1 {
            let mut positions = Positions::new(text);
            assert_eq!(positions.find(from), position(text, from));
            assert_eq!(positions.find(place), position(text, place));
            assert_eq!(positions.find(from), position(text, from));
        }
    }
    let fault = entries(b"a\n\"b").last().unwrap().unwrap_err();
    assert_eq!(fault.locate(b"a\n\"b").unwrap().to_string(), "2:3");
    assert_eq!(fault.locate(b"a"), None);
}

#[test]
fn encodings() {
    assert_eq!(BASE16.read(b"6x"), Err(BadEncoding));
    assert_eq!(BASE32HEX.read(b"C"), Err(BadEncoding));
    assert_eq!(BASE64.read(b"Zg="), Err(BadEncoding));
    assert_eq!(BASE64.read(b"").unwrap(), b"");
    let octets: Vec<u8> = (0..=255).cycle().take(100_001).collect();
    for encoding in [BASE16, BASE32HEX, BASE64] {
        assert_eq!(
            encoding.read(encoding.print(&octets).as_bytes()).unwrap(),
            octets
        );
    }
    assert_eq!(BadEncoding.to_string(), "not of the encoding");
}

#[test]
fn zone_texts() {
    let refused = |text: &[u8]| {
        let fault = entries(text).last().unwrap().unwrap_err();
        assert_eq!(pieces(text).last().unwrap().unwrap_err(), fault);
        (fault.kind, fault.place)
    };
    assert_eq!(refused(b"a\na b)"), (FaultKind::Closing, 5));
    assert_eq!(refused(b"a ( b"), (FaultKind::OpenParenthesis, 5));
    assert_eq!(refused(b"a \"b\n"), (FaultKind::OpenQuote, 4));
    assert_eq!(refused(b"a \rb"), (FaultKind::LoneReturn, 3));
    assert_eq!(refused(br"a b\256"), (FaultKind::BadEscape, 6));
    let opened = |text: &[u8]| {
        let fault = entries(text).last().unwrap().unwrap_err();
        assert_eq!(pieces(text).last().unwrap().unwrap_err(), fault);
        fault.opened
    };
    assert_eq!(opened(b"a\nb \"c\nd"), Some(4));
    assert_eq!(opened(b"a \"b"), Some(2));
    assert_eq!(opened(b"a ( b"), Some(2));
    assert_eq!(opened(b"\xE9\n\xE9 (b) ( c (d"), Some(8));
    assert_eq!(opened(b"a )"), None);
    let long = [b"a ".repeat(100), b")".to_vec()].concat();
    let mut found = tokens(&long);
    assert_eq!(
        found
            .by_ref()
            .take(100)
            .filter(|token| token.is_ok())
            .count(),
        100
    );
    let fault = found.next().unwrap().unwrap_err();
    assert_eq!(
        fault.to_string(),
        "closing parenthesis, and none is open at 200"
    );
    assert!(found.next().is_none());
}
