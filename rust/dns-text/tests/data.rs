//! RDATA as values, from octets and back.
use dns_text::{
    read_records, records, CharStr, Name, RecordData, RecordFaultKind, RecordType, RelativeOrigin,
};
use std::collections::HashSet;

fn name(text: &str) -> Name {
    text.parse().unwrap()
}

fn string(text: &str) -> CharStr {
    text.parse().unwrap()
}

/// RDATA of each variant, and their octets.
fn known() -> Vec<(RecordData, Vec<u8>)> {
    let soa = RecordData::Soa {
        mname: name("a."),
        rname: name("."),
        serial: 1,
        refresh: 2,
        retry: 3,
        expire: 4,
        minimum: u32::MAX,
    };
    let srv = RecordData::Srv {
        priority: 1,
        weight: 2,
        port: 65535,
        target: name("B."),
    };
    let caa = RecordData::Caa {
        flags: 128,
        tag: string("issue"),
        value: b"ca".to_vec(),
    };
    let ds = |digest_type, digest: &[u8]| RecordData::Ds {
        key_tag: 258,
        algorithm: 8,
        digest_type,
        digest: digest.to_vec(),
    };
    let dnskey = RecordData::Dnskey {
        flags: 257,
        protocol: 3,
        algorithm: 8,
        key: vec![9],
    };
    let mx = RecordData::Mx {
        preference: 10,
        exchange: name("Mail.example."),
    };
    let unknown = RecordData::Unknown {
        record_type: RecordType(731),
        octets: vec![],
    };
    let octets: [&[u8]; 16] = [
        b"\xC0\x00\x02\x01",
        &[1; 16],
        b"\x01a\0",
        b"\x01a\0",
        b"\x01a\0",
        b"\0",
        b"\0\x0A\x04Mail\x07example\0",
        b"\x01a\0\0\0\0\0\x01\0\0\0\x02\0\0\0\x03\0\0\0\x04\xFF\xFF\xFF\xFF",
        b"\0\x01\0\x02\xFF\xFF\x01B\0",
        b"\x01a\0\x02bC",
        b"\x80\x05issueca",
        &[&[1, 2, 8, 1][..], &[7; 20]].concat(),
        &[&[1, 2, 8, 2][..], &[7; 32]].concat(),
        &[1, 2, 8, 7, 7],
        b"\x01\x01\x03\x08\x09",
        b"",
    ];
    let data = [
        RecordData::A("192.0.2.1".parse().unwrap()),
        RecordData::Aaaa([1; 16].into()),
        RecordData::Ns(name("a.")),
        RecordData::Cname(name("a.")),
        RecordData::Dname(name("a.")),
        RecordData::Ptr(name(".")),
        mx,
        soa,
        srv,
        RecordData::Txt(vec![string("a"), string(""), string("bC")]),
        caa,
        ds(1, &[7; 20]),
        ds(2, &[7; 32]),
        ds(7, &[7]),
        dnskey,
        unknown,
    ];
    data.into_iter().zip(octets.map(<[u8]>::to_vec)).collect()
}

#[test]
fn data_and_octets() {
    for (data, octets) in known() {
        let record_type = data.record_type();
        assert_eq!(data.to_octets().unwrap(), octets);
        let read = RecordData::from_octets(record_type, &octets).unwrap();
        assert_eq!(read, data);
        assert_eq!(read.to_octets().unwrap(), octets);
        assert_eq!(read.canonical_octets(), data.canonical_octets());
        let unknown = RecordData::Unknown {
            record_type,
            octets,
        };
        assert_eq!(
            (unknown.record_type(), unknown.to_octets().is_ok()),
            (record_type, true)
        );
    }
    assert_eq!(
        known()
            .into_iter()
            .map(|it| it.0)
            .collect::<HashSet<_>>()
            .len(),
        16
    );
}

/// Types whose RDATA can be truncated or extended.
fn is_open(record_type: RecordType) -> bool {
    [RecordType::CAA, RecordType::DNSKEY, RecordType(731)].contains(&record_type)
}

#[test]
fn other_octets_are_refused() {
    for (data, octets) in known() {
        let record_type = data.record_type();
        let refused = |octets: &[u8]| RecordData::from_octets(record_type, octets).is_err();
        let longer = [octets.as_slice(), b"\x07"].concat();
        let is_any_digest = matches!(data, RecordData::Ds { digest_type: 7, .. });
        assert_eq!(refused(&longer), !is_open(record_type) && !is_any_digest);
        for count in 0..octets.len() {
            let is_strings = matches!(data, RecordData::Txt(_)) && [2, 3].contains(&count);
            let is_value = matches!(data, RecordData::Caa { .. }) && count >= 7;
            assert_eq!(
                refused(&octets[..count]),
                !is_strings && !is_value,
                "{data:?} {count}"
            );
        }
    }
    let refused = |kind, octets: &[u8]| RecordData::from_octets(kind, octets).is_err();
    assert!(refused(RecordType::NS, b"\x01a\xC0\0"));
    assert!(refused(RecordType::NS, b"\x40a\0"));
    assert!(refused(
        RecordType::NS,
        &[b"\x01a".repeat(127), vec![1, b'a', 0]].concat()
    ));
    assert!(refused(RecordType::CAA, b"\0\0value"));
    assert!(refused(RecordType::CAA, b"\0\x02a-value"));
    assert!(refused(
        RecordType::DS,
        &[&[1, 2, 8, 4][..], &[7; 47]].concat()
    ));
    assert!(!refused(
        RecordType::DS,
        &[&[1, 2, 8, 4][..], &[7; 48]].concat()
    ));
    assert!(!refused(RecordType(65280), &[7; 65535]));
    assert!(refused(RecordType(65280), &[7; 65536]));
}

#[test]
fn other_values_are_refused() {
    let caa = |tag| RecordData::Caa {
        flags: 0,
        tag: string(tag),
        value: vec![],
    };
    let ds = RecordData::Ds {
        key_tag: 1,
        algorithm: 8,
        digest_type: 2,
        digest: vec![7; 20],
    };
    let unknown = RecordData::Unknown {
        record_type: RecordType::A,
        octets: vec![1, 2, 3],
    };
    let texts = vec![CharStr::from_octets(vec![7; 255]).unwrap(); 257];
    let refused = [
        RecordData::Ns(name("a")),
        RecordData::Txt(vec![]),
        RecordData::Txt(texts.clone()),
        caa(""),
        caa("a b"),
        ds,
        unknown,
    ];
    for data in refused {
        let error = data.to_octets().unwrap_err();
        assert_eq!(error.record_type, data.record_type(), "{data:?}");
    }
    assert_eq!(
        RecordData::Txt(texts[..255].to_vec())
            .to_octets()
            .unwrap()
            .len(),
        65280
    );
    assert!(caa("a1").to_octets().is_ok());
}

/// Names are equal without regard to case, and strings are not (RFC 4034 section 6.2, RFC 4343 section 3).
#[test]
fn data_are_compared_in_canonical_form() {
    assert_eq!(RecordData::Ns(name("A.")), RecordData::Ns(name("a.")));
    assert_ne!(RecordData::Ns(name("a.")), RecordData::Cname(name("a.")));
    let text = |text| RecordData::Txt(vec![string(text)]);
    assert_ne!(text("A"), text("a"));
    assert!(text("A") < text("a") && text("b") < text("aa"));
    let octets = b"\x01A\0".to_vec();
    let record_type = RecordType::NS;
    assert_eq!(
        RecordData::from_octets(record_type, &octets).unwrap(),
        RecordData::Ns(name("a."))
    );
    let unknown = RecordData::Unknown {
        record_type,
        octets,
    };
    assert_eq!(unknown, RecordData::Ns(name("a.")));
    // No data of the type, and of a type without data in zones: the octets tell.
    let no_data = |octets: &[u8]| RecordData::Unknown {
        record_type,
        octets: octets.to_vec(),
    };
    assert_ne!(no_data(b"\x02A\0"), no_data(b"\x02a\0"));
    assert_ne!(RecordData::Ns(name("A")), RecordData::Ns(name("a")));
    let opt = |octets: &[u8]| RecordData::from_octets(RecordType(41), octets).unwrap();
    assert_ne!(opt(b"\x01A\0"), opt(b"\x01a\0"));
    assert_eq!(opt(b"A").canonical_octets(), b"A");
}

/// RDATA of types whose names are in lower case in canonical form are equal, and have equal hashes, without
/// regard to case (RFC 4034 section 6.2, RFC 6840 section 5.1). RDATA of other types, and strings, are not.
#[test]
fn names_in_data_are_compared_without_case() {
    let lowered = [
        ("NS", "A.", "a."),
        ("MD", "\\# 3 014100", "\\# 3 016100"),
        ("MF", "\\# 3 014100", "\\# 3 016100"),
        ("CNAME", "A.", "a."),
        ("SOA", "A. B. 1 2 3 4 5", "a. b. 1 2 3 4 5"),
        ("MB", "A.", "a."),
        ("MG", "A.", "a."),
        ("MR", "A.", "a."),
        ("PTR", "A.", "a."),
        ("MINFO", "A. B.", "a. b."),
        ("MX", "1 A.", "1 a."),
        ("RP", "A. B.", "a. b."),
        ("AFSDB", "1 A.", "1 a."),
        ("RT", "1 A.", "1 a."),
        ("PX", "1 A. B.", "1 a. b."),
        ("NXT", "\\# 5 014100 4041", "\\# 5 016100 4041"),
        ("NAPTR", "1 2 U V W A.", "1 2 U V W a."),
        ("KX", "1 A.", "1 a."),
        ("SRV", "1 2 3 A.", "1 2 3 a."),
        ("DNAME", "A.", "a."),
        ("A6", "\\# 4 80 014100", "\\# 4 80 016100"),
        ("RRSIG", "A 8 1 0 0 0 1 A. QQ==", "A 8 1 0 0 0 1 a. QQ=="),
    ];
    let exact = [
        ("NSEC", "A. A", "a. A"),
        ("NSAP-PTR", "A.", "a."),
        ("TALINK", "A. B.", "a. b."),
        ("LP", "1 A.", "1 a."),
        ("SVCB", "1 A.", "1 a."),
        ("HINFO", "A B", "a b"),
        ("NAPTR", "1 2 U V W .", "1 2 u V W ."),
        ("TXT", "A", "a"),
    ];
    let data = |record_type: &str, text: &str| {
        RecordData::from_text(record_type.parse().unwrap(), text.as_bytes(), None).unwrap()
    };
    for (record_type, upper, lower) in lowered {
        let (upper, lower) = (data(record_type, upper), data(record_type, lower));
        assert_eq!(upper, lower);
        assert_eq!(upper.canonical_octets(), lower.to_octets().unwrap());
        assert_eq!(HashSet::from([upper.clone()]).replace(lower), Some(upper));
    }
    for (record_type, upper, lower) in exact {
        let (upper, lower) = (data(record_type, upper), data(record_type, lower));
        assert!(upper != lower && upper < lower, "{upper:?}");
        assert_eq!(upper.canonical_octets(), upper.to_octets().unwrap());
    }
}

/// RFC 1035 section 3.2.1: 65,535 octets are read, and no more.
#[test]
fn long_data_are_refused() {
    let strings = [vec![b'x'; 255], vec![b' ']].concat().repeat(255);
    let text = |last: usize| [strings.clone(), vec![b'x'; last]].concat();
    let data = RecordData::from_text(RecordType::TXT, &text(254), None).unwrap();
    assert_eq!(data.to_octets().unwrap().len(), 65535);
    let fault = RecordData::from_text(RecordType::TXT, &text(255), None).unwrap_err();
    assert_eq!(
        fault.to_string(),
        "TXT: RDATA exceeds 65535 octets at 65280"
    );
}

/// RFC 1035 section 3.3.14: strings of 255 octets, and one of the rest, which may be the only one.
#[test]
fn texts_of_any_octets_are_strings() {
    for (count, lengths) in [
        (0, &[0][..]),
        (1, &[1]),
        (255, &[255]),
        (256, &[255, 1]),
        (510, &[255, 255]),
        (511, &[255, 255, 1]),
    ] {
        let octets: Vec<u8> = (0..=254).cycle().take(count).collect();
        let data = RecordData::txt(&octets).unwrap();
        let RecordData::Txt(strings) = &data else {
            panic!("{data:?}")
        };
        let found: Vec<usize> = strings.iter().map(|it| it.as_octets().len()).collect();
        assert_eq!(found, lengths);
        let strings: Vec<&[u8]> = strings.iter().map(CharStr::as_octets).collect();
        assert_eq!(strings.concat(), octets);
        let read = RecordData::from_text(RecordType::TXT, data.to_text().unwrap().as_bytes(), None);
        assert_eq!(read, Ok(data));
    }
    let most = RecordData::txt(&vec![b';'; 65279]).unwrap();
    assert_eq!(most.to_octets().unwrap().len(), 65535);
    let error = RecordData::txt(&vec![b';'; 65280]).unwrap_err();
    assert_eq!(error.to_string(), "TXT: too many octets");
}

/// A relative name cannot be an origin.
#[test]
fn relative_origins_are_refused() {
    for origin in ["example", ""] {
        let fault = RecordData::from_text(RecordType::MX, b"10 a.", Some(&name(origin)));
        let fault = fault.unwrap_err();
        assert_eq!(
            (fault.kind, fault.place),
            (RecordFaultKind::RelativeOrigin, 0)
        );
        assert_eq!(fault.message(), "name without the root at its end");
        assert_eq!(
            records(b"").with_origin(&name(origin)).err(),
            Some(RelativeOrigin)
        );
        let reader = read_records(b"".as_slice()).with_origin(&name(origin));
        assert_eq!(reader.err(), Some(RelativeOrigin));
    }
    assert_eq!(RelativeOrigin.to_string(), "the origin is a relative name");
}
