//! The types with a variant that have more than names and numbers: fields, octets and text, from RFCs; and the field
//! and the reason of values and octets that are not RDATA.
use dns_text::{
    records, BadData, BadDataReason, CharStr, Name, NameOctetsError, RecordData, RecordType,
    SvcParam, ZoneItem,
};

fn name(text: &str) -> Name {
    text.parse().unwrap()
}

fn string(text: &str) -> CharStr {
    text.parse().unwrap()
}

fn param(key: u16, value: &[u8]) -> SvcParam {
    let value = value.to_vec();
    SvcParam { key, value }
}

/// RDATA of an RFC, their octets, and their text.
fn known() -> Vec<(RecordData, Vec<u8>, &'static str)> {
    let hash = b"\x06\x53\x68\xAB\xEE\xD7\xEC\x6E\x9F\xEB\xA9\x6B\x8C\x8B\xC3\xE8\xB7\x91\xF7\x16";
    let fingerprint =
        b"\x12\x34\x56\x78\x9A\xBC\xDE\xF6\x78\x90\x12\x34\x56\x78\x9A\xBC\xDE\xF6\x78\x90";
    vec![
        // RFC 9460 appendix D.2: figures 2, 3 and 7 to 9.
        (
            RecordData::Https {
                priority: 0,
                target: name("foo.example.com."),
                params: vec![],
            },
            b"\0\0\x03foo\x07example\x03com\0".to_vec(),
            "0 foo.example.com.",
        ),
        (
            RecordData::Svcb {
                priority: 1,
                target: name("."),
                params: vec![],
            },
            b"\0\x01\0".to_vec(),
            "1 .",
        ),
        (
            RecordData::Svcb {
                priority: 16,
                target: name("foo.example.com."),
                params: vec![param(3, b"\0\x35")],
            },
            b"\0\x10\x03foo\x07example\x03com\0\0\x03\0\x02\0\x35".to_vec(),
            "16 foo.example.com. port=53",
        ),
        (
            RecordData::Https {
                priority: 16,
                target: name("foo.example.org."),
                params: vec![
                    param(0, b"\0\x01\0\x04"),
                    param(1, b"\x02h2\x05h3-19"),
                    param(4, b"\xC0\0\x02\x01"),
                ],
            },
            b"\0\x10\x03foo\x07example\x03org\0\0\0\0\x04\0\x01\0\x04\0\x01\0\x09\x02h2\x05h3-19\0\x04\0\x04\xC0\0\x02\x01"
                .to_vec(),
            "16 foo.example.org. mandatory=alpn,ipv4hint alpn=h2,h3-19 ipv4hint=192.0.2.1",
        ),
        // RFC 6698 section 2.3, shortened.
        (
            RecordData::Tlsa {
                usage: 0,
                selector: 0,
                matching_type: 1,
                data: b"\xD2\xAB\xDE".to_vec(),
            },
            b"\0\0\x01\xD2\xAB\xDE".to_vec(),
            "0 0 1 d2abde",
        ),
        // RFC 3403 section 6.2.
        (
            RecordData::Naptr {
                order: 100,
                preference: 10,
                flags: string(""),
                services: string(""),
                regexp: CharStr::from_octets(b"!^urn:cid:.+@([^\\.]+\\.)(.*)$!\\2!i".to_vec()).unwrap(),
                replacement: name("."),
            },
            [
                b"\0\x64\0\x0A\0\0\x21".as_slice(),
                b"!^urn:cid:.+@([^\\.]+\\.)(.*)$!\\2!i",
                b"\0",
            ]
            .concat(),
            r#"100 10 "" "" "!^urn:cid:.+@([^\\.]+\\.)(.*)$!\\2!i" ."#,
        ),
        // RFC 4034 section 3.3, with a shorter signature.
        (
            RecordData::Rrsig {
                type_covered: RecordType::A,
                algorithm: 5,
                labels: 3,
                original_ttl: 86400,
                expiration: 1_048_354_263,
                inception: 1_045_762_263,
                key_tag: 2642,
                signer: name("example.com."),
                signature: vec![0xA0, 0x90, 0x75],
            },
            b"\0\x01\x05\x03\0\x01\x51\x80\x3E\x7C\x9D\xD7\x3E\x55\x10\xD7\x0A\x52\x07example\x03com\0\xA0\x90\x75"
                .to_vec(),
            "A 5 3 86400 20030322173103 20030220173103 2642 example.com. oJB1",
        ),
        // RFC 4034 section 4.3.
        (
            RecordData::Nsec {
                next: name("host.example.com."),
                types: vec![
                    RecordType::A,
                    RecordType::MX,
                    RecordType::RRSIG,
                    RecordType::NSEC,
                    RecordType(1234),
                ],
            },
            [
                b"\x04host\x07example\x03com\0".as_slice(),
                b"\0\x06\x40\x01\0\0\0\x03",
                b"\x04\x1B",
                &[0; 26],
                b"\x20",
            ]
            .concat(),
            "host.example.com. A MX RRSIG NSEC TYPE1234",
        ),
        // RFC 5155 appendix A.
        (
            RecordData::Nsec3 {
                algorithm: 1,
                flags: 1,
                iterations: 12,
                salt: b"\xAA\xBB\xCC\xDD".to_vec(),
                next: hash.to_vec(),
                types: vec![RecordType::A, RecordType::RRSIG],
            },
            [
                b"\x01\x01\0\x0C\x04\xAA\xBB\xCC\xDD\x14".as_slice(),
                hash,
                b"\0\x06\x40\0\0\0\0\x02",
            ]
            .concat(),
            "1 1 12 aabbccdd 0p9mhaveqvm6t7vbl5lop2u3t2rp3tom A RRSIG",
        ),
        (
            RecordData::Nsec3param {
                algorithm: 1,
                flags: 0,
                iterations: 12,
                salt: b"\xAA\xBB\xCC\xDD".to_vec(),
            },
            b"\x01\0\0\x0C\x04\xAA\xBB\xCC\xDD".to_vec(),
            "1 0 12 aabbccdd",
        ),
        // RFC 4255 section 3.2.
        (
            RecordData::Sshfp {
                algorithm: 2,
                fingerprint_type: 1,
                fingerprint: fingerprint.to_vec(),
            },
            [b"\x02\x01".as_slice(), fingerprint].concat(),
            "2 1 123456789abcdef67890123456789abcdef67890",
        ),
        // RFC 8078 section 4.
        (
            RecordData::Cds {
                key_tag: 0,
                algorithm: 0,
                digest_type: 0,
                digest: vec![0],
            },
            vec![0; 5],
            "0 0 0 00",
        ),
        (
            RecordData::Cdnskey {
                flags: 0,
                protocol: 3,
                algorithm: 0,
                key: vec![0],
            },
            b"\0\0\x03\0\0".to_vec(),
            "0 3 0 AA==",
        ),
    ]
}

#[test]
fn fields_octets_and_text() {
    for (data, octets, text) in known() {
        let record_type = data.record_type();
        assert_eq!(data.to_octets(), Ok(octets.clone()), "{text}");
        let shown = data.to_text().unwrap();
        assert!(shown.eq_ignore_ascii_case(text), "{shown}");
        assert_eq!(data.to_string(), shown);
        // (equality is that of octets: the fields are compared as they are shown)
        let same = |found: &RecordData| assert_eq!(format!("{found:?}"), format!("{data:?}"));
        same(&RecordData::from_octets(record_type, &octets).unwrap());
        same(&RecordData::from_text(record_type, text.as_bytes(), None).unwrap());
        let zone = format!("a. 1 {record_type} {text}\n");
        match records(zone.as_bytes()).next() {
            Some(Ok(ZoneItem::Record(record))) => same(&record.data),
            found => panic!("{found:?}"),
        }
    }
}

/// Types in any order, and repeated ones, are those of the bitmap.
#[test]
fn types_in_any_order() {
    let of = |codes: &[u16]| RecordData::Nsec {
        next: name("a."),
        types: codes.iter().map(|code| RecordType(*code)).collect(),
    };
    assert_eq!(of(&[257, 1, 65535, 1, 46]), of(&[1, 46, 257, 65535]));
    assert_eq!(
        of(&[257, 1, 65535, 1]).to_text().unwrap(),
        "a. A CAA TYPE65535"
    );
    let all: Vec<u16> = (1..=u16::MAX).collect();
    let octets = of(&all).to_octets().unwrap();
    assert_eq!(octets.len(), 3 + 256 * 34);
    let read = RecordData::from_octets(RecordType::NSEC, &octets).unwrap();
    assert_eq!(format!("{read:?}"), format!("{:?}", of(&all)));
}

fn refused(data: RecordData) -> (Option<&'static str>, BadDataReason) {
    let error = data.to_octets().unwrap_err();
    assert_eq!(error.record_type, data.record_type());
    assert_eq!(data.to_text(), Err(error));
    (error.field, error.reason)
}

/// Values that have no octets, and those whose octets would be those of other values.
#[test]
fn values_have_a_field_and_a_reason() {
    let rrsig = |signer, signature| RecordData::Rrsig {
        type_covered: RecordType::A,
        algorithm: 8,
        labels: 1,
        original_ttl: 1,
        expiration: 2,
        inception: 1,
        key_tag: 1,
        signer: name(signer),
        signature,
    };
    let nsec = |next, types| RecordData::Nsec {
        next: name(next),
        types,
    };
    let nsec3 = |salt, next| RecordData::Nsec3 {
        algorithm: 2,
        flags: 0,
        iterations: 0,
        salt,
        next,
        types: vec![],
    };
    let https = |target, params| RecordData::Https {
        priority: 1,
        target: name(target),
        params,
    };
    let tlsa = |data| RecordData::Tlsa {
        usage: 3,
        selector: 1,
        matching_type: 1,
        data,
    };
    let relative = BadDataReason::RelativeName;
    let reasons = [
        (rrsig("a", vec![0, 1]), "signer", relative),
        (rrsig("a.", vec![]), "signature", BadDataReason::Empty),
        (nsec("a", vec![RecordType(255)]), "next name", relative),
        (nsec("a.", vec![]), "types", BadDataReason::Empty),
        (
            nsec("a.", vec![RecordType(0)]),
            "types",
            BadDataReason::BadBitmap,
        ),
        (nsec3(vec![7; 256], vec![7]), "salt", BadDataReason::TooLong),
        (
            nsec3(vec![], vec![7; 256]),
            "next hash",
            BadDataReason::TooLong,
        ),
        (nsec3(vec![], vec![]), "next hash", BadDataReason::Empty),
        (https("a", vec![]), "target", relative),
        (
            https("a.", vec![param(3, b"\0\x35"), param(1, b"\x02h2")]),
            "parameter",
            BadDataReason::BadParameter,
        ),
        (
            https("a.", vec![param(3, b"\0")]),
            "parameter",
            BadDataReason::BadParameter,
        ),
        (
            https("a.", vec![param(65280, &[7; 65536])]),
            "parameter",
            BadDataReason::TooLong,
        ),
        (tlsa(vec![]), "data", BadDataReason::Empty),
        (RecordData::Ns(name("a")), "name server", relative),
        (RecordData::Txt(vec![]), "text", BadDataReason::ShortInput),
    ];
    for (data, field, reason) in reasons {
        let shown = format!("{data:?}");
        assert_eq!(refused(data), (Some(field), reason), "{shown}");
    }
    let reason = BadDataReason::TooLong;
    assert_eq!(refused(tlsa(vec![7; 65536])), (None, reason));
    let opt = RecordData::Unknown {
        record_type: RecordType(41),
        octets: vec![],
    };
    assert_eq!(opt.to_octets(), Ok(vec![]));
    let error = opt.to_text().unwrap_err();
    assert_eq!((error.field, error.reason), (None, BadDataReason::Rejected));
    assert_eq!(error.to_string(), "OPT: no RDATA of the type");
}

/// A type, octets, the field and the reason of their error, and its text.
type OctetsRow = (
    RecordType,
    &'static [u8],
    Option<&'static str>,
    BadDataReason,
    &'static str,
);

#[test]
fn octets_have_a_field_and_a_reason() {
    let length = BadDataReason::BadLength;
    let rows: [OctetsRow; 12] = [
        (
            RecordType::MX,
            b"\0",
            Some("preference"),
            BadDataReason::ShortInput,
            "MX: preference: unexpected end of RDATA",
        ),
        (
            RecordType::MX,
            b"\0\x01\0\0",
            None,
            BadDataReason::TrailingOctets,
            "MX: octets after the RDATA",
        ),
        (
            RecordType::NS,
            b"\x01a\xC0\0",
            Some("name server"),
            BadDataReason::BadName(NameOctetsError::Pointer),
            "NS: name server: pointer in place of a label",
        ),
        (
            RecordType::SOA,
            b"\0\x40",
            Some("mailbox"),
            BadDataReason::BadName(NameOctetsError::BadLabel),
            "SOA: mailbox: unknown type of label",
        ),
        (
            RecordType::DS,
            b"\0\x01\x08\x02\x07",
            Some("digest"),
            length(32),
            "DS: digest: expected 32 octets",
        ),
        (
            RecordType::CDS,
            b"\0\x01\x08\x03\x07",
            Some("digest"),
            length(32),
            "CDS: digest: expected 32 octets",
        ),
        (
            RecordType::SSHFP,
            b"\x01\x01\x07",
            Some("fingerprint"),
            length(20),
            "SSHFP: fingerprint: expected 20 octets",
        ),
        (
            RecordType::NSEC3,
            b"\x01\0\0\0\0\x01\x07",
            Some("next hash"),
            length(20),
            "NSEC3: next hash: expected 20 octets",
        ),
        (
            RecordType::NSEC,
            b"\0\0\x01\0",
            Some("types"),
            BadDataReason::BadBitmap,
            "NSEC: types: not a bitmap of types",
        ),
        (
            RecordType::CAA,
            b"\0\x01-",
            Some("tag"),
            BadDataReason::BadTag,
            "CAA: tag: expected ASCII letters and digits",
        ),
        (
            RecordType::SVCB,
            b"\0\x01\0\0\x03\0\x02\0",
            Some("parameter"),
            BadDataReason::ShortInput,
            "SVCB: parameter: unexpected end of RDATA",
        ),
        (
            RecordType::DNSKEY,
            b"\x01\0\x03\x08",
            Some("key"),
            BadDataReason::Empty,
            "DNSKEY: key: no value",
        ),
    ];
    for (record_type, octets, field, reason, shown) in rows {
        let wanted = BadData {
            record_type,
            field,
            reason,
        };
        let error = RecordData::from_octets(record_type, octets).unwrap_err();
        assert_eq!(error, wanted);
        assert_eq!(error.to_string(), shown);
    }
}
