//! The labels of names, and their order; conversions from strings.
use dns_text::{
    records, CharStr, Name, NameErrorKind, NameOctetsError, ReadErrorKind, RecordData, ZoneItem,
};
use std::collections::{BTreeMap, BTreeSet};

fn name(text: &str) -> Name {
    text.parse().unwrap()
}

/// The names of RFC 4034 section 6.1, in canonical order.
const ORDERED: [&str; 9] = [
    "example.",
    "a.example.",
    "yljkjljk.a.example.",
    "Z.a.example.",
    "zABC.a.EXAMPLE.",
    "z.example.",
    r"\001.z.example.",
    "*.z.example.",
    r"\200.z.example.",
];

#[test]
fn canonical_order() {
    let names = ORDERED.map(name);
    for (place, left) in names.iter().enumerate() {
        for (other, right) in names.iter().enumerate() {
            assert_eq!(left.cmp(right), place.cmp(&other), "{left:?} {right:?}");
        }
        assert!(Name::root() < *left);
        let relative = name(left.to_string().strip_suffix('.').unwrap());
        assert!(relative > names[8] && relative != *left);
    }
    let set: BTreeSet<Name> = names.iter().rev().cloned().collect();
    assert!(set.iter().eq(&names));
    let by_name = BTreeMap::from([(name("WWW.example."), 1)]);
    assert_eq!(by_name.get(&name("www.EXAMPLE.")), Some(&1));
    assert!(name("a.b") < name("b.b") && name("b.a") < name("a.b") && name("") < name("a"));
}

#[test]
fn labels_from_both_ends() {
    let deep = Name::from_text(&b"a.".repeat(127)).unwrap();
    assert_eq!(deep.labels().len(), 127);
    assert!(deep.labels().rev().all(|label| label == b"a"));
    let name = name(r"a\.b.c\000");
    let mut labels = name.labels();
    assert_eq!(labels.next_back(), Some(b"c\0".as_slice()));
    assert_eq!((labels.len(), labels.next()), (1, Some(b"a.b".as_slice())));
    assert_eq!(
        (labels.next(), labels.next_back(), labels.len()),
        (None, None, 0)
    );
    assert_eq!(Name::from_octets(vec![]).unwrap().labels().next(), None);
}

#[test]
fn parents_lead_to_the_root() {
    let mut names = vec![name("a.b.example.")];
    while let Some(parent) = names.last().unwrap().parent() {
        assert!(names
            .iter()
            .all(|it| it.ends_with(&parent) && !parent.ends_with(it)));
        names.push(parent);
    }
    let texts: Vec<String> = names.iter().map(Name::to_string).collect();
    assert_eq!(texts, ["a.b.example.", "b.example.", "example.", "."]);
    assert!(names[3].is_root() && names[3].is_absolute());
    assert_eq!(name("a").parent(), Some(name("")));
    assert_eq!(name("").parent(), None);
}

#[test]
fn ends_are_whole_labels() {
    let long = name("www.example.");
    let starts = ["", "www", "WWW.example", "www.example."];
    assert!(starts.iter().all(|it| long.starts_with(&name(it))));
    let others = [
        "w",
        "ww",
        "www.",
        "www.e",
        "example.",
        "www.example.a",
        "www.example.a.",
    ];
    assert!(others.iter().all(|it| !long.starts_with(&name(it))));
    let ends = ["", ".", "example.", "WWW.Example."];
    assert!(ends.iter().all(|it| long.ends_with(&name(it))));
    let others = ["example", "ple.", "ww.example.", "a.www.example.", "www"];
    assert!(others.iter().all(|it| !long.ends_with(&name(it))));
    assert!(name("a.b").ends_with(&name("b")) && !name("a.b").ends_with(&Name::root()));
    // A suffix of the octets that is not a suffix of the labels.
    assert!(!name(r"a\001b.").ends_with(&name("b.")));
    assert!(!name(r"a\000").ends_with(&Name::root()));
    assert!(name("").ends_with(&name("")) && !name("").ends_with(&Name::root()));
    assert!(Name::root().ends_with(&Name::root()) && Name::root().starts_with(&name("")));
}

#[test]
fn origins_are_appended() {
    let append = |left: &str, right: &str| name(left).append_origin(&name(right));
    assert_eq!(
        append("www", "example.").unwrap().to_string(),
        "www.example."
    );
    assert_eq!(append("www", ".").unwrap().to_string(), "www.");
    assert_eq!(append("a", "b").unwrap().to_string(), "a.b");
    assert_eq!(append("", "example.").unwrap(), name("example."));
    assert_eq!(append("a.", "example.").unwrap(), name("a."));
    let long = "a.".repeat(125);
    assert_eq!(append(&long[..249], "b.").unwrap().as_octets().len(), 253);
    assert_eq!(append(&long[..249], "bcd.").unwrap().as_octets().len(), 255);
    assert_eq!(append(&long[..249], "bcde."), Err(NameOctetsError::TooLong));
    assert_eq!(append(&long[..249], "bcd"), Ok(name(&format!("{long}bcd"))));
    assert_eq!(append(&long[..249], "bcde"), Err(NameOctetsError::TooLong));
    assert_eq!(
        name("A.B\\200.").to_lowercase().as_octets(),
        b"\x01a\x02b\xC8\0"
    );
}

/// A name prints as one word, which is parsed back to the name.
#[test]
fn names_print_as_zone_text() {
    for text in [
        r"a(b.", r"\;.", r#"a\"b."#, r"\@.", r"\$x.", r"a\032b.", "a.b.", ".",
    ] {
        let zone = format!("{} 1 NS {}\nb. 1 NS c.\n", name(text), name(text));
        let found: Vec<_> = records(zone.as_bytes()).map(Result::unwrap).collect();
        let [ZoneItem::Record(one), ZoneItem::Record(other)] = found.as_slice() else {
            panic!("{zone}: {found:?}")
        };
        assert_eq!(
            (&one.owner, &one.data),
            (&name(text), &RecordData::Ns(name(text)))
        );
        assert_eq!(other.owner, name("b."));
    }
    assert_eq!(name("a(b.").dotted(), "a(b.");
    let octets = b"\x08\"$().;@\\\x020/\x04 \x7F\xC3\xA9\x02*_\0".to_vec();
    let printed = Name::from_octets(octets).unwrap();
    let text = r#"\"\$\(\)\.\;\@\\.0/.\032\127\195\169.*_."#;
    assert_eq!((printed.to_string(), name(text)), (text.into(), printed));
    assert_eq!(
        format!("{:<5}|{:>5}|{:^5}", name("a."), name("b"), name("c.")),
        "a.   |    b| c.  "
    );
    assert_eq!(format!("{:>4}|", CharStr::try_from("a").unwrap()), "   a|");
}

/// A name stores only its octets.
#[test]
fn names_keep_their_octets_alone() {
    assert_eq!(name("a.").into_octets().capacity(), 3);
}

#[test]
fn strings_are_read() {
    assert_eq!(
        "a..b".parse::<Name>().unwrap_err().kind,
        NameErrorKind::EmptyLabel
    );
    assert_eq!(Name::try_from("a.").unwrap().as_ref(), b"\x01a\0");
    assert_eq!(
        format!("{:?} {:?}", name("a\\.b"), name("")),
        r"Name(a\.b) Name()"
    );
    assert_eq!(
        "é".parse::<CharStr>().unwrap_err().kind,
        ReadErrorKind::BadSymbol
    );
    let string = CharStr::try_from("a\\\"b").unwrap();
    assert_eq!(string.as_ref(), b"a\"b");
    assert_eq!(
        format!("{string:?} {:?}", CharStr::default()),
        r#"CharStr("a\"b") CharStr("")"#
    );
    let ordered = ["", "A1", "B", "a", "aa", r"\200"].map(|it| CharStr::try_from(it).unwrap());
    assert!(ordered.windows(2).all(|pair| pair[0] < pair[1]));
}
