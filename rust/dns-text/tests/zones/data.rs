//! RDATA, strings and classes.
use crate::table::octets_of;
use dns_text::{
    records, CharStr, Class, Name, Record, RecordData, RecordFault, RecordType, Ttl, ZoneItem,
};

pub fn name_of(field: &str) -> Name {
    Name::from_octets(octets_of(field)).unwrap()
}

/// Parses RDATA in a record of the type. Returns them, or the error, and the offset of their text.
pub fn read_data(
    record_type: &str,
    text: &str,
    origin: Option<&str>,
) -> (Result<RecordData, RecordFault>, usize) {
    let mut zone = format!("a. 1 {record_type} ").into_bytes();
    let start = zone.len();
    zone.extend(octets_of(text));
    let mut found = records(&zone);
    if let Some(origin) = origin {
        found = found.with_origin(&name_of(origin)).unwrap();
    }
    let data = match found.next() {
        Some(Ok(ZoneItem::Record(record))) => Ok(record.data),
        Some(Err(fault)) => Err(fault),
        found => panic!("{record_type} {text}: {found:?}"),
    };
    assert!(found.next().is_none());
    (data, start)
}

/// A row of a type, RDATA in presentation format, and their octets or `refused`.
pub fn read(record_type: &str, text: &str, origin: &str, wanted: &str) -> bool {
    match (
        read_data(record_type, text, Some(origin)).0,
        wanted.strip_prefix('!'),
    ) {
        (Err(_), Some(_)) => {}
        (Ok(data), None) => {
            let octets = octets_of(wanted);
            let code = record_type.parse::<RecordType>().unwrap();
            assert_eq!(data.record_type(), code);
            assert_eq!(data.to_octets().unwrap(), octets, "{record_type} {text}");
            assert_eq!(RecordData::from_octets(code, &octets).unwrap(), data);
        }
        (found, _) => panic!("{record_type} {text}: {found:?}"),
    }
    true
}

/// A row of a type, a text that is not RDATA of it, the error and its offset.
pub fn refused(record_type: &str, text: &str, wanted: &str) -> bool {
    let (data, start) = read_data(record_type, text, Some(crate::EXAMPLE));
    let fault = data.unwrap_err();
    // (the error of an entry without RDATA is at the end of its type)
    let place = fault.place.saturating_sub(start);
    assert_eq!(
        format!("!{}|{place}", fault.reason),
        wanted,
        "{record_type} {text}"
    );
    true
}

/// A row of a type, RDATA in presentation format, and the text that they print as.
pub fn print(record_type: &str, text: &str, origin: &str, wanted: &str) -> bool {
    let record_type = record_type.parse().unwrap();
    let data = RecordData::from_text(record_type, &octets_of(text), Some(&name_of(origin)));
    let text = data.map(|it| (it.to_string(), it.to_text().unwrap()));
    match (text, wanted.strip_prefix('!')) {
        (Err(_), Some(_)) => {}
        (Ok((shown, text)), None) => {
            assert_eq!(text.as_bytes(), octets_of(wanted));
            assert_eq!(shown, text);
        }
        (found, _) => panic!("{record_type}: {found:?}"),
    }
    true
}

/// A row of a record's owner, TTL, class, type and RDATA in presentation format, and of its line. A `Ttl`
/// is below 2^31.
pub fn line(record: &[&str], wanted: &str) -> bool {
    let [owner, ttl, class, record_type, text] = record else {
        panic!("{record:?}")
    };
    let Ok(ttl) = Ttl::try_from(ttl.parse::<u32>().unwrap()) else {
        return false;
    };
    let origin = Some(name_of(crate::EXAMPLE));
    let record_type = record_type.parse().unwrap();
    let data = RecordData::from_text(record_type, &octets_of(text), origin.as_ref());
    let record = data.map(|data| Record {
        place: 0,
        data_place: 0,
        end: 0,
        owner: name_of(owner),
        ttl,
        class: Class(class.parse().unwrap()),
        data,
    });
    match (record, wanted.strip_prefix('!')) {
        (Err(_), Some(_)) => {}
        (Ok(record), None) => {
            assert_eq!(record.to_string().as_bytes(), octets_of(wanted));
            is_read_back(&record);
        }
        (found, _) => panic!("{wanted}: {found:?}"),
    }
    true
}

/// Checks that the line of a record is read back as that record.
pub fn is_read_back(record: &Record) {
    let line = format!("{record}\n");
    let found: Vec<_> = records(line.as_bytes()).collect();
    let [Ok(ZoneItem::Record(again))] = &found[..] else {
        panic!("{line}{found:?}")
    };
    assert_eq!(again, record);
    assert_eq!(format!("{:?}", again.data), format!("{:?}", record.data));
    assert_eq!(again.owner.as_octets(), record.owner.as_octets());
}

/// A row of a type, and octets that are its RDATA or not. Only types with a variant check them.
pub fn wire(record_type: &str, octets: &str, wanted: &str) -> bool {
    let record_type = record_type.parse().unwrap();
    match RecordData::from_octets(record_type, &octets_of(octets)) {
        Ok(RecordData::Unknown { .. }) => return false,
        Ok(data) => assert_eq!(data.to_octets().unwrap(), octets_of(wanted)),
        Err(_) => assert!(wanted.starts_with('!'), "{record_type} {octets}"),
    }
    true
}

/// A row of a token that is a name, as RDATA of NS. A zone file has no simple escape of a control octet or
/// of one outside ASCII.
pub fn name(text: &str, origin: Option<&str>, wanted: &str) -> bool {
    let octets = octets_of(text);
    if octets
        .windows(2)
        .any(|it| it[0] == b'\\' && !matches!(it[1], b' '..=b'~'))
    {
        return false;
    }
    match (read_data("NS", text, origin).0, wanted.strip_prefix('!')) {
        (Err(_), Some(_)) => {}
        (Ok(RecordData::Ns(name)), None) => assert_eq!(name.into_octets(), octets_of(wanted)),
        (found, _) => panic!("{text}: {found:?}"),
    }
    true
}

/// A row of a string's text, and its length and octets.
pub fn string(text: &str, wanted: &str) -> bool {
    let found = CharStr::from_octets_text(&octets_of(text)).ok();
    let wanted = (!wanted.starts_with('!')).then(|| octets_of(wanted));
    let octets = wanted.as_ref().map(|it| &it[1..]);
    assert_eq!(found.as_ref().map(CharStr::as_octets), octets, "{text}");
    true
}

/// A row of a string's length and octets, and its quoted text.
pub fn quoted(octets: &str, wanted: &str) -> bool {
    let string = CharStr::from_octets(octets_of(octets)[1..].to_vec()).unwrap();
    assert_eq!(string.quoted().as_bytes(), octets_of(wanted));
    true
}

/// A row of a class.
pub fn class(code: &str, wanted: &str) -> bool {
    assert_eq!(Class(code.parse().unwrap()).to_string(), wanted);
    true
}
