//! The forms in JSON, and what is rejected.
use dns_text::{records, CharStr, Class, Name, Record, RecordData, RecordType, Ttl, ZoneItem};
use dns_text_serde::{char_str, name, record, record_data, ttl, word};
use serde_json::{json, Value};

fn record_of(text: &str) -> Record {
    match records(text.as_bytes()).next() {
        Some(Ok(ZoneItem::Record(record))) => record,
        found => panic!("{found:?}"),
    }
}

#[test]
fn records_are_maps() {
    let mx = record_of("$ORIGIN example.\n@ 1h IN MX 10 mail\n");
    let map = record::serialize(&mx, serde_json::value::Serializer).unwrap();
    let wanted = json!({"owner": "example.", "ttl": 3600, "class": "IN", "type": "MX", "data": "10 mail.example."});
    assert_eq!(map, wanted);
    assert_eq!(record::deserialize(map).unwrap(), mx);
    let mut text = Vec::new();
    record::serialize(&mx, &mut serde_json::Serializer::new(&mut text)).unwrap();
    let line =
        r#"{"owner":"example.","ttl":3600,"class":"IN","type":"MX","data":"10 mail.example."}"#;
    assert_eq!(String::from_utf8(text).unwrap(), line);
    let again = record::deserialize(&mut serde_json::Deserializer::from_str(line)).unwrap();
    assert_eq!(again, mx);
    // (a line of `zonetext records --json` has two fields more)
    let mut longer: Value = serde_json::from_str(line).unwrap();
    longer["file"] = json!("example.zone");
    longer["line"] = json!(7);
    assert_eq!(record::deserialize(longer).unwrap(), mx);
}

#[test]
fn wrong_records_are_rejected() {
    let whole = json!({"owner": "a.", "ttl": 1, "class": "IN", "type": "A", "data": "192.0.2.1"});
    let error = |field: &str, value: Value| {
        let mut map = whole.clone();
        map[field] = value;
        record::deserialize(map).unwrap_err().to_string()
    };
    assert!(error("data", json!("192.0.2")).starts_with("A: address: expected IPv4 address"));
    assert!(error("owner", json!("a")).contains("relative name"));
    assert!(error("owner", json!("a..")).contains("label without octets"));
    assert!(error("ttl", json!(2147483648_u32)).contains("TTL exceeds"));
    assert!(error("type", json!("CNMAE")).contains("unknown record type"));
    for field in ["owner", "ttl", "class", "type", "data"] {
        let mut map = whole.clone();
        map.as_object_mut().unwrap().remove(field);
        let error = record::deserialize(map).unwrap_err().to_string();
        assert_eq!(error, format!("missing field `{field}`"));
    }
    let twice = r#"{"ttl":1,"ttl":2}"#;
    let error = record::deserialize(&mut serde_json::Deserializer::from_str(twice)).unwrap_err();
    assert!(error.to_string().starts_with("duplicate field `ttl`"));
}

#[test]
fn values_are_strings_and_numbers() {
    let to = || serde_json::value::Serializer;
    let www: Name = "www.a\\.b.".parse().unwrap();
    assert_eq!(name::serialize(&www, to()).unwrap(), json!("www.a\\.b."));
    assert_eq!(name::deserialize(json!("www.a\\.b.")).unwrap(), www);
    let string = CharStr::try_from(b"a \"\xFF".as_slice()).unwrap();
    let text = char_str::serialize(&string, to()).unwrap();
    assert_eq!(text, json!(r#""a \"\255""#));
    assert_eq!(char_str::deserialize(text).unwrap(), string);
    assert_eq!(
        word::serialize(&RecordType::HTTPS, to()).unwrap(),
        json!("HTTPS")
    );
    let code: RecordType = word::deserialize(json!("TYPE65280")).unwrap();
    assert_eq!(code, RecordType(65280));
    let class: Class = word::deserialize(json!("ch")).unwrap();
    assert_eq!(class, Class::CH);
    assert_eq!(ttl::serialize(&Ttl::MAX, to()).unwrap(), json!(2147483647));
    assert!(ttl::deserialize(json!("1h")).is_err());
    assert!(name::deserialize(json!(7)).is_err());
}

#[test]
fn data_are_type_and_text() {
    let data = RecordData::from_text(RecordType::HTTPS, b"1 . alpn=h2", None).unwrap();
    let map = record_data::serialize(&data, serde_json::value::Serializer).unwrap();
    assert_eq!(map, json!({"type": "HTTPS", "data": "1 . alpn=h2"}));
    assert_eq!(record_data::deserialize(map).unwrap(), data);
    let wrong = RecordData::Txt(vec![]);
    assert!(record_data::serialize(&wrong, serde_json::value::Serializer).is_err());
}
