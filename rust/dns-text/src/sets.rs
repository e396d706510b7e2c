//! RRsets.
use crate::{Class, Name, Record, RecordData, RecordType, Ttl};

/// The records with one owner, class and type (RFC 2181 section 5).
#[derive(Clone, Debug, PartialEq, Eq, PartialOrd, Ord, Hash)]
pub struct RecordSet {
    /// The owner, with the case of letters of its first record in canonical order.
    pub owner: Name,
    /// The class.
    pub class: Class,
    /// The type.
    pub record_type: RecordType,
    /// The least TTL of the records, which should be the same (RFC 2181 section 5.2).
    pub ttl: Ttl,
    /// The RDATA in canonical order, each once (RFC 4034 section 6.3).
    pub data: Vec<RecordData>,
}

/// Returns the sets of records, in the order of their owners, classes and types.
///
/// ```
/// use dns_text::{record_sets, records, ZoneItem};
///
/// let zone = b"b. 1h NS z.\nB. 2h NS a.\na. 1h A 192.0.2.1\nb. 3h NS A.\n";
/// let found = records(zone).filter_map(|item| match item {
///     Ok(ZoneItem::Record(record)) => Some(record),
///     _ => None,
/// });
/// let sets = record_sets(found);
/// assert_eq!(sets.len(), 2);
/// assert_eq!((sets[1].owner.to_string(), sets[1].ttl.seconds()), ("B.".to_string(), 3600));
/// assert_eq!(sets[1].data.iter().map(ToString::to_string).collect::<Vec<_>>(), ["a.", "z."]);
/// ```
#[must_use]
pub fn record_sets(records: impl IntoIterator<Item = Record>) -> Vec<RecordSet> {
    let octets = |record: Record| (record.data.canonical_octets(), record);
    let mut keyed: Vec<(Vec<u8>, Record)> = records.into_iter().map(octets).collect();
    // (a stable sort: the first of equal records stays)
    keyed.sort_by(|(left_octets, left), (right_octets, right)| {
        let header = |record: &Record| (record.class, record.record_type());
        let order = left.owner.cmp(&right.owner);
        order
            .then_with(|| header(left).cmp(&header(right)))
            .then_with(|| left_octets.cmp(right_octets))
    });
    let mut sets: Vec<RecordSet> = Vec::new();
    let mut last = Vec::new();
    for (octets, record) in keyed {
        let Record {
            owner,
            ttl,
            class,
            data,
            ..
        } = record;
        let record_type = data.record_type();
        match sets.last_mut() {
            Some(set)
                if (&set.owner, set.class, set.record_type) == (&owner, class, record_type) =>
            {
                set.ttl = set.ttl.min(ttl);
                if octets != last {
                    set.data.push(data);
                }
            }
            _ => sets.push(RecordSet {
                owner,
                class,
                record_type,
                ttl,
                data: vec![data],
            }),
        }
        last = octets;
    }
    sets
}
