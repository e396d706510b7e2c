//! RDATA to wire format.
use super::bitmap::bitmap_of;
use super::{BadDataReason, RecordData, SvcParam};
use crate::{CharStr, Name};

/// The octets of RDATA, and the first field whose value has none.
#[derive(Default)]
pub(super) struct Composed {
    pub(super) octets: Vec<u8>,
    pub(super) wrong: Option<(&'static str, BadDataReason)>,
}

/// Returns the octets of RDATA, also of values that the type does not allow.
pub(super) fn compose(data: &RecordData) -> Composed {
    let mut composed = Composed::default();
    composed.data(data);
    composed
}

impl Composed {
    fn put(&mut self, octets: &[u8]) {
        self.octets.extend_from_slice(octets);
    }

    fn u16s<const N: usize>(&mut self, numbers: [u16; N]) {
        for number in numbers {
            self.put(&number.to_be_bytes());
        }
    }

    fn u32s<const N: usize>(&mut self, numbers: [u32; N]) {
        for number in numbers {
            self.put(&number.to_be_bytes());
        }
    }

    /// Notes a field whose value has no octets.
    fn refuse(&mut self, field: &'static str, reason: BadDataReason) {
        self.wrong.get_or_insert((field, reason));
    }

    fn name(&mut self, field: &'static str, name: &Name) {
        if !name.is_absolute() {
            self.refuse(field, BadDataReason::RelativeName);
        }
        self.put(name.as_octets());
    }

    /// Appends at most 255 octets after their number.
    fn sized(&mut self, field: &'static str, octets: &[u8]) {
        match u8::try_from(octets.len()) {
            Ok(length) => self.put(&[length]),
            Err(_) => self.refuse(field, BadDataReason::TooLong),
        }
        self.put(octets);
    }

    /// Appends keys, lengths and values.
    fn params(&mut self, params: &[SvcParam]) {
        for SvcParam { key, value } in params {
            match u16::try_from(value.len()) {
                Ok(length) => self.u16s([*key, length]),
                Err(_) => self.refuse("parameter", BadDataReason::TooLong),
            }
            self.put(value);
        }
    }

    /// Appends a string of at most 255 octets, after its length.
    fn string(&mut self, string: &CharStr) {
        let octets = string.as_octets();
        self.put(&[octets.len() as u8]);
        self.put(octets);
    }

    fn data(&mut self, data: &RecordData) {
        match data {
            RecordData::A(address) => self.put(&address.octets()),
            RecordData::Aaaa(address) => self.put(&address.octets()),
            RecordData::Ns(name) => self.name("name server", name),
            RecordData::Cname(name) | RecordData::Dname(name) | RecordData::Ptr(name) => {
                self.name("target", name);
            }
            RecordData::Txt(strings) => strings.iter().for_each(|string| self.string(string)),
            RecordData::Mx {
                preference,
                exchange,
            } => {
                self.u16s([*preference]);
                self.name("exchange", exchange);
            }
            RecordData::Soa {
                mname,
                rname,
                serial,
                refresh,
                retry,
                expire,
                minimum,
            } => {
                self.name("primary server", mname);
                self.name("mailbox", rname);
                self.u32s([*serial, *refresh, *retry, *expire, *minimum]);
            }
            RecordData::Srv {
                priority,
                weight,
                port,
                target,
            } => {
                self.u16s([*priority, *weight, *port]);
                self.name("target", target);
            }
            RecordData::Caa { flags, tag, value } => {
                self.put(&[*flags]);
                self.string(tag);
                self.put(value);
            }
            RecordData::Ds {
                key_tag,
                algorithm,
                digest_type,
                digest,
            }
            | RecordData::Cds {
                key_tag,
                algorithm,
                digest_type,
                digest,
            } => {
                self.u16s([*key_tag]);
                self.put(&[*algorithm, *digest_type]);
                self.put(digest);
            }
            RecordData::Dnskey {
                flags,
                protocol,
                algorithm,
                key,
            }
            | RecordData::Cdnskey {
                flags,
                protocol,
                algorithm,
                key,
            } => {
                self.u16s([*flags]);
                self.put(&[*protocol, *algorithm]);
                self.put(key);
            }
            RecordData::Rrsig {
                type_covered,
                algorithm,
                labels,
                original_ttl,
                expiration,
                inception,
                key_tag,
                signer,
                signature,
            } => {
                self.u16s([type_covered.0]);
                self.put(&[*algorithm, *labels]);
                self.u32s([*original_ttl, *expiration, *inception]);
                self.u16s([*key_tag]);
                self.name("signer", signer);
                self.put(signature);
            }
            RecordData::Nsec { next, types } => {
                self.name("next name", next);
                self.put(&bitmap_of(types));
            }
            RecordData::Nsec3 {
                algorithm,
                flags,
                iterations,
                salt,
                next,
                types,
            } => {
                self.put(&[*algorithm, *flags]);
                self.u16s([*iterations]);
                self.sized("salt", salt);
                self.sized("next hash", next);
                self.put(&bitmap_of(types));
            }
            RecordData::Nsec3param {
                algorithm,
                flags,
                iterations,
                salt,
            } => {
                self.put(&[*algorithm, *flags]);
                self.u16s([*iterations]);
                self.sized("salt", salt);
            }
            RecordData::Sshfp {
                algorithm,
                fingerprint_type,
                fingerprint,
            } => {
                self.put(&[*algorithm, *fingerprint_type]);
                self.put(fingerprint);
            }
            RecordData::Tlsa {
                usage,
                selector,
                matching_type,
                data,
            } => {
                self.put(&[*usage, *selector, *matching_type]);
                self.put(data);
            }
            RecordData::Naptr {
                order,
                preference,
                flags,
                services,
                regexp,
                replacement,
            } => {
                self.u16s([*order, *preference]);
                self.string(flags);
                self.string(services);
                self.string(regexp);
                self.name("replacement", replacement);
            }
            RecordData::Svcb {
                priority,
                target,
                params,
            }
            | RecordData::Https {
                priority,
                target,
                params,
            } => {
                self.u16s([*priority]);
                self.name("target", target);
                self.params(params);
            }
            RecordData::Unknown { octets, .. } => self.put(octets),
        }
    }
}
