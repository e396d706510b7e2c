//! RDATA as values.
mod bitmap;
mod compose;
mod error;
mod fields;
mod text;

pub use error::{BadData, BadDataReason};

use crate::{CharStr, Name, RecordType};
use compose::compose;
use fields::Fields;
use std::cmp::Ordering;
use std::hash::{Hash, Hasher};
use std::net::{Ipv4Addr, Ipv6Addr};

/// Maximum length of RDATA in octets (RFC 1035 section 3.2.1).
const MOST: usize = 65_535;

/// RDATA: of common types by their fields, of others by their octets in wire format.
///
/// Lists of types can be in any order, and with repetitions: wire format and presentation format have each
/// type once, in the order of the codes.
///
/// RDATA are equal if their types and their canonical forms are (RFC 4034 sections 6.2 and 6.3). The
/// case of names is ignored in the types that RFC 4034 lists; that of strings is not. Order and hash
/// are those of the canonical form too. So RDATA of a variant equal the same RDATA as
/// [`RecordData::Unknown`].
///
/// ```
/// use dns_text::{RecordData, RecordType};
///
/// let data = RecordData::from_octets(RecordType::MX, b"\0\x0A\x01A\0")?;
/// let RecordData::Mx { preference, exchange } = &data else { panic!() };
/// assert_eq!((*preference, exchange.to_string()), (10, "A.".to_string()));
/// assert_eq!(data, RecordData::Mx { preference: 10, exchange: "a.".parse()? });
/// assert_eq!(data.to_octets()?, b"\0\x0A\x01A\0");
/// assert_eq!(data.canonical_octets(), b"\0\x0A\x01a\0");
/// assert!(RecordData::from_octets(RecordType::MX, b"\0\x0A").is_err());
/// # Ok::<(), Box<dyn std::error::Error>>(())
/// ```
#[derive(Clone, Debug)]
#[non_exhaustive]
pub enum RecordData {
    A(Ipv4Addr),
    Aaaa(Ipv6Addr),
    Ns(Name),
    Cname(Name),
    /// RFC 6672.
    Dname(Name),
    Ptr(Name),
    /// One string or more.
    Txt(Vec<CharStr>),
    /// RFC 1035 section 3.3.9.
    Mx {
        preference: u16,
        exchange: Name,
    },
    /// RFC 1035 section 3.3.13; the times are in seconds.
    Soa {
        mname: Name,
        rname: Name,
        serial: u32,
        refresh: u32,
        retry: u32,
        expire: u32,
        minimum: u32,
    },
    /// RFC 2782.
    Srv {
        priority: u16,
        weight: u16,
        port: u16,
        target: Name,
    },
    /// RFC 8659: the tag has ASCII letters and digits, at least one.
    Caa {
        flags: u8,
        tag: CharStr,
        value: Vec<u8>,
    },
    /// RFC 4034 section 5: the digest has the length that [`digest_length`](RecordData::digest_length)
    /// returns for the digest type, and at least one octet for any other.
    Ds {
        key_tag: u16,
        algorithm: u8,
        digest_type: u8,
        digest: Vec<u8>,
    },
    /// RFC 4034 section 2: the key has at least one octet.
    Dnskey {
        flags: u16,
        protocol: u8,
        algorithm: u8,
        key: Vec<u8>,
    },
    /// RFC 7344 section 3.1: as [`Ds`](RecordData::Ds).
    Cds {
        key_tag: u16,
        algorithm: u8,
        digest_type: u8,
        digest: Vec<u8>,
    },
    /// RFC 7344 section 3.2: as [`Dnskey`](RecordData::Dnskey).
    Cdnskey {
        flags: u16,
        protocol: u8,
        algorithm: u8,
        key: Vec<u8>,
    },
    /// RFC 4034 section 3: the signature has at least one octet. The times are seconds since 1970, modulo
    /// 2^32.
    Rrsig {
        type_covered: RecordType,
        algorithm: u8,
        labels: u8,
        original_ttl: u32,
        expiration: u32,
        inception: u32,
        key_tag: u16,
        signer: Name,
        signature: Vec<u8>,
    },
    /// RFC 4034 section 4: at least one type, and none with the code 0.
    Nsec {
        next: Name,
        types: Vec<RecordType>,
    },
    /// RFC 5155 section 3: the salt has at most 255 octets, and the hash of the next owner 1 to 255; for hash
    /// algorithm 1 it has 20. No type has the code 0.
    Nsec3 {
        algorithm: u8,
        flags: u8,
        iterations: u16,
        salt: Vec<u8>,
        next: Vec<u8>,
        types: Vec<RecordType>,
    },
    /// RFC 5155 section 4: the salt has at most 255 octets.
    Nsec3param {
        algorithm: u8,
        flags: u8,
        iterations: u16,
        salt: Vec<u8>,
    },
    /// RFC 4255 section 3.1: the fingerprint has 20 octets for fingerprint type 1, 32 for type 2, and at least
    /// one for any other.
    Sshfp {
        algorithm: u8,
        fingerprint_type: u8,
        fingerprint: Vec<u8>,
    },
    /// RFC 6698 section 2.1: the data have at least one octet.
    Tlsa {
        usage: u8,
        selector: u8,
        matching_type: u8,
        data: Vec<u8>,
    },
    /// RFC 3403 section 4.1.
    Naptr {
        order: u16,
        preference: u16,
        flags: CharStr,
        services: CharStr,
        regexp: CharStr,
        replacement: Name,
    },
    /// RFC 9460 section 2: parameters in ascending order of their keys.
    Svcb {
        priority: u16,
        target: Name,
        params: Vec<SvcParam>,
    },
    /// RFC 9460 section 9: as [`Svcb`](RecordData::Svcb).
    Https {
        priority: u16,
        target: Name,
        params: Vec<SvcParam>,
    },
    /// RDATA of another type, which can be any octets.
    Unknown {
        record_type: RecordType,
        octets: Vec<u8>,
    },
}

/// A service parameter of SVCB and HTTPS (RFC 9460 section 2.2).
///
/// ```
/// use dns_text::{RecordData, RecordType, SvcParam};
///
/// let data = RecordData::from_text(RecordType::HTTPS, b"1 . alpn=h2 port=8443", None)?;
/// let RecordData::Https { params, .. } = data else { panic!() };
/// assert_eq!(params[0], SvcParam { key: 1, value: b"\x02h2".to_vec() });
/// assert_eq!(params[1], SvcParam { key: 3, value: 8443_u16.to_be_bytes().to_vec() });
/// # Ok::<(), dns_text::RecordFault>(())
/// ```
#[derive(Clone, Debug, PartialEq, Eq, PartialOrd, Ord, Hash)]
pub struct SvcParam {
    /// The key by its number, as 1 for `alpn` (RFC 9460 section 14.3.2).
    pub key: u16,
    /// The value in wire format, at most 65,535 octets.
    pub value: Vec<u8>,
}

impl RecordData {
    /// Parses RDATA in wire format, without compressed names (RFC 3597 section 4).
    ///
    /// Fails if the octets are not RDATA of the type, or, for a type without a variant, if there are
    /// more than 65,535.
    ///
    /// ```
    /// use dns_text::{BadDataReason, RecordData, RecordType};
    ///
    /// let error = RecordData::from_octets(RecordType::MX, b"\0\x0A\x04mail").unwrap_err();
    /// assert_eq!(error.field, Some("exchange"));
    /// assert_eq!(error.reason, BadDataReason::ShortInput);
    /// assert_eq!(error.to_string(), "MX: exchange: unexpected end of RDATA");
    /// ```
    pub fn from_octets(record_type: RecordType, octets: &[u8]) -> Result<RecordData, BadData> {
        if octets.len() > MOST {
            return Err(BadData {
                record_type,
                field: None,
                reason: BadDataReason::TooLong,
            });
        }
        let data = Fields::read(record_type, octets)?;
        if let RecordData::Svcb { .. } | RecordData::Https { .. } = data {
            // The library knows the values of parameters.
            if text::canonical(record_type, octets).is_none() {
                return Err(BadData {
                    record_type,
                    field: Some("parameter"),
                    reason: BadDataReason::BadParameter,
                });
            }
        }
        Ok(data)
    }

    /// Returns the RDATA of octets that the library returned.
    pub(crate) fn of_read(record_type: RecordType, octets: &[u8]) -> RecordData {
        match Fields::read(record_type, octets) {
            Ok(data) => data,
            Err(_) => RecordData::Unknown {
                record_type,
                octets: octets.to_vec(),
            },
        }
    }

    /// Returns the wire format, from which [`from_octets`](RecordData::from_octets) returns equal RDATA.
    ///
    /// Fails for values that the type does not allow: relative names, an empty list of strings, a wrong
    /// tag, a digest of another length, an empty key, other octets than the type has, and more than
    /// 65,535 octets.
    ///
    /// ```
    /// use dns_text::{BadDataReason, RecordData};
    ///
    /// let data = RecordData::Mx { preference: 10, exchange: "mail".parse()? };
    /// let error = data.to_octets().unwrap_err();
    /// assert_eq!(error.reason, BadDataReason::RelativeName);
    /// assert_eq!(error.to_string(), "MX: exchange: relative name");
    /// # Ok::<(), dns_text::NameError>(())
    /// ```
    pub fn to_octets(&self) -> Result<Vec<u8>, BadData> {
        let record_type = self.record_type();
        let composed = compose(self);
        if let Some((field, reason)) = composed.wrong {
            return Err(BadData {
                record_type,
                field: Some(field),
                reason,
            });
        }
        RecordData::from_octets(record_type, &composed.octets)?;
        Ok(composed.octets)
    }

    /// Returns the length that the digest of a DS or CDS record has by its digest type: 20 octets for type 1,
    /// 32 for types 2, 3, 5 and 6, and 48 for type 4; `None` for another type.
    ///
    /// ```
    /// use dns_text::RecordData;
    ///
    /// assert_eq!(RecordData::digest_length(2), Some(32));
    /// ```
    #[must_use]
    pub fn digest_length(digest_type: u8) -> Option<usize> {
        match digest_type {
            1 => Some(20),
            2 | 3 | 5 | 6 => Some(32),
            4 => Some(48),
            _ => None,
        }
    }

    /// Returns the canonical form (RFC 4034 section 6.2, RFC 6840 section 5.1): the wire format, with
    /// names in lower case if the type requires it. Values that the type does not allow, and types that
    /// have no RDATA in zones, such as OPT, are unchanged.
    ///
    /// ```
    /// use dns_text::{RecordData, RecordType};
    ///
    /// let data = RecordData::from_text(RecordType::NAPTR, br#"1 2 "U" "SIP" "" A."#, None)?;
    /// assert_eq!(data.canonical_octets(), b"\0\x01\0\x02\x01U\x03SIP\0\x01a\0");
    /// # Ok::<(), dns_text::RecordFault>(())
    /// ```
    #[must_use]
    pub fn canonical_octets(&self) -> Vec<u8> {
        let octets = compose(self).octets;
        text::canonical(self.record_type(), &octets).unwrap_or(octets)
    }

    /// Returns the type of the RDATA.
    #[must_use]
    pub fn record_type(&self) -> RecordType {
        match self {
            RecordData::A(_) => RecordType::A,
            RecordData::Aaaa(_) => RecordType::AAAA,
            RecordData::Ns(_) => RecordType::NS,
            RecordData::Cname(_) => RecordType::CNAME,
            RecordData::Dname(_) => RecordType::DNAME,
            RecordData::Ptr(_) => RecordType::PTR,
            RecordData::Txt(_) => RecordType::TXT,
            RecordData::Mx { .. } => RecordType::MX,
            RecordData::Soa { .. } => RecordType::SOA,
            RecordData::Srv { .. } => RecordType::SRV,
            RecordData::Caa { .. } => RecordType::CAA,
            RecordData::Ds { .. } => RecordType::DS,
            RecordData::Dnskey { .. } => RecordType::DNSKEY,
            RecordData::Cds { .. } => RecordType::CDS,
            RecordData::Cdnskey { .. } => RecordType::CDNSKEY,
            RecordData::Rrsig { .. } => RecordType::RRSIG,
            RecordData::Nsec { .. } => RecordType::NSEC,
            RecordData::Nsec3 { .. } => RecordType::NSEC3,
            RecordData::Nsec3param { .. } => RecordType::NSEC3PARAM,
            RecordData::Sshfp { .. } => RecordType::SSHFP,
            RecordData::Tlsa { .. } => RecordType::TLSA,
            RecordData::Naptr { .. } => RecordType::NAPTR,
            RecordData::Svcb { .. } => RecordType::SVCB,
            RecordData::Https { .. } => RecordType::HTTPS,
            RecordData::Unknown { record_type, .. } => *record_type,
        }
    }

    /// Returns what distinguishes RDATA: type and octets.
    fn key(&self) -> (RecordType, Vec<u8>) {
        (self.record_type(), self.canonical_octets())
    }
}

impl PartialEq for RecordData {
    fn eq(&self, other: &RecordData) -> bool {
        self.key() == other.key()
    }
}

impl Eq for RecordData {}

impl PartialOrd for RecordData {
    fn partial_cmp(&self, other: &RecordData) -> Option<Ordering> {
        Some(self.cmp(other))
    }
}

impl Ord for RecordData {
    fn cmp(&self, other: &RecordData) -> Ordering {
        self.key().cmp(&other.key())
    }
}

impl Hash for RecordData {
    fn hash<H: Hasher>(&self, state: &mut H) {
        self.key().hash(state);
    }
}
