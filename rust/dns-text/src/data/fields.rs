//! RDATA from wire format.
use super::bitmap::types_of;
use super::{BadData, BadDataReason, RecordData, SvcParam};
use crate::{CharStr, Name, NameOctetsError, RecordType};

/// The unread octets of RDATA, and the name of the field that is read.
pub(super) struct Fields<'o> {
    rest: &'o [u8],
    field: Option<&'static str>,
}

/// A field, or why the octets have none.
type Read<T> = Result<T, BadDataReason>;

impl<'o> Fields<'o> {
    /// Parses the octets as RDATA of a type. The values of service parameters are any octets.
    pub(super) fn read(record_type: RecordType, octets: &'o [u8]) -> Result<RecordData, BadData> {
        let mut fields = Fields {
            rest: octets,
            field: None,
        };
        let (field, reason) = match fields.data(record_type) {
            Ok(data) if fields.rest.is_empty() => return Ok(data),
            Ok(_) => (None, BadDataReason::TrailingOctets),
            Err(reason) => (fields.field, reason),
        };
        Err(BadData {
            record_type,
            field,
            reason,
        })
    }

    /// Sets the name of the field that is read next.
    fn at(&mut self, field: &'static str) -> &mut Self {
        self.field = Some(field);
        self
    }

    fn take(&mut self, count: usize) -> Read<&'o [u8]> {
        let (taken, rest) = self
            .rest
            .split_at_checked(count)
            .ok_or(BadDataReason::ShortInput)?;
        self.rest = rest;
        Ok(taken)
    }

    fn array<const N: usize>(&mut self) -> Read<[u8; N]> {
        let (taken, rest) = self
            .rest
            .split_first_chunk()
            .ok_or(BadDataReason::ShortInput)?;
        self.rest = rest;
        Ok(*taken)
    }

    fn u8(&mut self) -> Read<u8> {
        self.array().map(u8::from_be_bytes)
    }

    fn u16(&mut self) -> Read<u16> {
        self.array().map(u16::from_be_bytes)
    }

    fn u32(&mut self) -> Read<u32> {
        self.array().map(u32::from_be_bytes)
    }

    /// Parses a name up to its root.
    fn name(&mut self) -> Read<Name> {
        let mut length = 0;
        while let Some(label) = self.rest.get(length) {
            match label {
                0 if length < 255 => return Ok(Name::of_absolute(self.take(length + 1)?)),
                0 => return Err(BadDataReason::BadName(NameOctetsError::TooLong)),
                1..64 => length += usize::from(*label) + 1,
                // No label begins here.
                64.. => {
                    let error = Name::from_slice(self.rest).err();
                    return Err(error.map_or(BadDataReason::Rejected, BadDataReason::BadName));
                }
            }
        }
        Err(BadDataReason::ShortInput)
    }

    fn string(&mut self) -> Read<CharStr> {
        let octets = self.sized()?;
        CharStr::try_from(octets).map_err(|_| BadDataReason::TooLong)
    }

    /// Returns the octets after an octet with their number.
    fn sized(&mut self) -> Read<&'o [u8]> {
        let length = self.u8()?;
        self.take(length.into())
    }

    /// Parses strings up to the end, at least one.
    fn strings(&mut self) -> Read<Vec<CharStr>> {
        let mut strings = Vec::with_capacity(2);
        loop {
            strings.push(self.string()?);
            if self.rest.is_empty() {
                return Ok(strings);
            }
        }
    }

    /// Parses the tag of a property: ASCII letters and digits, at least one (RFC 8659 section 4.1).
    fn tag(&mut self) -> Read<CharStr> {
        let tag = self.string()?;
        let octets = tag.as_octets();
        if octets.is_empty() || !octets.iter().all(u8::is_ascii_alphanumeric) {
            return Err(BadDataReason::BadTag);
        }
        Ok(tag)
    }

    /// Returns the octets up to the end.
    fn octets(&mut self) -> &'o [u8] {
        std::mem::take(&mut self.rest)
    }

    /// Returns the octets up to the end, at least one.
    fn some_octets(&mut self) -> Read<Vec<u8>> {
        match self.octets() {
            [] => Err(BadDataReason::Empty),
            octets => Ok(octets.to_vec()),
        }
    }

    /// Returns the octets up to the end: at least one, and of the length, if one is required.
    fn digest(&mut self, length: Option<usize>) -> Read<Vec<u8>> {
        let digest = self.some_octets()?;
        match length {
            Some(length) if length != digest.len() => Err(BadDataReason::BadLength(length)),
            _ => Ok(digest),
        }
    }

    /// Returns the types of the bitmap up to the end.
    fn types(&mut self) -> Read<Vec<RecordType>> {
        types_of(self.octets()).ok_or(BadDataReason::BadBitmap)
    }

    /// Parses parameters up to the end, in ascending order of their keys.
    fn params(&mut self) -> Read<Vec<SvcParam>> {
        let mut params: Vec<SvcParam> = Vec::new();
        while !self.rest.is_empty() {
            let key = self.u16()?;
            let length = self.u16()?;
            let value = self.take(length.into())?.to_vec();
            if params.last().is_some_and(|last| last.key >= key) {
                return Err(BadDataReason::BadParameter);
            }
            params.push(SvcParam { key, value });
        }
        Ok(params)
    }

    fn data(&mut self, record_type: RecordType) -> Read<RecordData> {
        Ok(match record_type {
            RecordType::A => RecordData::A(self.at("address").array::<4>()?.into()),
            RecordType::AAAA => RecordData::Aaaa(self.at("address").array::<16>()?.into()),
            RecordType::NS => RecordData::Ns(self.at("name server").name()?),
            RecordType::CNAME => RecordData::Cname(self.at("target").name()?),
            RecordType::DNAME => RecordData::Dname(self.at("target").name()?),
            RecordType::PTR => RecordData::Ptr(self.at("target").name()?),
            RecordType::TXT => RecordData::Txt(self.at("text").strings()?),
            RecordType::MX => self.mx()?,
            RecordType::SOA => self.soa()?,
            RecordType::SRV => self.srv()?,
            RecordType::CAA => self.caa()?,
            RecordType::DS | RecordType::CDS => self.ds(record_type)?,
            RecordType::DNSKEY | RecordType::CDNSKEY => self.dnskey(record_type)?,
            RecordType::RRSIG => self.rrsig()?,
            RecordType::NSEC => self.nsec()?,
            RecordType::NSEC3 => self.nsec3()?,
            RecordType::NSEC3PARAM => self.nsec3param()?,
            RecordType::SSHFP => self.sshfp()?,
            RecordType::TLSA => self.tlsa()?,
            RecordType::NAPTR => self.naptr()?,
            RecordType::SVCB | RecordType::HTTPS => self.svcb(record_type)?,
            _ => RecordData::Unknown {
                record_type,
                octets: self.octets().to_vec(),
            },
        })
    }

    fn mx(&mut self) -> Read<RecordData> {
        Ok(RecordData::Mx {
            preference: self.at("preference").u16()?,
            exchange: self.at("exchange").name()?,
        })
    }

    fn soa(&mut self) -> Read<RecordData> {
        Ok(RecordData::Soa {
            mname: self.at("primary server").name()?,
            rname: self.at("mailbox").name()?,
            serial: self.at("serial").u32()?,
            refresh: self.at("refresh").u32()?,
            retry: self.at("retry").u32()?,
            expire: self.at("expire").u32()?,
            minimum: self.at("minimum").u32()?,
        })
    }

    fn srv(&mut self) -> Read<RecordData> {
        Ok(RecordData::Srv {
            priority: self.at("priority").u16()?,
            weight: self.at("weight").u16()?,
            port: self.at("port").u16()?,
            target: self.at("target").name()?,
        })
    }

    fn caa(&mut self) -> Read<RecordData> {
        Ok(RecordData::Caa {
            flags: self.at("flags").u8()?,
            tag: self.at("tag").tag()?,
            value: self.at("value").octets().to_vec(),
        })
    }

    fn ds(&mut self, record_type: RecordType) -> Read<RecordData> {
        let key_tag = self.at("key tag").u16()?;
        let algorithm = self.at("algorithm").u8()?;
        let digest_type = self.at("digest type").u8()?;
        let length = RecordData::digest_length(digest_type);
        let digest = self.at("digest").digest(length)?;
        Ok(if record_type == RecordType::DS {
            RecordData::Ds {
                key_tag,
                algorithm,
                digest_type,
                digest,
            }
        } else {
            RecordData::Cds {
                key_tag,
                algorithm,
                digest_type,
                digest,
            }
        })
    }

    fn dnskey(&mut self, record_type: RecordType) -> Read<RecordData> {
        let flags = self.at("flags").u16()?;
        let protocol = self.at("protocol").u8()?;
        let algorithm = self.at("algorithm").u8()?;
        let key = self.at("key").some_octets()?;
        Ok(if record_type == RecordType::DNSKEY {
            RecordData::Dnskey {
                flags,
                protocol,
                algorithm,
                key,
            }
        } else {
            RecordData::Cdnskey {
                flags,
                protocol,
                algorithm,
                key,
            }
        })
    }

    fn rrsig(&mut self) -> Read<RecordData> {
        Ok(RecordData::Rrsig {
            type_covered: RecordType(self.at("type covered").u16()?),
            algorithm: self.at("algorithm").u8()?,
            labels: self.at("labels").u8()?,
            original_ttl: self.at("original TTL").u32()?,
            expiration: self.at("expiration").u32()?,
            inception: self.at("inception").u32()?,
            key_tag: self.at("key tag").u16()?,
            signer: self.at("signer").name()?,
            signature: self.at("signature").some_octets()?,
        })
    }

    fn nsec(&mut self) -> Read<RecordData> {
        let next = self.at("next name").name()?;
        let types = self.at("types").types()?;
        if types.is_empty() {
            return Err(BadDataReason::Empty);
        }
        Ok(RecordData::Nsec { next, types })
    }

    fn nsec3(&mut self) -> Read<RecordData> {
        let algorithm = self.at("hash algorithm").u8()?;
        Ok(RecordData::Nsec3 {
            algorithm,
            flags: self.at("flags").u8()?,
            iterations: self.at("iterations").u16()?,
            salt: self.at("salt").sized()?.to_vec(),
            next: self.at("next hash").hash(algorithm)?,
            types: self.at("types").types()?,
        })
    }

    /// Parses a hash of the algorithm: 20 octets for SHA-1, and at least one for any other.
    fn hash(&mut self, algorithm: u8) -> Read<Vec<u8>> {
        match self.sized()? {
            [] => Err(BadDataReason::Empty),
            hash if algorithm == 1 && hash.len() != 20 => Err(BadDataReason::BadLength(20)),
            hash => Ok(hash.to_vec()),
        }
    }

    fn nsec3param(&mut self) -> Read<RecordData> {
        Ok(RecordData::Nsec3param {
            algorithm: self.at("hash algorithm").u8()?,
            flags: self.at("flags").u8()?,
            iterations: self.at("iterations").u16()?,
            salt: self.at("salt").sized()?.to_vec(),
        })
    }

    fn sshfp(&mut self) -> Read<RecordData> {
        let algorithm = self.at("algorithm").u8()?;
        let fingerprint_type = self.at("fingerprint type").u8()?;
        let length = match fingerprint_type {
            1 => Some(20),
            2 => Some(32),
            _ => None,
        };
        Ok(RecordData::Sshfp {
            algorithm,
            fingerprint_type,
            fingerprint: self.at("fingerprint").digest(length)?,
        })
    }

    fn tlsa(&mut self) -> Read<RecordData> {
        Ok(RecordData::Tlsa {
            usage: self.at("usage").u8()?,
            selector: self.at("selector").u8()?,
            matching_type: self.at("matching type").u8()?,
            data: self.at("data").some_octets()?,
        })
    }

    fn naptr(&mut self) -> Read<RecordData> {
        Ok(RecordData::Naptr {
            order: self.at("order").u16()?,
            preference: self.at("preference").u16()?,
            flags: self.at("flags").string()?,
            services: self.at("services").string()?,
            regexp: self.at("expression").string()?,
            replacement: self.at("replacement").name()?,
        })
    }

    fn svcb(&mut self, record_type: RecordType) -> Read<RecordData> {
        let priority = self.at("priority").u16()?;
        let target = self.at("target").name()?;
        let params = self.at("parameter").params()?;
        Ok(if record_type == RecordType::SVCB {
            RecordData::Svcb {
                priority,
                target,
                params,
            }
        } else {
            RecordData::Https {
                priority,
                target,
                params,
            }
        })
    }
}
