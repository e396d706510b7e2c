//! Parses and prints words of RDATA: numbers, times, types, algorithms and certificates.
use std::str::FromStr;

/// Parses a decimal number.
pub fn number<N: FromStr>(text: &str) -> Option<N> {
    let decimal = text.bytes().all(|octet| octet.is_ascii_digit());
    text.parse().ok().filter(|_| decimal)
}

/// Parses seconds, alone or in units.
pub fn interval(text: &str) -> Option<u32> {
    if let Some(seconds) = number(text) {
        return Some(seconds);
    }
    let (mut sum, mut value, mut open) = (0u64, 0u64, false);
    for octet in text.bytes() {
        let unit = match octet.to_ascii_lowercase() {
            b'0'..=b'9' => {
                value = value
                    .checked_mul(10)?
                    .checked_add(u64::from(octet - b'0'))?;
                open = true;
                continue;
            }
            b'w' => 604_800,
            b'd' => 86_400,
            b'h' => 3_600,
            b'm' => 60,
            b's' => 1,
            _ => return None,
        };
        if !open {
            return None;
        }
        sum = sum.checked_add(value.checked_mul(unit)?)?;
        (value, open) = (0, false);
    }
    u32::try_from(sum).ok().filter(|_| !open)
}

/// Returns the days since 1970.
fn days_of(year: i64, month: i64, day: i64) -> i64 {
    let year = if month <= 2 { year - 1 } else { year };
    let (era, of_era) = (year.div_euclid(400), year.rem_euclid(400));
    let of_year = (153 * ((month + 9) % 12) + 2) / 5 + day - 1;
    era * 146_097 + of_era * 365 + of_era / 4 - of_era / 100 + of_year - 719_468
}

/// Returns year, month and day.
fn date_of(days: i64) -> (i64, i64, i64) {
    let days = days + 719_468;
    let (era, of_era) = (days.div_euclid(146_097), days.rem_euclid(146_097));
    let years = (of_era - of_era / 1460 + of_era / 36_524 - of_era / 146_096) / 365;
    let of_year = of_era - (365 * years + years / 4 - years / 100);
    let month = (5 * of_year + 2) / 153;
    let day = of_year - (153 * month + 2) / 5 + 1;
    let month = if month < 10 { month + 3 } else { month - 9 };
    let year = years + era * 400 + i64::from(month <= 2);
    (year, month, day)
}

/// Parses a time of signatures, modulo 2^32.
pub fn time(text: &str) -> Option<u32> {
    if text.len() != 14 {
        return number(text).filter(|_| text.len() <= 10);
    }
    let part = |from: usize, to: usize| number::<i64>(text.get(from..to)?);
    let (year, month, day) = (part(0, 4)?, part(4, 6)?, part(6, 8)?);
    let (hour, minute, second) = (part(8, 10)?, part(10, 12)?, part(12, 14)?);
    let days = days_of(year, month, day);
    if year < 1970 || date_of(days) != (year, month, day) {
        return None;
    }
    if hour > 23 || minute > 59 || second > 59 {
        return None;
    }
    Some((((days * 24 + hour) * 60 + minute) * 60 + second) as u32)
}

pub fn time_text(time: u32) -> String {
    let (days, rest) = (i64::from(time) / 86_400, time % 86_400);
    let (year, month, day) = date_of(days);
    let (hour, minute, second) = (rest / 3600, rest / 60 % 60, rest % 60);
    format!("{year:04}{month:02}{day:02}{hour:02}{minute:02}{second:02}")
}

/// The types with names, in the order of names.
const TYPES: [(&str, u16); 49] = [
    ("A", 1),
    ("AAAA", 28),
    ("AFSDB", 18),
    ("APL", 42),
    ("CAA", 257),
    ("CDNSKEY", 60),
    ("CDS", 59),
    ("CERT", 37),
    ("CNAME", 5),
    ("CSYNC", 62),
    ("DHCID", 49),
    ("DNAME", 39),
    ("DNSKEY", 48),
    ("DS", 43),
    ("EUI48", 108),
    ("EUI64", 109),
    ("HINFO", 13),
    ("HIP", 55),
    ("HTTPS", 65),
    ("IPSECKEY", 45),
    ("KEY", 25),
    ("KX", 36),
    ("L32", 105),
    ("L64", 106),
    ("LOC", 29),
    ("LP", 107),
    ("MINFO", 14),
    ("MX", 15),
    ("NAPTR", 35),
    ("NID", 104),
    ("NS", 2),
    ("NSEC", 47),
    ("NSEC3", 50),
    ("NSEC3PARAM", 51),
    ("OPENPGPKEY", 61),
    ("PTR", 12),
    ("RP", 17),
    ("RRSIG", 46),
    ("SMIMEA", 53),
    ("SOA", 6),
    ("SPF", 99),
    ("SRV", 33),
    ("SSHFP", 44),
    ("SVCB", 64),
    ("TLSA", 52),
    ("TXT", 16),
    ("URI", 256),
    ("WKS", 11),
    ("ZONEMD", 63),
];

/// Returns the number of a type, by its name.
pub fn type_code(text: &str) -> Option<u16> {
    let mut room = [0; 16];
    let upper = room.get_mut(..text.len())?;
    upper.copy_from_slice(text.as_bytes());
    upper.make_ascii_uppercase();
    let name = std::str::from_utf8(upper).ok()?;
    match TYPES.binary_search_by_key(&name, |row| row.0) {
        Ok(place) => Some(TYPES[place].1),
        Err(_) => number(name.strip_prefix("TYPE")?),
    }
}

pub fn type_text(code: u16) -> String {
    match TYPES.iter().find(|row| row.1 == code) {
        Some(row) => row.0.to_string(),
        None => format!("TYPE{code}"),
    }
}

/// The algorithms with names.
const ALGORITHMS: [(&str, u8); 18] = [
    ("DH", 2),
    ("DSA", 3),
    ("DSA-NSEC3-SHA1", 6),
    ("ECC-GOST", 12),
    ("ECC-GOST12", 23),
    ("ECDSAP256SHA256", 13),
    ("ECDSAP384SHA384", 14),
    ("ED25519", 15),
    ("ED448", 16),
    ("INDIRECT", 252),
    ("PRIVATEDNS", 253),
    ("PRIVATEOID", 254),
    ("RSAMD5", 1),
    ("RSASHA1", 5),
    ("RSASHA1-NSEC3-SHA1", 7),
    ("RSASHA256", 8),
    ("RSASHA512", 10),
    ("SM2SM3", 17),
];

pub fn algorithm(text: &str) -> Option<u8> {
    if let Some(code) = number(text) {
        return Some(code);
    }
    let named = |row: &&(&str, u8)| row.0.eq_ignore_ascii_case(text);
    ALGORITHMS.iter().find(named).map(|row| row.1)
}

/// Returns the name of an algorithm, if it has one.
pub fn algorithm_text(code: u8) -> Option<&'static str> {
    ALGORITHMS.iter().find(|row| row.1 == code).map(|row| row.0)
}

/// The types of certificates with names.
const CERTIFICATES: [(&str, u16); 10] = [
    ("PKIX", 1),
    ("SPKI", 2),
    ("PGP", 3),
    ("IPKIX", 4),
    ("ISPKI", 5),
    ("IPGP", 6),
    ("ACPKIX", 7),
    ("IACPKIX", 8),
    ("URI", 253),
    ("OID", 254),
];

pub fn certificate(text: &str) -> Option<u16> {
    if let Some(code) = number(text) {
        return Some(code);
    }
    let named = |row: &&(&str, u16)| row.0.eq_ignore_ascii_case(text);
    CERTIFICATES.iter().find(named).map(|row| row.1)
}

/// Returns the name of a type of certificates, if it has one.
pub fn certificate_text(code: u16) -> Option<&'static str> {
    let named = CERTIFICATES.iter().find(|row| row.1 == code);
    named.map(|row| row.0)
}
