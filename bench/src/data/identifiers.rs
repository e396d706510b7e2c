//! Identifiers in hexadecimal digits: EUI-48 and EUI-64, and those of 64 bits in groups.
use std::fmt::Write;

/// Returns whether a text has only hexadecimal digits, at most `most`.
fn are_digits(text: &str, most: usize) -> bool {
    text.len() <= most && text.bytes().all(|octet| octet.is_ascii_hexdigit())
}

/// Parses pairs of digits separated by dashes.
pub fn read_dashed<const COUNT: usize>(text: &str) -> Option<[u8; COUNT]> {
    let mut octets = [0; COUNT];
    let mut pairs = text.split('-');
    for octet in &mut octets {
        let pair = pairs.next().filter(|it| it.len() == 2 && are_digits(it, 2));
        *octet = u8::from_str_radix(pair?, 16).ok()?;
    }
    pairs.next().is_none().then_some(octets)
}

pub fn put_dashed(octets: &[u8], text: &mut String) -> Option<()> {
    for (place, octet) in octets.iter().enumerate() {
        if place > 0 {
            text.push('-');
        }
        write!(text, "{octet:02x}").ok()?;
    }
    Some(())
}

/// Parses four groups of at most four digits, separated by colons.
pub fn read_groups(text: &str) -> Option<[u8; 8]> {
    let mut octets = [0; 8];
    let mut groups = text.split(':');
    for pair in octets.chunks_exact_mut(2) {
        let group = groups.next().filter(|it| are_digits(it, 4))?;
        let number = u16::from_str_radix(group, 16).ok()?;
        pair.copy_from_slice(&number.to_be_bytes());
    }
    groups.next().is_none().then_some(octets)
}

pub fn put_groups([a, b, c, d, e, f, g, h]: [u8; 8], text: &mut String) -> Option<()> {
    let [first, second, third, fourth] = [[a, b], [c, d], [e, f], [g, h]].map(u16::from_be_bytes);
    write!(text, "{first:x}:{second:x}:{third:x}:{fourth:x}").ok()
}
