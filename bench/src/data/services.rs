//! Parses and prints service parameters (RFC 9460), as one would write it by hand.
use super::digits::BASE64;
use super::entries::Token;
use super::reader::spelled;
use super::words::number;
use crate::codecs::plain::{decode_vec, encode_string};
use crate::symbols::plain::of_word;
use std::fmt::Write;
use std::net::{Ipv4Addr, Ipv6Addr};
use std::slice;

const KEYS: [&str; 8] = [
    "mandatory",
    "alpn",
    "no-default-alpn",
    "port",
    "ipv4hint",
    "ech",
    "ipv6hint",
    "dohpath",
];

/// Returns the number after `key`, without leading zeros.
fn numbered_key(text: &str) -> Option<u16> {
    let digits = text.strip_prefix("key")?;
    number(digits).filter(|_| digits == "0" || !digits.starts_with('0'))
}

fn key(text: &str) -> Option<u16> {
    match KEYS.iter().position(|name| *name == text) {
        Some(place) => Some(place as u16),
        None => numbered_key(text),
    }
}

/// Parses a list of keys, in ascending order.
fn read_keys(text: &str) -> Option<Vec<u8>> {
    let keys: Option<Vec<u16>> = text.split(',').map(key).collect();
    let mut keys = keys?;
    keys.sort_unstable();
    Some(keys.into_iter().flat_map(u16::to_be_bytes).collect())
}

/// Parses the strings of a list, each stored after its length. A comma or a backslash of a string
/// is preceded by a backslash.
fn read_strings(text: &str) -> Option<Vec<u8>> {
    let list = spelled(text)?;
    let mut value = vec![0];
    let mut start = 0;
    let mut octets = list.into_iter();
    while let Some(octet) = octets.next() {
        match octet {
            b',' => {
                start = value.len();
                value.push(0);
                continue;
            }
            b'\\' => value.push(octets.next().filter(|it| matches!(it, b',' | b'\\'))?),
            _ => value.push(octet),
        }
        value[start] = u8::checked_add(value[start], 1)?;
    }
    Some(value)
}

/// Parses addresses separated by commas.
fn read_each<const COUNT: usize>(
    text: &str,
    read: fn(&str) -> Option<[u8; COUNT]>,
) -> Option<Vec<u8>> {
    let mut value = Vec::new();
    for part in text.split(',') {
        value.extend(read(part)?);
    }
    Some(value)
}

/// Parses an IPv4 address.
fn ipv4(text: &str) -> Option<[u8; 4]> {
    let address: Ipv4Addr = text.parse().ok()?;
    Some(address.octets())
}

/// Parses an IPv6 address.
fn ipv6(text: &str) -> Option<[u8; 16]> {
    let address: Ipv6Addr = text.parse().ok()?;
    Some(address.octets())
}

/// A key, and the octets of its value.
type Param<V> = (u16, V);

fn read_param(name: &str, text: &str) -> Option<Param<Vec<u8>>> {
    let key = key(name)?;
    let value = match name {
        "mandatory" => read_keys(text)?,
        "alpn" => read_strings(text)?,
        "port" => number::<u16>(text)?.to_be_bytes().to_vec(),
        "ipv4hint" => read_each(text, ipv4)?,
        "ech" => decode_vec(&BASE64, text)?,
        "ipv6hint" => read_each(text, ipv6)?,
        _ => spelled(text)?,
    };
    Some((key, value))
}

/// Returns whether octets are strings of at least one octet, each after its length.
fn are_strings(octets: &[u8]) -> bool {
    let mut rest = octets;
    while let [length, behind @ ..] = rest {
        match behind.split_at_checked(usize::from(*length)) {
            Some((_, after)) if *length > 0 => rest = after,
            _ => return false,
        }
    }
    true
}

/// Returns whether parameters are in ascending order, each with a valid value.
fn are_params<V: AsRef<[u8]>>(params: &[Param<V>]) -> bool {
    let has = |key: u16| params.binary_search_by_key(&key, |param| param.0).is_ok();
    let is_value = |key: u16, value: &[u8]| match key {
        0 => {
            let key = |pair: &[u8]| u16::from_be_bytes([pair[0], pair[1]]);
            let keys: Vec<u16> = value.chunks_exact(2).map(key).collect();
            let ascend = keys.is_sorted_by(|one, other| one < other);
            value.len().is_multiple_of(2) && ascend && keys.iter().all(|it| *it > 0 && has(*it))
        }
        1 => are_strings(value),
        2 => has(1),
        3 => value.len() == 2,
        4 => value.len().is_multiple_of(4),
        6 => value.len().is_multiple_of(16),
        7 => value.windows(6).any(|it| it == b"{?dns}"),
        _ => true,
    };
    let fits = |(key, value): &Param<V>| {
        let value = value.as_ref();
        (*key > 6 || value.is_empty() == (*key == 2)) && is_value(*key, value)
    };
    params.is_sorted_by(|one, other| one.0 < other.0) && params.iter().all(fits)
}

/// Appends the parameters that tokens spell.
pub fn read_params(tokens: &mut slice::Iter<Token>, octets: &mut Vec<u8>) -> Option<()> {
    let mut params = Vec::new();
    while let Some(token) = tokens.next() {
        if token.quoted || token.glued {
            return None;
        }
        let (name, mut text) = token.text.split_once('=').unwrap_or((token.text, ""));
        if let Some(quoted) = tokens.as_slice().first() {
            if token.text.len() == name.len() + 1 && quoted.quoted && quoted.glued {
                text = quoted.text;
                tokens.next();
            }
        }
        params.push(read_param(name, text)?);
    }
    params.sort_by_key(|param| param.0);
    if !are_params(&params) {
        return None;
    }
    for (key, value) in &params {
        let length = u16::try_from(value.len()).ok()?;
        octets.extend(key.to_be_bytes());
        octets.extend(length.to_be_bytes());
        octets.extend(value);
    }
    Some(())
}

/// Returns the parameters that octets are.
fn params_of(octets: &[u8]) -> Option<Vec<Param<&[u8]>>> {
    let mut params = Vec::new();
    let mut rest = octets;
    while !rest.is_empty() {
        let (head, behind) = rest.split_first_chunk::<4>()?;
        let [a, b, c, d] = *head;
        let length = usize::from(u16::from_be_bytes([c, d]));
        let (value, after) = behind.split_at_checked(length)?;
        params.push((u16::from_be_bytes([a, b]), value));
        rest = after;
    }
    Some(params)
}

fn print_key(key: u16, text: &mut String) -> Option<()> {
    match KEYS.get(usize::from(key)) {
        Some(name) if key < 7 => text.push_str(name),
        _ => write!(text, "key{key}").ok()?,
    }
    Some(())
}

fn print_octets(octets: &[u8], text: &mut String) -> Option<()> {
    octets
        .iter()
        .try_for_each(|octet| write!(text, "{}", of_word(*octet)).ok())
}

fn print_strings(octets: &[u8], text: &mut String) -> Option<()> {
    let mut rest = octets;
    while let [length, behind @ ..] = rest {
        let (string, after) = behind.split_at_checked(usize::from(*length))?;
        if rest.len() < octets.len() {
            text.push(',');
        }
        for octet in string {
            if matches!(octet, b',' | b'\\') {
                text.push_str("\\\\");
            }
            write!(text, "{}", of_word(*octet)).ok()?;
        }
        rest = after;
    }
    Some(())
}

/// Prints parts of `COUNT` octets, separated by commas.
fn print_each<const COUNT: usize>(
    value: &[u8],
    text: &mut String,
    print: fn([u8; COUNT], &mut String) -> Option<()>,
) -> Option<()> {
    for (place, part) in value.chunks_exact(COUNT).enumerate() {
        if place > 0 {
            text.push(',');
        }
        print(part.try_into().ok()?, text)?;
    }
    Some(())
}

fn print_value(key: u16, value: &[u8], text: &mut String) -> Option<()> {
    match key {
        0 => print_each(value, text, |it, text| {
            print_key(u16::from_be_bytes(it), text)
        }),
        1 => print_strings(value, text),
        3 => print_each(value, text, |it, text| {
            write!(text, "{}", u16::from_be_bytes(it)).ok()
        }),
        4 => print_each::<4>(value, text, |it, text| {
            write!(text, "{}", Ipv4Addr::from(it)).ok()
        }),
        5 => {
            text.push_str(&encode_string(&BASE64, value));
            Some(())
        }
        6 => print_each::<16>(value, text, |it, text| {
            write!(text, "{}", Ipv6Addr::from(it)).ok()
        }),
        _ => print_octets(value, text),
    }
}

/// Prints parameters, each after a blank.
pub fn print_params(octets: &[u8], text: &mut String) -> Option<()> {
    let params = params_of(octets)?;
    if !are_params(&params) {
        return None;
    }
    for (key, value) in params {
        text.push(' ');
        print_key(key, text)?;
        if !value.is_empty() {
            text.push('=');
            print_value(key, value, text)?;
        }
    }
    Some(())
}
