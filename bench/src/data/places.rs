//! Parses and prints locations (LOC) and address prefix lists (APL).
use super::words::number;
use std::fmt::Write;
use std::net::{IpAddr, Ipv4Addr, Ipv6Addr};

const ZERO: i64 = 1 << 31;

const SEA: i64 = 10_000_000;

/// Parses a decimal number with at most `places` decimal places, in units of the last.
fn fixed(text: &str, places: usize) -> Option<i64> {
    let (whole, part) = text.split_once('.').unwrap_or((text, "0"));
    if whole.is_empty() || part.is_empty() || part.len() > places {
        return None;
    }
    let scale = |count: usize| 10i64.pow(count as u32);
    let whole: u32 = number(whole)?;
    let part: u32 = number(part).filter(|_| part.len() <= places)?;
    let shift = places - text.split_once('.').map_or(places, |it| it.1.len());
    let part = i64::from(part) * scale(shift.min(places));
    Some(i64::from(whole) * scale(places) + part)
}

fn metres(text: &str) -> Option<i64> {
    fixed(text.strip_suffix('m').unwrap_or(text), 2)
}

/// Returns the octet of a size in centimetres.
fn size(text: &str) -> Option<u8> {
    let (mut value, mut zeros) = (metres(text)?, 0);
    if value / 100 > 90_000_000 {
        return None;
    }
    while value >= 10 {
        value /= 10;
        zeros += 1;
    }
    Some(value as u8 * 16 + zeros)
}

/// Parses an angle from the remaining words.
fn angle<'t>(mut words: impl Iterator<Item = &'t str>, most: i64, sides: [&str; 2]) -> Option<u32> {
    let mut thousandths = 0;
    for (unit, places, below) in [(3_600_000, 0, most + 1), (60_000, 0, 60), (1, 3, 60_000)] {
        let word = words.next()?;
        if let Some(sign) = sides.iter().position(|side| *side == word) {
            return signed(thousandths, sign, most);
        }
        let value = match places {
            0 => i64::from(number::<u32>(word)?),
            _ => fixed(word, places)?,
        };
        if value >= below {
            return None;
        }
        thousandths += value * unit;
    }
    let word = words.next()?;
    let sign = sides.iter().position(|side| *side == word)?;
    signed(thousandths, sign, most)
}

fn signed(thousandths: i64, sign: usize, most: i64) -> Option<u32> {
    if thousandths > most * 3_600_000 {
        return None;
    }
    let angle = if sign == 0 { thousandths } else { -thousandths };
    Some((ZERO + angle) as u32)
}

pub fn read_location<'t>(
    mut words: impl Iterator<Item = &'t str>,
    octets: &mut Vec<u8>,
) -> Option<()> {
    let latitude = angle(&mut words, 90, ["N", "S"])?;
    let longitude = angle(&mut words, 180, ["E", "W"])?;
    let word = words.next()?;
    let altitude = match word.strip_prefix('-') {
        Some(depth) => -metres(depth)?,
        None => metres(word.strip_prefix('+').unwrap_or(word))?,
    };
    let altitude = u32::try_from(SEA + altitude).ok()?;
    octets.push(0);
    for usual in [0x12, 0x16, 0x13] {
        octets.push(match words.next() {
            Some(word) => size(word)?,
            None => usual,
        });
    }
    if words.next().is_some() {
        return None;
    }
    octets.extend(latitude.to_be_bytes());
    octets.extend(longitude.to_be_bytes());
    octets.extend(altitude.to_be_bytes());
    Some(())
}

fn print_angle(number: u32, most: i64, sides: [&str; 2], text: &mut String) -> Option<()> {
    let angle = i64::from(number) - ZERO;
    let side = sides[usize::from(angle < 0)];
    let angle = angle.abs();
    if angle > most * 3_600_000 {
        return None;
    }
    let (degrees, minutes) = (angle / 3_600_000, angle / 60_000 % 60);
    let (seconds, thousandths) = (angle / 1000 % 60, angle % 1000);
    write!(
        text,
        "{degrees} {minutes} {seconds}.{thousandths:03} {side} "
    )
    .ok()
}

fn print_size(octet: u8, text: &mut String) -> Option<()> {
    let (digit, zeros) = (u64::from(octet / 16), u32::from(octet % 16));
    if digit > 9 || zeros > 9 {
        return None;
    }
    let value = digit * 10u64.pow(zeros);
    match zeros {
        0 | 1 => write!(text, " {}.{:02}m", value / 100, value % 100).ok(),
        _ => write!(text, " {}m", value / 100).ok(),
    }
}

pub fn print_location(octets: &[u8], text: &mut String) -> Option<()> {
    let octets: &[u8; 16] = octets.try_into().ok()?;
    let number = |at: usize| {
        let part = octets[at..at + 4].try_into();
        u32::from_be_bytes(part.expect("four octets"))
    };
    if octets[0] != 0 {
        return None;
    }
    print_angle(number(4), 90, ["N", "S"], text)?;
    print_angle(number(8), 180, ["E", "W"], text)?;
    let altitude = i64::from(number(12)) - SEA;
    let sign = if altitude < 0 { "-" } else { "" };
    let height = altitude.abs();
    write!(text, "{sign}{}.{:02}m", height / 100, height % 100).ok()?;
    octets[1..4]
        .iter()
        .try_for_each(|octet| print_size(*octet, text))
}

/// Parses an item: an address with its prefix.
pub fn read_prefix(word: &str, octets: &mut Vec<u8>) -> Option<()> {
    let (negated, word) = match word.strip_prefix('!') {
        Some(rest) => (128, rest),
        None => (0, word),
    };
    let (family, rest) = word.split_once(':')?;
    let (address, bits) = rest.split_once('/')?;
    let bits: u8 = number(bits)?;
    let (family, most, address) = match number::<u16>(family)? {
        1 => (1, 32, address.parse::<Ipv4Addr>().ok()?.octets().to_vec()),
        2 => (2, 128, address.parse::<Ipv6Addr>().ok()?.octets().to_vec()),
        _ => return None,
    };
    if bits > most {
        return None;
    }
    let used = address.iter().rposition(|octet| *octet != 0);
    let used = used.map_or(0, |place| place + 1);
    octets.extend([0, family, bits, negated + used as u8]);
    octets.extend(&address[..used]);
    Some(())
}

/// Prints the item at the beginning of octets. Returns the octets after it.
pub fn print_prefix<'o>(octets: &'o [u8], text: &mut String) -> Option<&'o [u8]> {
    let [0, family, bits, used, rest @ ..] = octets else {
        return None;
    };
    let sign = if *used >= 128 { "!" } else { "" };
    let (part, rest) = rest.split_at_checked(usize::from(*used % 128))?;
    if part.last() == Some(&0) {
        return None;
    }
    let (mut short, mut long) = ([0; 4], [0; 16]);
    let (address, most) = match family {
        1 => {
            short.get_mut(..part.len())?.copy_from_slice(part);
            (IpAddr::V4(Ipv4Addr::from(short)), 32)
        }
        2 => {
            long.get_mut(..part.len())?.copy_from_slice(part);
            (IpAddr::V6(Ipv6Addr::from(long)), 128)
        }
        _ => return None,
    };
    if *bits > most {
        return None;
    }
    write!(text, "{sign}{family}:{address}/{bits}").ok()?;
    Some(rest)
}
