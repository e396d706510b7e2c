//! Parses the records of a zone file, as one would write it by hand.
use super::entries::{entry, Token};
use super::lines::KINDS;
use super::words::{interval, type_code};
use super::{sum_of, types};
use crate::names;

/// Returns a zone file of `count` records, of each type in turn. Some omit owner, TTL or class.
pub fn text(count: usize) -> Vec<u8> {
    let mut text = String::from("$ORIGIN example.com.\n$TTL 1h\n");
    for place in 0..count {
        let (round, kind) = (place / KINDS.len(), &KINDS[place % KINDS.len()]);
        let head = match (place + round) % 4 {
            0 => format!("host{place}\t300\tIN"),
            1 => "\tIN\t600".to_string(),
            2 => format!("www.host{place}.example.org."),
            _ => String::new(),
        };
        text += &format!("{head}\t{}\t{}\n", kind.name, kind.line(place));
    }
    text.into_bytes()
}

/// The state after the entries before one.
struct Past {
    origin: Vec<u8>,
    owner: Vec<u8>,
    default_ttl: Option<u32>,
    last_ttl: Option<u32>,
}

impl Past {
    /// Parses a name, with the origin appended if it is relative.
    fn name(&self, text: &str) -> Option<Vec<u8>> {
        if text == "@" {
            return Some(self.origin.clone());
        }
        let mut name = names::plain::read(text)?;
        if name.last() != Some(&0) {
            name.extend_from_slice(&self.origin);
        }
        (name.len() <= 255).then_some(name)
    }

    /// Parses a directive, if it is one.
    fn directive(&mut self, tokens: &[Token]) -> Option<bool> {
        match tokens {
            [word, name] if word.text.eq_ignore_ascii_case("$ORIGIN") => {
                self.origin = self.name(name.text)?;
            }
            [word, ttl] if word.text.eq_ignore_ascii_case("$TTL") => {
                self.default_ttl = Some(interval(ttl.text)?);
            }
            [word, ..] if word.text.starts_with('$') => return None,
            _ => return Some(false),
        }
        Some(true)
    }

    /// Returns the sum of a record's owner, TTL, class, type and RDATA.
    fn record(&mut self, blank: bool, tokens: &[Token], data: &mut Vec<u8>) -> Option<usize> {
        let mut rest = tokens;
        if !blank {
            let (owner, after) = rest.split_first()?;
            self.owner = self.name(owner.text)?;
            rest = after;
        }
        let (mut ttl, mut class) = (None, None);
        let code = loop {
            let (word, after) = rest.split_first()?;
            rest = after;
            if class.is_none() && word.text.eq_ignore_ascii_case("IN") {
                class = Some(1u16);
            } else if ttl.is_none() && word.text.starts_with(|c: char| c.is_ascii_digit()) {
                ttl = Some(interval(word.text)?);
            } else {
                break type_code(word.text)?;
            }
        };
        self.last_ttl = ttl.or(self.last_ttl);
        let ttl = ttl.or(self.default_ttl).or(self.last_ttl)?;
        data.clear();
        types::read(code, rest, data)?;
        let numbers = ttl as usize + usize::from(class.unwrap_or(1)) + usize::from(code);
        Some(numbers + sum_of(&self.owner) + sum_of(data))
    }
}

/// Returns the sum of all records' owners, TTLs, classes, types and RDATA.
pub fn read(text: &[u8]) -> Option<usize> {
    let text = std::str::from_utf8(text).ok()?;
    let mut past = Past {
        origin: Vec::new(),
        owner: Vec::new(),
        default_ttl: None,
        last_ttl: None,
    };
    let (mut tokens, mut data) = (Vec::new(), Vec::new());
    let (mut at, mut sum) = (0, 0);
    while at < text.len() {
        let blank = text[at..].starts_with([' ', '\t']);
        at = entry(text, at, &mut tokens)?;
        if !tokens.is_empty() && !past.directive(&tokens)? {
            sum += past.record(blank, &tokens, &mut data)?;
        }
    }
    Some(sum)
}
