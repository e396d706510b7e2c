//! Character strings.
use crate::{word, Answer};
use dns_text::{CharStr, LongString, RecordData};
use std::cmp::Ordering;

fn print(octets: &[u8], text: fn(&CharStr) -> String) -> Answer {
    let string = CharStr::from_octets(octets.to_vec()).ok()?;
    Some(text(&string).into_bytes())
}

/// Calls with one input; texts of longer strings are not the crate's.
pub fn one(what: &str, input: &[u8]) -> Option<Answer> {
    let octets = CharStr::into_octets;
    match what {
        "read" => Some(CharStr::from_text(input).ok().map(octets)),
        "octets" => Some(CharStr::from_octets_text(input).ok().map(octets)),
        "of" => Some(CharStr::from_octets(input.to_vec()).ok().map(octets)),
        "plain" => Some(print(input, CharStr::to_string)),
        "quoted" if input.len() < 256 => Some(print(input, CharStr::quoted)),
        "unquoted" if input.len() < 256 => Some(print(input, CharStr::unquoted)),
        _ => None,
    }
}

/// Comparisons: of strings that are equal without case, and of the data that strings are.
pub fn two(what: &str, left: &[u8], right: &[u8]) -> Option<Answer> {
    let string = |octets: &[u8]| CharStr::from_octets(octets.to_vec());
    let data = |octets: &[u8]| Ok::<_, LongString>(RecordData::Txt(vec![string(octets)?]));
    let order = match what {
        "compare" => {
            let is_equal = string(left)
                .ok()?
                .eq_ignore_ascii_case(&string(right).ok()?);
            is_equal.then_some(Ordering::Equal)?
        }
        "canonical" => data(left).ok()?.cmp(&data(right).ok()?),
        _ => return None,
    };
    Some(word(order))
}
