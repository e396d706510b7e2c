//! The rows of `crates/test_rows` that the crate's own calls can answer.
mod names;
mod strings;
#[path = "../common/table.rs"]
mod table;
mod texts;

use dns_text::codec::{Encoding, BASE16, BASE32HEX, BASE64};
use dns_text::{Class, RecordType, Ttl};
use std::cmp::Ordering;
use table::{each_row, octets_of};

/// A result, or `None` for an error, whose message is not compared, since it has an offset here.
type Answer = Option<Vec<u8>>;

/// The answer of a comparison.
fn word(order: Ordering) -> Answer {
    let word = match order {
        Ordering::Less => "less",
        Ordering::Equal => "equal",
        Ordering::Greater => "greater",
    };
    Some(word.into())
}

fn encoded(encoding: Encoding, what: &str, input: &[u8]) -> Option<Answer> {
    match what {
        "print" => Some(Some(encoding.print(input).into_bytes())),
        "read" => Some(encoding.read(input).ok()),
        _ => None,
    }
}

fn number<E>(number: Result<u32, E>) -> Answer {
    number.ok().map(|it| it.to_string().into_bytes())
}

fn kind(what: &str, input: &[u8]) -> Option<Answer> {
    match what {
        "ttl" => Some(number(Ttl::from_text(input).map(Ttl::seconds))),
        "type" => Some(number(RecordType::from_text(input).map(|it| it.0.into()))),
        "class" => Some(number(Class::from_text(input).map(|it| it.0.into()))),
        _ => None,
    }
}

/// Returns the result of a call, or `None` if this crate has no such call.
fn answer(call: &str, inputs: &[&[u8]]) -> Option<Answer> {
    let (group, what) = call.split_once('.')?;
    match (group, inputs) {
        ("base16", [input]) => encoded(BASE16, what, input),
        ("base32", [input]) => encoded(BASE32HEX, what, input),
        ("base64", [input]) => encoded(BASE64, what, input),
        ("kinds", [input]) => kind(what, input),
        ("charstr", [input]) => strings::one(what, input),
        ("charstr", [left, right]) => strings::two(what, left, right),
        ("label", [left, right]) => names::labels(what, left, right),
        ("name", [input]) => names::one(what, input),
        ("name", [left, right]) => names::two(what, left, right),
        ("zone", inputs) => texts::answer(what, inputs),
        _ => None,
    }
}

#[test]
fn rows_agree() {
    each_row("test_rows", 1600, |fields| {
        let [call, inputs @ .., wanted] = fields else {
            return false;
        };
        let inputs: Vec<Vec<u8>> = inputs.iter().map(|it| octets_of(it)).collect();
        let inputs: Vec<&[u8]> = inputs.iter().map(Vec::as_slice).collect();
        let Some(found) = answer(call, &inputs) else {
            return false;
        };
        let wanted = (!wanted.starts_with('!')).then(|| octets_of(wanted));
        assert_eq!(found, wanted, "{fields:?}");
        true
    });
}
