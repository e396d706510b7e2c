//! Names and labels.
use crate::{word, Answer};
use dns_text::Name;

fn name(octets: &[u8]) -> Option<Name> {
    Name::from_octets(octets.to_vec()).ok()
}

/// Each label, also the root, with a bar after it.
fn barred<'n>(labels: impl Iterator<Item = &'n [u8]>) -> Vec<u8> {
    labels.flat_map(|label| [label, b"|"].concat()).collect()
}

/// The labels and the root of a name: in order, in reverse order, and from both ends in turn.
fn all_labels(name: &Name) -> Vec<u8> {
    let root = name.is_absolute().then_some(b"".as_slice());
    let labels = || name.labels().chain(root);
    let mut ends = labels();
    let mut turns = Vec::new();
    while let Some(label) = if turns.len() % 2 == 0 {
        ends.next()
    } else {
        ends.next_back()
    } {
        turns.push(label);
    }
    let lists = [
        barred(labels()),
        barred(labels().rev()),
        barred(turns.into_iter()),
    ];
    lists.join(b"/".as_slice())
}

/// The two texts of a name.
fn texts(name: &Name) -> Vec<u8> {
    format!("{}|{}", name.without_dot(), name.dotted()).into_bytes()
}

/// Calls with one input.
pub fn one(what: &str, input: &[u8]) -> Option<Answer> {
    let read = || name(input);
    let is_absolute = |name: &Name| {
        if name.is_absolute() {
            "absolute"
        } else {
            "relative"
        }
    };
    match what {
        "read" => Some(Name::from_text(input).ok().map(Name::into_octets)),
        "of" if !input.is_empty() => Some(read().map(|it| is_absolute(&it).into())),
        "plain" => Some(read().map(|it| it.dotted().into_bytes())),
        "zone" => Some(read().map(|it| it.to_string().into_bytes())),
        "labels" => Some(read().map(|it| all_labels(&it))),
        "absolute" => Some(read().filter(Name::is_absolute).map(|it| texts(&it))),
        "relative" => {
            let relative = read().filter(|it| !it.is_absolute());
            Some(relative.map(|it| it.dotted().into_bytes()))
        }
        "into_absolute" => Some(appended(input, &[0]).map(Name::into_octets)),
        _ => None,
    }
}

fn appended(left: &[u8], right: &[u8]) -> Option<Name> {
    name(left)?.append_origin(&name(right)?).ok()
}

/// Calls with two inputs.
pub fn two(what: &str, left: &[u8], right: &[u8]) -> Option<Answer> {
    match what {
        "are_equal" => {
            let equal = Name::from_text(left).ok()? == Name::from_text(right).ok()?;
            Some(Some(equal.to_string().into_bytes()))
        }
        // A chain of relative names may be longer than a name.
        "chain" if right.ends_with(&[0]) => Some(appended(left, right).map(|it| texts(&it))),
        "flatten" => Some(appended(left, right).map(Name::into_octets)),
        _ => None,
    }
}

/// Labels, as the relative names that have them alone.
pub fn labels(what: &str, left: &[u8], right: &[u8]) -> Option<Answer> {
    let label = |octets: &[u8]| match octets.len() {
        0 => name(b""),
        length => name(&[&[length as u8], octets].concat()),
    };
    (what == "compare").then(|| word(label(left)?.cmp(&label(right)?)))
}
