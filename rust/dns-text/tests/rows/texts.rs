//! Zone files as texts.
use crate::Answer;
use dns_text::{entries, pieces, position, tokens, Fault, FaultKind, Piece, PieceKind};

/// A syntax error, as in rows.
fn fault_words(fault: &Fault) -> String {
    let place = fault.place;
    match (fault.kind, fault.opened) {
        (FaultKind::OpenQuote, Some(opened)) => format!("open quote from {opened} at {place}"),
        (FaultKind::OpenParenthesis, _) => format!("open parenthesis at {place}"),
        (FaultKind::Closing, _) => format!("closing at {place}"),
        (FaultKind::LoneReturn, _) => format!("lone return at {place}"),
        (FaultKind::BadEscape, _) => format!("bad escape at {place}"),
        (kind, _) => panic!("{kind:?}"),
    }
}

fn piece_words(piece: &Piece<'_>) -> String {
    let (start, end) = (piece.start, piece.start + piece.text.len());
    match piece.kind {
        PieceKind::Word => format!("word {start} {end}|"),
        PieceKind::Quoted => format!("quote {start} {end}|"),
        PieceKind::Comment => format!("comment {start} {end}|"),
        PieceKind::EntryEnd if piece.begins_blank => format!("blank {start}|"),
        PieceKind::EntryEnd => format!("end {start}|"),
    }
}

fn all_pieces(text: &[u8]) -> Vec<u8> {
    let words = pieces(text).map(|piece| match piece {
        Ok(piece) => piece_words(&piece),
        Err(fault) => fault_words(&fault) + "|",
    });
    words.collect::<String>().into_bytes()
}

/// The tokens with their offsets, with a plus if one is adjacent to the one before; and the ends of entries.
fn all_tokens(text: &[u8]) -> Vec<u8> {
    let mut told = Vec::new();
    let mut end = None;
    for piece in pieces(text) {
        let piece = match piece {
            Ok(piece) => piece,
            Err(fault) => {
                told.extend(fault_words(&fault).into_bytes());
                break;
            }
        };
        match piece.kind {
            PieceKind::Comment => {}
            PieceKind::EntryEnd => {
                told.extend_from_slice(if piece.begins_blank { b"_/" } else { b"/" });
                end = None;
            }
            PieceKind::Word | PieceKind::Quoted => {
                let glue = if end == Some(piece.start) { '+' } else { ':' };
                told.extend(format!("{}{glue}", piece.start).into_bytes());
                told.extend_from_slice(piece.text);
                told.push(b'|');
                end = Some(piece.start + piece.text.len());
            }
        }
    }
    told
}

/// The tokens of each entry, or `None` if the text has a syntax error.
fn split(text: &[u8]) -> Answer {
    let mut told = Vec::new();
    for entry in entries(text) {
        for token in entry.ok()?.tokens {
            told.extend_from_slice(token.text);
            told.push(b'|');
        }
        told.push(b'/');
    }
    Some(told)
}

fn split_count(text: &[u8]) -> Answer {
    let entries = entries(text).collect::<Result<Vec<_>, _>>().ok()?;
    let lengths: Vec<usize> = tokens(text)
        .flatten()
        .map(|token| token.text.len())
        .collect();
    let (count, octets) = (lengths.len(), lengths.iter().sum::<usize>());
    Some(format!("{} entries, {count} tokens, {octets} octets", entries.len()).into_bytes())
}

fn tally(text: &[u8]) -> Vec<u8> {
    let mut counts = [0; 4];
    let mut octets = 0;
    let mut fault = String::new();
    for piece in pieces(text) {
        match piece {
            Ok(piece) => {
                counts[piece.kind as usize] += 1;
                octets += piece.text.len();
            }
            Err(found) => {
                fault = format!("|{}", fault_words(&found));
                if let (FaultKind::OpenParenthesis, Some(opened)) = (found.kind, found.opened) {
                    fault += &format!(", {opened} is open");
                }
            }
        }
    }
    let [words, quoted, comments, ends] = counts;
    format!(
        "{words} words, {quoted} quoted, {comments} comments, {ends} ends, {octets} octets{fault}"
    )
    .into_bytes()
}

/// Parses the number in a field.
fn number(field: &[u8]) -> Option<usize> {
    std::str::from_utf8(field).ok()?.parse().ok()
}

/// Returns the concatenation of texts, each repeated as often as the number after it.
fn repeated(pairs: &[&[u8]]) -> Option<Vec<u8>> {
    let texts = pairs
        .chunks(2)
        .map(|pair| Some(pair[0].repeat(number(pair.get(1)?)?)));
    Some(texts.collect::<Option<Vec<_>>>()?.concat())
}

/// Returns the result of a call, or `None` if this crate has no such call.
pub fn answer(what: &str, inputs: &[&[u8]]) -> Option<Answer> {
    match (what, inputs) {
        ("pieces", [text]) => Some(Some(all_pieces(text))),
        ("entries", [text]) => Some(Some(all_tokens(text))),
        ("split", [text]) => Some(split(text)),
        ("content", [text]) => {
            let token = tokens(text).next()?.ok()?;
            Some(Some(token.content().to_vec()))
        }
        ("position", [text, place]) => {
            let found = position(text, number(place)?)?;
            Some(Some(found.to_string().into_bytes()))
        }
        ("split_parts", pairs) => Some(split_count(&repeated(pairs)?)),
        ("tally", pairs) => Some(Some(tally(&repeated(pairs)?))),
        _ => None,
    }
}
