//! A zone file of 200,000 lines, written from known tokens, has exactly these tokens.
use dns_text::{entries, pieces, tokens, PieceKind};

const LINES: usize = 200_000;
const WORDS: [&str; 8] = [
    "a",
    "example.com.",
    "3600",
    "IN",
    "\\;",
    "x\\032y",
    "@",
    "café",
];
const QUOTED: [&str; 4] = ["\"\"", "\"a b\"", "\"( ; )\"", "\"\\\"\""];

struct Chance(u32);

impl Chance {
    fn below(&mut self, bound: usize) -> usize {
        self.0 = self.0.wrapping_mul(1_664_525).wrapping_add(1_013_904_223);
        (self.0 >> 8) as usize % bound
    }
}

/// The entry of a line: whether it begins with a blank, and its tokens.
type Known = (bool, Vec<&'static str>);

fn known_entry(chance: &mut Chance) -> Known {
    let count = chance.below(7);
    let mut found = Vec::new();
    for _ in 0..count {
        found.push(match chance.below(4) {
            0 => QUOTED[chance.below(4)],
            _ => WORDS[chance.below(8)],
        });
    }
    (chance.below(4) == 0, found)
}

fn put_line(chance: &mut Chance, (begins_blank, found): &Known, text: &mut Vec<u8>) {
    let inside = chance.below(5) == 0;
    if *begins_blank {
        text.push(b'\t');
    }
    if inside {
        text.push(b'(');
    }
    for (place, token) in found.iter().enumerate() {
        if place > 0 && inside && chance.below(3) == 0 {
            text.extend(b" ; \xE9 (\"\n ");
        } else if place > 0 {
            text.push(b' ');
        }
        text.extend(token.bytes());
    }
    if inside {
        text.extend(b"\r\n)");
    }
    if inside || !found.is_empty() {
        text.extend(b" ; a comment: \" ( )");
    }
}

fn zone() -> (Vec<Known>, Vec<u8>) {
    let mut chance = Chance(1);
    let mut known = Vec::new();
    let mut text = Vec::new();
    for line in 0..LINES {
        if line > 0 {
            text.extend(if chance.below(5) == 0 { "\r\n" } else { "\n" }.bytes());
        }
        let entry = known_entry(&mut chance);
        put_line(&mut chance, &entry, &mut text);
        known.push(entry);
    }
    (known, text)
}

#[test]
fn lines_give_their_tokens() {
    let (known, text) = zone();
    let mut found = entries(&text);
    for (begins_blank, wanted) in &known {
        let entry = found.next().unwrap().unwrap();
        assert_eq!(entry.begins_blank, *begins_blank);
        let words: Vec<&[u8]> = entry.tokens.iter().map(|token| token.text).collect();
        let wanted: Vec<&[u8]> = wanted.iter().map(|token| token.as_bytes()).collect();
        assert_eq!(words, wanted);
    }
    assert!(found.next().is_none());
    let mut wanted = known.iter().flat_map(|entry| &entry.1);
    for token in tokens(&text) {
        let token = token.unwrap();
        assert_eq!(token.text, wanted.next().unwrap().as_bytes());
        assert_eq!(&text[token.start..][..token.text.len()], token.text);
    }
    assert!(wanted.next().is_none());
}

#[test]
fn lines_give_their_pieces() {
    let (known, text) = zone();
    let mut lines = known.iter();
    let mut line = lines.next();
    let mut wanted = line.unwrap().1.iter();
    for piece in pieces(&text) {
        let piece = piece.unwrap();
        assert_eq!(piece.begins_blank, line.unwrap().0);
        assert_eq!(&text[piece.start..][..piece.text.len()], piece.text);
        match piece.kind {
            PieceKind::Word | PieceKind::Quoted => {
                assert_eq!(piece.text, wanted.next().unwrap().as_bytes());
                assert_eq!(piece.kind == PieceKind::Quoted, piece.text[0] == b'"');
            }
            PieceKind::Comment => assert_eq!(piece.text[0], b';'),
            PieceKind::EntryEnd => {
                assert!(wanted.next().is_none());
                line = lines.next();
                wanted = line.map(|entry| entry.1.iter()).unwrap_or_default();
            }
        }
    }
    assert!(line.is_none());
}

#[test]
fn long_entries_are_given_whole() {
    let text = b"a \"b\" ".repeat(50_000);
    let entry = entries(&text).next().unwrap().unwrap();
    assert_eq!(entry.tokens.len(), 100_000);
    assert_eq!(tokens(&text).count(), 100_000);
    assert_eq!(pieces(&text).count(), 100_001);
}
