//! Splits entries into tokens, as one would write it by hand.
use crate::splitting::token_end;

/// A word, or the text between double quotes. It is adjacent if nothing separates it from the token
/// before it.
#[derive(Clone, Copy)]
pub struct Token<'t> {
    pub text: &'t str,
    pub quoted: bool,
    pub glued: bool,
}

/// Appends the tokens of the entry at an offset to a list. Returns the offset of the next entry.
pub fn entry<'t>(text: &'t str, start: usize, tokens: &mut Vec<Token<'t>>) -> Option<usize> {
    let octets = text.as_bytes();
    tokens.clear();
    let (mut at, mut depth, mut ended) = (start, 0usize, None);
    while let Some(octet) = octets.get(at) {
        match octet {
            b'\n' if depth == 0 => return Some(at + 1),
            b' ' | b'\t' | b'\n' => at += 1,
            b'\r' if octets.get(at + 1) == Some(&b'\n') => at += 1,
            b'\r' => return None,
            b'(' => {
                depth += 1;
                at += 1;
            }
            b')' => {
                depth = depth.checked_sub(1)?;
                at += 1;
            }
            b';' => {
                let rest = &octets[at..];
                let end = rest.iter().position(|o| matches!(o, b'\n' | b'\r'));
                at += end.unwrap_or(rest.len());
            }
            b'"' => {
                let end = token_end(octets, at + 1, |o| matches!(o, b'"' | b'\n' | b'\r'))?;
                if octets.get(end) != Some(&b'"') {
                    return None;
                }
                tokens.push(Token {
                    text: &text[at + 1..end],
                    quoted: true,
                    glued: ended == Some(at),
                });
                at = end + 1;
                ended = Some(at);
            }
            _ => {
                let end = token_end(octets, at, |o| {
                    matches!(o, b' ' | b'\t' | b'\n' | b'\r' | b'(' | b')' | b';' | b'"')
                })?;
                tokens.push(Token {
                    text: &text[at..end],
                    quoted: false,
                    glued: ended == Some(at),
                });
                at = end;
                ended = Some(at);
            }
        }
    }
    (depth == 0).then_some(at)
}
