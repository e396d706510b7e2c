//! Times zone files: `split` and the iterator, against a plain splitter that we wrote.
use crate::measure::{in_turns, processor_seconds, seconds_of_child, Work};
use crate::rows::{Case, Rows};
use crate::texts::{self, zone};

extern "C" {
    fn bench_split(text: *const u8, length: usize) -> usize;
    fn dns_text_tokens(text: *const u8, length: usize) -> usize;
}

pub fn ours(text: &[u8]) -> usize {
    unsafe { bench_split(text.as_ptr(), text.len()) }
}

pub fn cursor(text: &[u8]) -> usize {
    unsafe { dns_text_tokens(text.as_ptr(), text.len()) }
}

/// Returns the length of the escape at the beginning of a text, if there is one.
fn escape(text: &[u8]) -> Option<usize> {
    match text.get(1)? {
        b'0'..=b'9' => {
            let digits = text.get(1..4)?;
            if !digits.iter().all(u8::is_ascii_digit) {
                return None;
            }
            let value = digits.iter().fold(0, |n, d| 10 * n + u32::from(d - b'0'));
            (value < 256).then_some(4)
        }
        b' '..=b'~' => Some(2),
        _ => None,
    }
}

/// Returns the end of a word or of a quoted string that is open at an offset.
pub fn token_end(text: &[u8], mut at: usize, ends: impl Fn(u8) -> bool) -> Option<usize> {
    while let Some(&octet) = text.get(at) {
        if ends(octet) {
            break;
        }
        at += if octet == b'\\' {
            escape(&text[at..])?
        } else {
            1
        };
    }
    Some(at)
}

/// Splits a zone file, as one would write it by hand.
pub fn plain(text: &str) -> Option<Vec<Vec<String>>> {
    let octets = text.as_bytes();
    let mut found = Vec::new();
    let mut entry = Vec::new();
    let mut depth = 0;
    let mut at = 0;
    while let Some(octet) = octets.get(at) {
        match octet {
            b' ' | b'\t' => at += 1,
            b'\n' => {
                if depth == 0 {
                    found.push(std::mem::take(&mut entry));
                }
                at += 1;
            }
            b'\r' if octets.get(at + 1) == Some(&b'\n') => at += 1,
            b'\r' => return None,
            b'(' => {
                depth += 1;
                at += 1;
            }
            b')' => {
                depth = usize::checked_sub(depth, 1)?;
                at += 1;
            }
            b';' => {
                let rest = &octets[at..];
                at += rest
                    .iter()
                    .position(|o| matches!(o, b'\n' | b'\r'))
                    .unwrap_or(rest.len());
            }
            b'"' => {
                let end = token_end(octets, at + 1, |o| matches!(o, b'"' | b'\n' | b'\r'))?;
                if octets.get(end) != Some(&b'"') {
                    return None;
                }
                entry.push(text[at..=end].to_string());
                at = end + 1;
            }
            _ => {
                let end = token_end(octets, at, |o| {
                    matches!(o, b' ' | b'\t' | b'\n' | b'\r' | b'(' | b')' | b';' | b'"')
                })?;
                entry.push(text[at..end].to_string());
                at = end;
            }
        }
    }
    found.push(entry);
    (depth == 0).then_some(found)
}

pub fn plain_count(octets: &[u8]) -> usize {
    let text = std::str::from_utf8(octets).expect("the text is UTF-8");
    plain(text).map_or(0, |entries| entries.len())
}

/// Returns the number of tokens of a text, by the plain splitter.
fn plain_tokens(octets: &[u8]) -> usize {
    let text = std::str::from_utf8(octets).expect("the text is UTF-8");
    plain(text).map_or(0, |entries| entries.iter().map(Vec::len).sum())
}

/// Returns the figures of texts of one repeated item: nanoseconds per octet of the iterator, of
/// `split` and of the plain splitter.
pub fn each_text() -> Vec<(String, [f64; 3])> {
    let texts = texts::texts(1_000_000);
    let times = texts.iter().map(|it| {
        eprintln!("text: {}", it.name);
        let text = it.text.as_bytes();
        assert_eq!(ours(text), plain_count(text), "{}", it.name);
        let work = |call: fn(&[u8]) -> usize| -> Work<'_> {
            Box::new(move |times| (0..times).map(|_| call(std::hint::black_box(text))).sum())
        };
        let [cursor, plain] = in_turns(text.len(), [&work(cursor), &work(plain_count)]);
        let [split, _] = in_turns(text.len(), [&work(ours), &work(self::cursor)]);
        (it.name.to_string(), [cursor, split, plain])
    });
    let mut times: Vec<_> = times.collect();
    times.push(beside_wc());
    times
}

/// Returns the figures of the zone of 200,000 lines, as multiples of `wc -l`.
fn beside_wc() -> (String, [f64; 3]) {
    let text = zone(200_000);
    let path = std::env::temp_dir().join("dnstext-bench.zone");
    std::fs::write(&path, &text).expect("the zone is written");
    let wc = seconds_of_child("wc", &["-l", path.to_str().expect("a path in UTF-8")]);
    std::fs::remove_file(&path).expect("the zone is removed");
    let least = |call: fn(&[u8]) -> usize| {
        let times = (0..15).map(|_| processor_seconds(|| call(text.as_bytes())));
        times.fold(f64::INFINITY, f64::min) / wc
    };
    let name = format!("zone of 200,000 lines, times `wc -l` of {:.2} ms", wc * 1e3);
    (name, [least(cursor), least(ours), least(plain_count)])
}

pub fn add(rows: &mut Rows) {
    let texts = [20, 2_000, 200_000].map(|lines| zone(lines).into_bytes());
    rows.add("Zone text", "`split`", || {
        texts
            .each_ref()
            .map(|text| Case::new(text.len(), move || ours(text), move || plain_count(text)))
    });
    rows.add("Zone text", "the cursor, beside the plain splitter", || {
        texts
            .each_ref()
            .map(|text| Case::new(text.len(), move || cursor(text), move || plain_tokens(text)))
    });
}
