//! Generates octets and zone files to be timed.
use crate::symbols::plain;

/// Returns octets more than half of which are printed as decimal escapes.
pub fn random(count: usize) -> Vec<u8> {
    let mut state = 12345u64;
    (0..count)
        .map(|_| {
            state ^= state << 13;
            state ^= state >> 7;
            state ^= state << 17;
            (state >> 32) as u8
        })
        .collect()
}

/// Returns plain text, with spaces and a few characters that are escaped.
pub fn words(count: usize) -> Vec<u8> {
    let words = b"v=spf1 include:_spf.example.com ip4:192.0.2.0/24 -all; see the notes of 2024. ";
    words.iter().copied().cycle().take(count).collect()
}

/// Returns letters, digits and hyphens.
pub fn letters(count: usize) -> Vec<u8> {
    let letters = b"www-example4mail2hostabcdefghijkl";
    letters.iter().copied().cycle().take(count).collect()
}

/// Returns the text of octets as a word.
pub fn spelled(octets: &[u8]) -> Vec<u8> {
    let symbols = octets
        .iter()
        .map(|octet| plain::of_word(*octet).to_string());
    symbols.collect::<String>().into_bytes()
}

/// Returns `count` numbers of 32 bits, one a line.
pub fn numbers(count: usize) -> Vec<u8> {
    let number = |place: usize| (place as u32).wrapping_mul(2_654_435_761) % 100_000;
    let lines = (1..=count).map(|place| format!("{}\n", number(place)));
    lines.collect::<String>().into_bytes()
}

/// Returns `count` MX records, one a line.
pub fn exchanges(count: usize) -> Vec<u8> {
    let lines = (0..count).map(|place| format!("{} mail{place}.example.com.\n", place % 100));
    lines.collect::<String>().into_bytes()
}

/// A text, and its name.
pub struct Text {
    pub name: &'static str,
    pub text: String,
}

/// Appends a `DS` record in parentheses over four lines, as the layouts print it.
fn ds(zone: &mut String, number: usize) {
    let tag = number % 65_536;
    zone.push_str(&format!(
        "host{number}.example. 3600 IN DS ( {tag:<24} ; key tag\n\
         {blank:31}15                       ; algorithm\n\
         {blank:31}2                        ; digest type\n\
         {blank:31}{digest:064X} ) ; digest\n",
        blank = "",
        digest = number as u128 * 0x1357_9bdf_0246_8ace_1357_9bdf,
    ));
}

/// Returns a zone of `lines` lines: addresses, mail exchangers without owner, names and quoted
/// strings with escapes, and records in parentheses with comments.
pub fn zone(lines: usize) -> String {
    let mut zone = String::new();
    for number in 0..lines / 10 {
        let octet = number % 256;
        zone.push_str(&format!(
            "host{number}.example. 3600 IN A 192.0.2.{octet}\n\
             host{number}.example. 3600 IN AAAA 2001:db8::{number:x}:{octet:x}\n\
             \t3600 IN MX 10 mail{octet}.example.\n\
             caf\\195\\169{number}\\046\\128\\255.example. 3600 IN TXT \
             \"say \\\"\\195\\188\\\"; \\009{number}\" plain\n\
             _\\000\\001\\002\\003\\004\\005\\006\\007\\008\\009\\010.\
             \\011\\012\\013\\014\\015\\016\\017.example. 60 IN NS ns\\0461.example.\n\
             \n"
        ));
        ds(&mut zone, number);
    }
    zone
}

/// Returns texts of about `octets` octets, each of one repeated item.
pub fn texts(octets: usize) -> Vec<Text> {
    let of = |name, unit: &str| Text {
        name,
        text: unit.repeat(octets / unit.len()),
    };
    let around = |name, first: &str, unit: &str, last: &str| Text {
        name,
        text: first.to_string() + &unit.repeat(octets / unit.len()) + last,
    };
    vec![
        of(
            "DS records on one line",
            "name.example. 3600 IN DS ( 5414 15 2 DEADBEEF )\n",
        ),
        of(
            "quoted texts with escapes",
            "a TXT \"one \\\"two\\\" three; four\" \"f\\195\\188nf\"\n",
        ),
        of(
            "comments of 95 octets",
            &(";".to_string() + &"comment ".repeat(12)[..94] + "\n"),
        ),
        around("one comment", ";", "x", ""),
        around("one quoted text", "\"", "q", "\""),
        of("one word", "w"),
        of("words of 30 octets", "abcdefghijklmnopqrstuvwxyz0123 "),
        of("words of one letter", "a "),
        of("words beyond ASCII", "é "),
        of("one word beyond ASCII", "é"),
        of("empty lines", "\n"),
        of("lines ended by CR LF", "name A 192.0.2.1\r\n"),
        of("empty lines ended by CR LF", "\r\n"),
        of("blanks", " "),
        of("pairs of parentheses", "()"),
        Text {
            name: "nested parentheses",
            text: "(".repeat(octets / 2) + &")".repeat(octets / 2),
        },
        of("escapes of three digits", "\\195\\188"),
        of("escapes of one character", "\\.\\;"),
        around("quoted escapes", "\"", "\\195\\\"", "\""),
        of("empty quoted texts", "\"\""),
    ]
}
