//! Names compare and hash without regard to the case of ASCII letters, and character strings exactly.
use dns_text::{CharStr, Name};
use std::collections::hash_map::DefaultHasher;
use std::collections::HashSet;
use std::hash::{Hash, Hasher};

fn hash_of(value: &impl Hash) -> u64 {
    let mut state = DefaultHasher::new();
    value.hash(&mut state);
    state.finish()
}

fn name(text: &[u8]) -> Name {
    Name::from_text(text).unwrap()
}

fn string(octets: &[u8]) -> CharStr {
    CharStr::from_octets(octets.to_vec()).unwrap()
}

#[test]
fn names_without_case() {
    let (upper, lower) = (name(b"WWW.EXAMPLE."), name(b"www.example."));
    assert_eq!(upper, lower);
    assert_eq!(hash_of(&upper), hash_of(&lower));
    let names = HashSet::from([upper.clone()]);
    assert!(names.contains(&lower));
    assert!(!names.contains(&name(b"www.example")));
    assert!(!names.contains(&name(br"www\.example.")));
    assert_eq!(upper.to_string(), "WWW.EXAMPLE.");
    assert_ne!(name(b"a"), name(b"b"));
    // Octets that differ by 32 and are not letters, and octets above 127.
    assert_ne!(name(b"@"), name(b"`"));
    assert_ne!(name(b"[x"), name(b"{x"));
    assert_ne!(name(br"\192"), name(br"\224"));
}

#[test]
fn strings_with_case() {
    let (upper, lower) = (string(b"AbZ"), string(b"aBz"));
    assert_ne!(upper, lower);
    assert!(upper < lower);
    assert!(upper.eq_ignore_ascii_case(&lower));
    assert_eq!(hash_of(&upper), hash_of(&string(b"AbZ")));
    let strings = HashSet::from([upper.clone()]);
    assert!(strings.contains(&upper) && !strings.contains(&lower));
    let differ = |left: &[u8], right: &[u8]| !string(left).eq_ignore_ascii_case(&string(right));
    assert!(differ(b"abz", b"abz ") && differ(b"@[`{", b"`{@["));
    assert!(differ(&[0xC0], &[0xE0]) && differ(b"", b"a"));
}
