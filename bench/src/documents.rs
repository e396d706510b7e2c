//! Times documents: items that are checked, and printed in three layouts.
//!
//! The items are built once, and then checked or printed repeatedly.
use crate::rows::{Case, Rows};
use crate::texts;

mod library {
    extern "C" {
        pub fn bench_from_items(text: *const u8, length: usize, times: usize) -> usize;
        pub fn bench_print(text: *const u8, length: usize, kind: usize, times: usize) -> usize;
    }
}

mod plain {
    //! Items, their check, and three printers, as one would write them by hand.
    use crate::splitting::{plain as split, token_end};
    use std::fmt::{self, Write};

    pub enum Item {
        Token(String),
        Begin,
        End,
        Comment(String),
        Newline,
    }

    pub fn items(text: &[u8]) -> Vec<Item> {
        let text = std::str::from_utf8(text).expect("text");
        let mut items = Vec::new();
        for entry in split(text).expect("the text is of the grammar") {
            let empty = entry.is_empty();
            for (place, token) in entry.into_iter().enumerate() {
                items.push(Item::Token(token));
                if place == 0 {
                    items.push(Item::Begin);
                }
                items.push(Item::Comment("a field".to_string()));
            }
            if !empty {
                items.push(Item::End);
            }
            items.push(Item::Newline);
        }
        items
    }

    /// Returns whether a text is one token.
    fn is_token(text: &str) -> bool {
        let octets = text.as_bytes();
        if octets.first() == Some(&b'"') {
            let end = token_end(octets, 1, |o| matches!(o, b'"' | b'\n' | b'\r'));
            return end == Some(octets.len() - 1) && octets.len() > 1;
        }
        let ends = |o| matches!(o, b' ' | b'\t' | b'\n' | b'\r' | b'(' | b')' | b';' | b'"');
        !octets.is_empty() && token_end(octets, 0, ends) == Some(octets.len())
    }

    /// Returns the index of the first item for which the list isn't a document, if there is one.
    pub fn fault(items: &[Item]) -> Option<usize> {
        let mut depth = 0usize;
        for (place, item) in items.iter().enumerate() {
            let fits = match item {
                Item::Token(text) => is_token(text),
                Item::Begin => {
                    depth += 1;
                    true
                }
                Item::End => match depth.checked_sub(1) {
                    Some(less) => {
                        depth = less;
                        true
                    }
                    None => false,
                },
                Item::Comment(text) => !text.contains(['\n', '\r']),
                Item::Newline => depth == 0,
            };
            if !fits {
                return Some(place);
            }
        }
        (depth > 0).then_some(items.len())
    }

    struct Tokens<'a> {
        items: &'a [Item],
        tabbed: bool,
    }

    impl fmt::Display for Tokens<'_> {
        fn fmt(&self, f: &mut fmt::Formatter<'_>) -> fmt::Result {
            let (mut first, mut depth, mut first_in_block) = (true, 0, false);
            for item in self.items {
                match item {
                    Item::Token(text) => {
                        let tab = self.tabbed && (depth == 0 || first_in_block);
                        let gap = if first {
                            ""
                        } else if tab {
                            "\t"
                        } else {
                            " "
                        };
                        write!(f, "{gap}{text}")?;
                        (first, first_in_block) = (false, false);
                    }
                    Item::Begin => {
                        first_in_block |= depth == 0;
                        depth += 1;
                    }
                    Item::End => depth -= 1,
                    Item::Comment(_) => {}
                    Item::Newline => {
                        writeln!(f)?;
                        first = true;
                    }
                }
            }
            Ok(())
        }
    }

    struct Lines<'a>(&'a [Item]);

    impl fmt::Display for Lines<'_> {
        fn fmt(&self, f: &mut fmt::Formatter<'_>) -> fmt::Result {
            let (mut first, mut column, mut indent) = (true, 0, None);
            let word = |f: &mut fmt::Formatter<'_>, first: &mut bool, text: &str| {
                let gap = if *first { "" } else { " " };
                *first = false;
                write!(f, "{gap}{text}").map(|()| gap.len() + text.len())
            };
            for item in self.0 {
                match item {
                    Item::Token(text) => column += word(f, &mut first, text)?,
                    Item::Begin => {
                        column += word(f, &mut first, "(")?;
                        indent = Some(column + 1);
                    }
                    Item::End => {
                        column += word(f, &mut first, ")")?;
                        indent = None;
                    }
                    Item::Comment(text) => {
                        if let Some(indent) = indent {
                            write!(f, "\t; {text}\n{:indent$}", "")?;
                            (first, column) = (true, indent);
                        }
                    }
                    Item::Newline => {
                        writeln!(f)?;
                        (first, column) = (true, 0);
                    }
                }
            }
            Ok(())
        }
    }

    pub fn print(items: &[Item], kind: usize) -> usize {
        let mut text = String::new();
        let tabbed = kind == 1;
        match kind {
            0 | 1 => write!(text, "{}", Tokens { items, tabbed }),
            _ => write!(text, "{}", Lines(items)),
        }
        .expect("a string takes all");
        text.len()
    }
}

/// Checks the items of a text `times` times, followed by an end of a block too many.
fn check(text: &[u8], times: usize) -> usize {
    let mut items = plain::items(text);
    items.push(plain::Item::End);
    for _ in 0..times {
        assert!(std::hint::black_box(plain::fault(std::hint::black_box(&items))).is_some());
    }
    items.len()
}

fn print(text: &[u8], kind: usize, times: usize) -> usize {
    let items = plain::items(text);
    assert!(plain::fault(&items).is_none());
    let mut len = 0;
    for _ in 0..times {
        len = plain::print(std::hint::black_box(&items), kind);
    }
    len
}

pub fn add(rows: &mut Rows) {
    let texts = [10, 1_000, 100_000].map(|lines| texts::zone(lines).into_bytes());
    rows.add("Documents", "items checked by `from_items`", || {
        texts.each_ref().map(|text| {
            let call = library::bench_from_items;
            Case::repeated(
                text.len(),
                move |times| unsafe { call(text.as_ptr(), text.len(), times) },
                move |times| check(text, times),
            )
        })
    });
    let layouts = ["simple layout", "tabbed layout", "multiline layout"];
    for (kind, name) in layouts.into_iter().enumerate() {
        rows.add("Documents", name, || {
            texts.each_ref().map(|text| {
                let call = library::bench_print;
                Case::repeated(
                    text.len(),
                    move |times| unsafe { call(text.as_ptr(), text.len(), kind, times) },
                    move |times| print(text, kind, times),
                )
            })
        });
    }
}
