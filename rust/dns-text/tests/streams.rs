//! Zone files from a `BufRead`: the items are those of the same octets in memory, however they arrive in
//! chunks, and up to where the `BufRead` fails.
#[path = "common/blocks.rs"]
mod blocks;
#[path = "common/table.rs"]
mod table;

use blocks::{in_blocks, placed, Blocks, Placed};
use dns_text::{
    entries, pieces, position, read_entries, read_records, records, Entry, Fault, FaultKind,
    OwnedEntry, PieceKind, Position, RecordFault, StreamError, ZoneItem,
};
use std::error::Error;
use std::io::{self, BufRead, BufReader};
use table::{each_row, octets_of};

/// A token with its offset, and whether it is quoted.
type Token = (usize, Vec<u8>, bool);

/// Whether an entry begins with a blank, and its tokens; or an error with its position.
type Found = Result<(bool, Vec<Token>), (Fault, Position)>;

fn found_entry(entry: &Entry<'_>, before: usize) -> Found {
    let tokens = entry.tokens.iter();
    let tokens = tokens.map(|it| (before + it.start, it.text.to_vec(), it.is_quoted));
    Ok((entry.begins_blank, tokens.collect()))
}

/// Returns the entries of a text, where reading continues after the line of each syntax error.
fn at_once(text: &[u8]) -> Vec<Found> {
    let mut found = Vec::new();
    let mut start = 0;
    while let Some(fault) = entries_behind(text, start, &mut found) {
        let position = position(text, fault.place).unwrap();
        found.push(Err((fault, position)));
        match text[fault.place..].iter().position(|octet| *octet == b'\n') {
            Some(count) => start = fault.place + count + 1,
            None => break,
        }
    }
    found
}

/// Appends the entries of a text from an offset on, up to a syntax error.
fn entries_behind(text: &[u8], start: usize, found: &mut Vec<Found>) -> Option<Fault> {
    for entry in entries(&text[start..]) {
        match entry {
            Ok(entry) => found.push(found_entry(&entry, start)),
            Err(fault) => {
                return Some(Fault {
                    place: start + fault.place,
                    opened: fault.opened.map(|place| start + place),
                    ..fault
                })
            }
        }
    }
    None
}

/// Returns the entries of a `BufRead`, whose tokens must be those of the text, and its error.
fn of_reader(reader: impl BufRead, text: &[u8]) -> (Vec<Found>, Option<io::Error>) {
    let mut found = Vec::new();
    let mut reader = read_entries(reader);
    while let Some(entry) = reader.next() {
        match entry {
            Ok(entry) => {
                for token in entry.tokens() {
                    assert_eq!(entry.locate(token.start), position(text, token.start));
                    assert_eq!(&text[token.start..][..token.text.len()], token.text);
                }
                found.push(found_entry(&entry.as_entry(), 0));
            }
            Err(StreamError::Fault { fault, position }) => found.push(Err((fault, position))),
            Err(StreamError::Io(error)) => {
                assert!(reader.next().is_none());
                assert!(reader.next().is_none());
                return (found, Some(error));
            }
        }
    }
    assert!(reader.next().is_none());
    (found, None)
}

/// Returns the length of the entries of a text that end with a line end, up to a syntax error.
fn whole_entries(text: &[u8]) -> usize {
    let mut ends = Vec::new();
    for piece in pieces(text) {
        match piece {
            Ok(piece) if piece.kind == PieceKind::EntryEnd => ends.push(piece.start),
            Ok(_) => {}
            Err(_) => return ends.last().copied().unwrap_or(0),
        }
    }
    ends.pop();
    ends.last().copied().unwrap_or(0)
}

/// The zone files of the rows, and more.
fn each_text(mut judge: impl FnMut(&[u8])) {
    for folder in ["test_rows", "test_records"] {
        each_row(folder, 100, |fields| {
            let is_zone = fields[0].starts_with("zone.") && fields[1].len() < 200;
            if is_zone {
                judge(&octets_of(fields[1]));
            }
            is_zone
        });
    }
    let others: [&[u8]; 8] = [
        b"a\\\nb c\nd",
        b"a \"b\\\nc\" d\n",
        b"a\r\n\r\n b\r\n",
        b"; \xFF only\n;",
        b"a ) b ) c\n\nd )",
        b"\\300 \\300\nx \\300",
        b"(\n\"\n)\n",
        b"\n\n\n",
    ];
    others.into_iter().for_each(judge);
}

#[test]
fn entries_in_blocks() {
    each_text(|text| {
        let wanted = at_once(text);
        in_blocks(text, |blocks| {
            let (found, error) = of_reader(blocks, text);
            assert_eq!(found, wanted, "{}", text.escape_ascii());
            assert!(error.is_none());
        });
    });
}

#[test]
fn entries_of_readers_that_fail() {
    each_text(|text| {
        let wanted = at_once(text);
        let has_faults = wanted.iter().any(Result::is_err);
        for end in 0..=text.len() {
            let blocks = Blocks::new(text[..end].chunks(2).collect());
            let (found, error) = of_reader(blocks.failing(), text);
            assert_eq!(error.unwrap().to_string(), "no more");
            assert_eq!(found, wanted[..found.len()], "{}", text.escape_ascii());
            if !has_faults {
                let whole = &text[..whole_entries(&text[..end])];
                assert_eq!(found.len(), entries(whole).count() - 1);
            }
        }
    });
}

fn items<E>(found: impl Iterator<Item = Result<ZoneItem, E>>) -> Vec<Option<Placed>> {
    found.map(|item| item.ok().map(placed)).collect()
}

#[test]
fn records_of_readers_that_fail() {
    each_text(|text| {
        let origin = "example.".parse().unwrap();
        let wanted = items(records(text).with_origin(&origin).unwrap());
        for end in 0..=text.len() {
            let blocks = Blocks::new(text[..end].chunks(3).collect()).failing();
            let mut found: Vec<_> = read_records(blocks).with_origin(&origin).unwrap().collect();
            let Some(Err(StreamError::Io(error))) = found.pop() else {
                panic!("{}", text.escape_ascii());
            };
            assert_eq!(error.to_string(), "no more");
            let found = items(found.into_iter());
            assert_eq!(found, wanted[..found.len()], "{}", text.escape_ascii());
            let whole = &text[..whole_entries(&text[..end])];
            let least = records(whole).with_origin(&origin).unwrap().count();
            assert!(found.len() >= least, "{} {end}", text.escape_ascii());
        }
    });
}

#[test]
fn errors_of_readers_are_their_own() {
    let mut reader = read_entries(Blocks::new(vec![b"a\nb"]).failing());
    assert_eq!(reader.next().unwrap().unwrap().tokens().len(), 1);
    let error = reader.next().unwrap().unwrap_err();
    assert_eq!(
        (error.to_string(), error.position()),
        ("no more".to_string(), None)
    );
    assert!(error.fault().is_none() && reader.next().is_none());
    let mut reader = read_records(b"a 1 A 192.0.2.1\n".as_slice());
    let error = reader.next().unwrap().unwrap_err();
    assert_eq!(error.to_string(), "1:1: relative name, and no origin");
    assert_eq!(error.fault().map(|it| it.place), Some(0));
    assert!(error.source().is_none());
    assert!(reader.next().is_none());
}

/// A directory can be opened, but not read.
#[test]
fn files_that_cannot_be_read() {
    let folder = std::fs::File::open(env!("CARGO_MANIFEST_DIR")).unwrap();
    let mut reader = read_records(BufReader::new(folder));
    assert!(matches!(reader.next(), Some(Err(StreamError::Io(_)))));
    assert!(reader.next().is_none());
}

#[test]
fn entries_have_positions() {
    let text = b"a (b\n c)\n\n  d ; e\n";
    let found: Vec<OwnedEntry> = read_entries(text.as_slice()).map(Result::unwrap).collect();
    let positions: Vec<String> = found.iter().map(|it| it.position().to_string()).collect();
    assert_eq!(positions, ["1:1", "3:1", "4:1", "5:1"]);
    let [first, empty, blank, last] = &found[..] else {
        panic!()
    };
    assert_eq!(first.locate(6).unwrap().to_string(), "2:2");
    assert_eq!(first.locate(7).unwrap().to_string(), "2:3");
    assert_eq!(first.locate(8), None);
    assert_eq!((empty.locate(8), empty.locate(9).is_some()), (None, true));
    assert!(blank.begins_blank() && blank.locate(usize::MAX).is_none());
    assert_eq!(last.tokens().len(), 0);
}

/// A long entry in short chunks costs about linear time.
#[test]
fn long_entries() {
    let mut text = b"a (\n".to_vec();
    text.extend(b"\"b c\" d\n".repeat(50_000));
    text.extend(b") e\nf )\n");
    let mut reader = read_entries(Blocks::new(text.chunks(1).collect()));
    assert_eq!(reader.next().unwrap().unwrap().tokens().len(), 100_002);
    let error = reader.next().unwrap().unwrap_err();
    assert_eq!(
        error.position(),
        Some(Position {
            line: 50_003,
            column: 3
        })
    );
    let found = items(read_records(Blocks::new(text.chunks(1).collect())));
    assert_eq!(found, items(records(&text)));
    let open = [b"((".as_slice(), &text].concat();
    let mut reader = read_entries(Blocks::new(open.chunks(100).collect()));
    let error = reader.next().unwrap().unwrap_err();
    let fault = error.fault().unwrap();
    assert_eq!(
        (fault.kind, fault.opened),
        (FaultKind::OpenParenthesis, Some(0))
    );
    assert!(reader.next().is_none());
}

/// Many lines, some of them rejected, and their positions.
#[test]
fn many_lines() {
    let line = b"; why\n\nw 60 A 192.0.2.1\n  A 192.0.2\n\tA \"\n";
    let text = line.repeat(20_000);
    let origin = "example.".parse().unwrap();
    let mut count = 0;
    for (index, item) in read_records(BufReader::new(&text[..]))
        .with_origin(&origin)
        .unwrap()
        .enumerate()
    {
        let first = 5 * (index / 3) + 1;
        match (index % 3, item) {
            (0, Ok(ZoneItem::Record(record))) => {
                assert_eq!(record.place, index / 3 * line.len() + 7);
            }
            (1, Err(error)) => {
                let column = 5;
                let line = first + 3;
                assert_eq!(error.position(), Some(Position { line, column }));
            }
            (2, Err(error)) => {
                let told = format!("{}:5: quoted text is not closed", first + 4);
                assert_eq!(error.to_string(), told);
            }
            (_, item) => panic!("{item:?}"),
        }
        count += 1;
    }
    assert_eq!(count, 60_000);
    let faults = records(&text)
        .with_origin(&origin)
        .unwrap()
        .filter_map(Result::err);
    let faults: Vec<RecordFault> = faults.collect();
    assert_eq!(faults.len(), 40_000);
}
