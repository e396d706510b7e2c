//! A `BufRead` that returns octets in chunks.
use dns_text::ZoneItem;
use std::io::{self, BufRead, ErrorKind, Read};

/// Returns the octets of chunks, at most one chunk in each call, and is interrupted before each. Then it
/// ends or fails.
#[derive(Debug)]
pub struct Blocks<'t> {
    blocks: Vec<&'t [u8]>,
    fails: bool,
    is_interrupted: bool,
}

impl<'t> Blocks<'t> {
    pub fn new(blocks: Vec<&'t [u8]>) -> Blocks<'t> {
        Blocks {
            blocks: blocks
                .into_iter()
                .rev()
                .filter(|it| !it.is_empty())
                .collect(),
            fails: false,
            is_interrupted: false,
        }
    }

    /// Returns chunks that fail at the end.
    #[allow(dead_code)]
    pub fn failing(self) -> Blocks<'t> {
        Blocks {
            fails: true,
            ..self
        }
    }
}

impl BufRead for Blocks<'_> {
    fn fill_buf(&mut self) -> io::Result<&[u8]> {
        self.is_interrupted = !self.is_interrupted;
        if self.is_interrupted {
            return Err(ErrorKind::Interrupted.into());
        }
        match self.blocks.last() {
            None if self.fails => Err(io::Error::other("no more")),
            None => Ok(&[]),
            Some(block) => Ok(block),
        }
    }

    fn consume(&mut self, count: usize) {
        if count == 0 {
            return;
        }
        let block = self.blocks.pop().unwrap();
        if count < block.len() {
            self.blocks.push(&block[count..]);
        }
    }
}

impl Read for Blocks<'_> {
    fn read(&mut self, into: &mut [u8]) -> io::Result<usize> {
        let block = self.fill_buf()?;
        let count = block.len().min(into.len());
        into[..count].copy_from_slice(&block[..count]);
        self.consume(count);
        Ok(count)
    }
}

/// Checks a text in chunks of 1, 2, 3 and 7 octets, and in two chunks cut at each offset.
pub fn in_blocks(text: &[u8], mut judge: impl FnMut(Blocks<'_>)) {
    for length in [1, 2, 3, 7] {
        judge(Blocks::new(text.chunks(length).collect()));
    }
    for place in 0..=text.len() {
        judge(Blocks::new(vec![&text[..place], &text[place..]]));
    }
}

/// An item and its offsets, without which records are compared.
#[allow(dead_code)]
pub type Placed = (Vec<usize>, ZoneItem);

/// Returns an item and its offsets.
#[allow(dead_code)]
pub fn placed(item: ZoneItem) -> Placed {
    let places = match &item {
        ZoneItem::Record(record) => vec![record.place, record.data_place, record.end],
        ZoneItem::Include { place, .. } => vec![*place],
        ZoneItem::Generate(directive) => vec![directive.place],
        item => panic!("{item:?}"),
    };
    (places, item)
}
