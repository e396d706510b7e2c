//! The octets of a `BufRead`, which are read when they are needed.
use crate::Position;
use std::io::{self, BufRead, ErrorKind};

/// Up to this number of unread octets, an entry is tried again with any more of them. Above it, only once
/// their number has doubled, so that a long entry costs linear time.
const FEW: usize = 4096;

/// Number of octets whose lines are not counted yet, above which they are counted. Lines are counted for many octets
/// at once, and not for each item.
const UNCOUNTED: usize = 4096;

/// The octets in memory, and the index of the next.
#[derive(Debug)]
pub(super) struct Window<R> {
    reader: R,
    octets: Vec<u8>,
    /// Offset of the first octet in memory.
    before: usize,
    /// Index of the next octet.
    next: usize,
    /// That index before the last item.
    last: usize,
    /// An index up to `last`, and its line and column.
    counted: usize,
    position: Position,
    /// Whether the rest of a line is to be skipped first.
    skips: bool,
    is_ended: bool,
}

impl<R> Window<R> {
    pub(super) fn new(reader: R) -> Window<R> {
        Window::starting_at(reader, 0, Position { line: 1, column: 1 })
    }

    /// Returns an empty window whose first octet has an offset and a position.
    pub(super) fn starting_at(reader: R, place: usize, position: Position) -> Window<R> {
        Window {
            reader,
            octets: Vec::new(),
            before: place,
            next: 0,
            last: 0,
            counted: 0,
            position,
            skips: false,
            is_ended: false,
        }
    }

    /// Returns the unread octets in memory.
    pub(super) fn rest(&self) -> &[u8] {
        &self.octets[self.next..]
    }

    /// Returns the offset of the next octet among all octets.
    pub(super) fn place(&self) -> usize {
        self.before + self.next
    }

    /// Returns line and column of the next octet.
    pub(super) fn position(&self) -> Position {
        self.position_at(self.next)
    }

    /// Returns whether all octets are in memory.
    pub(super) fn is_ended(&self) -> bool {
        self.is_ended
    }

    /// Skips `count` octets, an item.
    pub(super) fn pass(&mut self, count: usize) {
        self.last = self.next;
        if self.last - self.counted > UNCOUNTED {
            self.count_lines();
        }
        self.next += count;
    }

    /// Skips the line of a syntax error at the offset `count`.
    pub(super) fn pass_line(&mut self, count: usize) {
        self.pass(count);
        self.skips = true;
    }

    /// Skips the rest of a syntax error's line, as far as it is in memory. Returns whether the next line is
    /// reached.
    pub(super) fn skip_line(&mut self) -> bool {
        if !self.skips {
            return true;
        }
        let end = self.rest().iter().position(|octet| *octet == b'\n');
        self.skips = end.is_none();
        self.next += end.map_or(self.rest().len(), |count| count + 1);
        !self.skips
    }

    /// Counts the lines before the last item.
    pub(super) fn count_lines(&mut self) {
        self.position = self.position_at(self.last);
        self.counted = self.last;
    }

    /// Returns line and column of an index that is not less than the last one counted.
    fn position_at(&self, index: usize) -> Position {
        advance(self.position, &self.octets[self.counted..index])
    }

    /// Returns line and column of an offset in what was skipped last, or of its end.
    pub(super) fn locate(&self, place: usize) -> Option<Position> {
        let index = place.checked_sub(self.before)?;
        (self.last..=self.next)
            .contains(&index)
            .then(|| self.position_at(index))
    }

    /// Returns the capacity in octets.
    #[cfg(test)]
    pub(super) fn room(&self) -> usize {
        self.octets.capacity()
    }

    /// Drops the octets that were read.
    fn let_go(&mut self) {
        self.last = self.next;
        self.count_lines();
        self.octets.drain(..self.next);
        self.before += self.next;
        (self.next, self.last, self.counted) = (0, 0, 0);
    }
}

impl<R: BufRead> Window<R> {
    /// Reads more octets, and drops those that were read. After an error, octets read before it remain.
    pub(super) fn fill(&mut self) -> io::Result<()> {
        self.let_go();
        let left = self.octets.len();
        let wanted = if left < FEW { left + 1 } else { 2 * left };
        while self.octets.len() < wanted && !self.is_ended {
            self.read_block()?;
        }
        Ok(())
    }

    /// Reads a chunk.
    fn read_block(&mut self) -> io::Result<()> {
        let block = match self.reader.fill_buf() {
            Err(error) if error.kind() == ErrorKind::Interrupted => return Ok(()),
            block => block?,
        };
        let count = block.len();
        self.octets.extend_from_slice(block);
        self.reader.consume(count);
        self.is_ended = count == 0;
        Ok(())
    }
}

/// Returns the position after octets that begin at a position.
pub(super) fn advance(from: Position, octets: &[u8]) -> Position {
    let Some(last) = octets.iter().rposition(|octet| *octet == b'\n') else {
        return Position {
            line: from.line,
            column: from.column + octets.len(),
        };
    };
    Position {
        line: from.line + count_feeds(&octets[..=last]),
        column: octets.len() - last,
    }
}

/// Returns the number of line feeds, which are counted in single octets, many at once.
fn count_feeds(octets: &[u8]) -> usize {
    let counts = octets.chunks(255).map(|octets| {
        let is_feed = octets.iter().map(|octet| u8::from(*octet == b'\n'));
        usize::from(is_feed.sum::<u8>())
    });
    counts.sum()
}
