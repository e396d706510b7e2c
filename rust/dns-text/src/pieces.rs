//! The pieces of a zone file, without allocation: words, quoted strings, comments and ends of entries.
use crate::library;
use crate::zone::{Fault, FaultKind};
use dns_text_sys::{
    dnstext_cursor, dnstext_entry_next, dnstext_lexer, dnstext_outcome, dnstext_piece,
    dnstext_tokens_next, DNSTEXT_COMMENT, DNSTEXT_END, DNSTEXT_ENTRY_END, DNSTEXT_OK,
    DNSTEXT_QUOTED, DNSTEXT_WORD,
};
use std::iter::FusedIterator;
use std::ptr;

/// The kind of a piece.
#[derive(Clone, Copy, Debug, PartialEq, Eq, Hash)]
pub enum PieceKind {
    /// A token without double quotes.
    Word,
    /// A quoted string with its double quotes.
    Quoted,
    /// A comment with its semicolon, without the line end.
    Comment,
    /// The end of an entry: no octets, at the offset of the next entry.
    EntryEnd,
}

impl PieceKind {
    fn of(kind: usize) -> Option<PieceKind> {
        match kind {
            DNSTEXT_WORD => Some(PieceKind::Word),
            DNSTEXT_QUOTED => Some(PieceKind::Quoted),
            DNSTEXT_COMMENT => Some(PieceKind::Comment),
            DNSTEXT_ENTRY_END => Some(PieceKind::EntryEnd),
            _ => None,
        }
    }
}

/// A piece of a zone file.
#[derive(Clone, Copy, Debug, PartialEq, Eq, Hash)]
pub struct Piece<'t> {
    /// Its kind.
    pub kind: PieceKind,
    /// Offset of its first octet.
    pub start: usize,
    /// The octets of the piece, as in the text.
    pub text: &'t [u8],
    /// Whether its entry begins with a blank: such a record has the owner of the one before.
    pub begins_blank: bool,
}

/// Returns the pieces of a zone file in order, up to a syntax error: words, quoted strings, comments and
/// ends of entries. The last piece is an end. Nothing is copied or allocated, however long an entry is.
///
/// An octet of 0x80 or more counts as a character of its own.
///
/// ```
/// use dns_text::{pieces, PieceKind};
///
/// let mut found = pieces(b"www A 192.0.2.1 ; home\n  TXT (");
/// let words: Vec<_> = found.by_ref().take(3).map(|piece| piece.unwrap().text).collect();
/// assert_eq!(words, [b"www".as_slice(), b"A", b"192.0.2.1"]);
/// assert_eq!(found.next().unwrap()?.text, b"; home");
/// let end = found.next().unwrap()?;
/// assert_eq!((end.kind, end.start), (PieceKind::EntryEnd, 23));
/// assert!(found.next().unwrap()?.begins_blank);
/// let fault = found.next().unwrap().unwrap_err();
/// assert_eq!((fault.place, fault.opened), (30, Some(29)));
/// assert!(found.next().is_none());
/// # Ok::<(), dns_text::Fault>(())
/// ```
#[must_use]
pub fn pieces(text: &[u8]) -> Pieces<'_> {
    library::check();
    Pieces {
        text,
        lexer: dnstext_lexer::default(),
    }
}

/// An iterator over the pieces of a zone file; see [`pieces`].
///
/// It has the text and four numbers. A copy continues from where it was made.
#[derive(Clone, Debug)]
pub struct Pieces<'t> {
    text: &'t [u8],
    lexer: dnstext_lexer,
}

impl<'t> Pieces<'t> {
    /// Returns the piece. An unknown kind is an error of an unknown status.
    fn piece(&self, piece: dnstext_piece) -> Result<Piece<'t>, Fault> {
        let Some(kind) = PieceKind::of(piece.kind) else {
            return Err(Fault {
                kind: FaultKind::of(u32::MAX),
                place: piece.start,
                opened: None,
            });
        };
        Ok(Piece {
            kind,
            start: piece.start,
            text: &self.text[piece.start..piece.end],
            begins_blank: piece.begins_blank,
        })
    }

    /// Returns the offset of the unclosed opener in the open entry.
    fn opened(&self) -> usize {
        let mut cursor = dnstext_cursor {
            at: self.lexer.began,
            ..dnstext_cursor::default()
        };
        let mut outcome = dnstext_outcome::default();
        // SAFETY: the text has that length, and the buffer of tokens is empty.
        unsafe {
            dnstext_entry_next(
                self.text.as_ptr(),
                self.text.len(),
                &mut cursor,
                ptr::null_mut(),
                0,
                &mut outcome,
            )
        };
        cursor.opened
    }
}

impl<'t> Iterator for Pieces<'t> {
    type Item = Result<Piece<'t>, Fault>;

    fn next(&mut self) -> Option<Result<Piece<'t>, Fault>> {
        let mut piece = dnstext_piece::default();
        let mut outcome = dnstext_outcome::default();
        // SAFETY: the pointer and the length are those of the text, and the call stays within it.
        let status = unsafe {
            dnstext_tokens_next(
                self.text.as_ptr(),
                self.text.len(),
                &mut self.lexer,
                &mut piece,
                &mut outcome,
            )
        };
        match status {
            DNSTEXT_OK => Some(self.piece(piece)),
            DNSTEXT_END => None,
            status => {
                let kind = FaultKind::of(status);
                Some(Err(Fault {
                    kind,
                    place: outcome.place,
                    opened: kind.is_open().then(|| self.opened()),
                }))
            }
        }
    }
}

impl FusedIterator for Pieces<'_> {}
