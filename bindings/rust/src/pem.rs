//! Blocks of PEM (RFC 7468), and names as text (RFC 4514).

use crate::{text_of, written, Error, Rules, ABSENT};
use std::iter::FusedIterator;

/// Where a block is: `soq_block` of soqavise.h.
#[derive(Default)]
#[repr(C)]
struct Place {
    label: usize,
    label_length: usize,
    line: usize,
}

unsafe extern "C" {
    fn soq_proved_pem(
        text: *const u8,
        length: usize,
        index: usize,
        place: &mut Place,
        buffer: *mut u8,
        capacity: usize,
        needed: &mut usize,
    ) -> u32;
    fn soq_proved_name_text(
        rules: u32,
        octets: *const u8,
        length: usize,
        buffer: *mut u8,
        capacity: usize,
        needed: &mut usize,
    ) -> u32;
}

/// A block of PEM.
#[derive(Clone, Debug, PartialEq, Eq)]
pub struct PemBlock<'a> {
    /// What is between `-----BEGIN ` and the dashes.
    pub label: &'a str,
    /// The number of its first line, counted from 1.
    pub line: usize,
    /// The octets that its lines encode; `Refused` if they aren't base64, or it has no last line.
    pub octets: Result<Vec<u8>, Error>,
}

/// Returns the blocks of a text. Other lines before and between them are skipped. The time grows with
/// the length of the text, also where it has many blocks.
///
/// ```
/// use soqavise::pem;
///
/// # fn main() -> Result<(), soqavise::Error> {
/// let text = "-----BEGIN X-----\nAQID\n-----END X-----\n-----BEGIN Y-----\nBA==\n-----END Y-----\n";
/// for block in pem(text) {
///     println!("{}: {} octets", block.label, block.octets?.len()); // X: 3 octets, Y: 1 octets
/// }
/// assert_eq!(pem(text).find(|it| it.label == "Y").map(|it| it.octets), Some(Ok(vec![4])));
/// # Ok(())
/// # }
/// ```
pub fn pem(text: &str) -> PemBlocks<'_> {
    PemBlocks { text, at: 0, line: 1 }
}

/// The iterator that [`pem`] returns.
#[derive(Clone, Debug)]
pub struct PemBlocks<'a> {
    text: &'a str,
    /// Where the line begins that isn't read yet, and its number.
    at: usize,
    line: usize,
}

impl<'a> PemBlocks<'a> {
    /// Takes what is up to the next line that may be the first of a block. No block goes on beyond
    /// such a line, so `soq_proved_pem`, which decodes all blocks of its text, is called with one.
    fn piece(&mut self) -> &'a str {
        let rest = &self.text[self.at..];
        let piece = rest.find("\n-----BEGIN ").map_or(rest, |end| &rest[..=end]);
        self.at += piece.len();
        self.line += piece.matches('\n').count();
        piece
    }
}

impl<'a> Iterator for PemBlocks<'a> {
    type Item = PemBlock<'a>;

    fn next(&mut self) -> Option<PemBlock<'a>> {
        while self.at < self.text.len() {
            let (offset, line) = (self.at, self.line);
            if let Some((label, octets)) = first_block(self.piece()) {
                let octets = octets.map_err(|error| error.of_block(label, line, offset));
                return Some(PemBlock { label, line, octets });
            }
        }
        None
    }
}

impl FusedIterator for PemBlocks<'_> {}

impl Error {
    /// Adds where a block of PEM is that is refused.
    fn of_block(self, label: &str, line: usize, offset: usize) -> Error {
        match self {
            Error::Refused { kind, path, text, .. } => {
                let text = format!("line {line}: the block {label:?} {text}");
                Error::Refused { kind, path, offset, text }
            }
            other => other,
        }
    }
}

/// Returns the label and the octets of the first block of a text, if it has one.
fn first_block(text: &str) -> Option<(&str, Result<Vec<u8>, Error>)> {
    let (mut place, mut is_absent) = (Place::default(), false);
    let octets = written(text.len(), "has no last line, or isn't base64", |buffer, needed| {
        let (at, length) = (text.as_ptr(), text.len());
        let (to, capacity) = (buffer.as_mut_ptr(), buffer.len());
        let status = unsafe { soq_proved_pem(at, length, 0, &mut place, to, capacity, needed) };
        is_absent = status == ABSENT;
        status
    });
    (!is_absent).then(|| (&text[place.label..][..place.label_length], octets))
}

/// Returns the text of the Name (RFC 5280 4.1.2.4) that all of the octets are, as RFC 4514 has it:
/// `CN=example.org,O=Example,C=DE`.
///
/// # Errors
/// `Refused` if they aren't one.
pub fn name_text(rules: Rules, octets: &[u8]) -> Result<String, Error> {
    let (at, length) = (octets.as_ptr(), octets.len());
    let text = written(2 * length + 1, "the octets aren't one Name", |buffer, needed| unsafe {
        let (to, capacity) = (buffer.as_mut_ptr(), buffer.len());
        soq_proved_name_text(rules as u32, at, length, to, capacity, needed)
    })?;
    Ok(text_of(&text))
}
