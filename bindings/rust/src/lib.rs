//! BER, CER and DER (ITU-T X.690) by the functions of Soqavise, which are proved.
//!
//! ```
//! use soqavise::{check, encodings, next, Rules, Type};
//!
//! # fn main() -> Result<(), soqavise::Error> {
//! let octets = [0x30, 0x05, 0x02, 0x01, 0x03, 0x42, 0x00]; // an unbindRequest (RFC 4511 4.3)
//! check(Type::Ldap, &octets)?; // DER throughout, except inside open types
//! let message = next(Rules::Der, &octets)?;
//! for part in encodings(Rules::Der, message.contents) {
//!     println!("{} octets", part?.whole.len()); // 3 and 2
//! }
//! # Ok(())
//! # }
//! ```
//!
//! With a schema, values of any type of ASN.1 modules are read:
//!
//! ```
//! use soqavise::{Rules, Schema};
//!
//! # fn main() -> Result<(), soqavise::Error> {
//! let text = "Pairs DEFINITIONS ::= BEGIN Pair ::= SEQUENCE { number INTEGER, last BOOLEAN } END";
//! let schema = Schema::compile(&[("pairs.asn1", text)], "Pair")?;
//! let pair = schema.read(Rules::Der, &[0x30, 0x06, 0x02, 0x01, 0x05, 0x01, 0x01, 0xFF])?;
//! assert_eq!(pair["number"].as_i64(), Some(5));
//! assert_eq!(pair["last"].as_bool(), Some(true));
//! # Ok(())
//! # }
//! ```
//!
//! References keep what the functions of the archive require of a caller: that no pointer is null,
//! and that what is written overlaps nothing else. No proof covers this file.
#![warn(missing_docs)]

mod extension;
mod modules;
mod pem;
mod schema;

pub use extension::extension;
pub use pem::{name_text, pem, PemBlock, PemBlocks};
pub use schema::{Kind, Located, Schema, Value, Walk};

use std::error;
use std::fmt;
use std::iter::FusedIterator;

/// The version of this crate, which is that of the library it is written for.
pub const VERSION: &str = env!("CARGO_PKG_VERSION");

/// Why a call has no result.
///
/// `Refused` is about the octets, or the JSON, that a call is given. All others, except `OutOfMemory`,
/// are about what the program has: modules, the name of a type, a path, or a schema.
///
/// ```
/// use soqavise::{Error, Rules, Schema};
///
/// let text = "Pairs DEFINITIONS ::= BEGIN Pair ::= SEQUENCE { number INTEGER, last BOOLEAN } END";
/// let pair = Schema::compile(&[("pairs.asn1", text)], "Pair").expect("a schema");
/// match pair.find(Rules::Der, &[0x30, 0x06, 0x02, 0x01, 0x05, 0x01, 0x01, 0xFF], "numbr") {
///     Ok(part) => println!("{part:?}"),
///     Err(Error::Refused { path, offset, .. }) => println!("{path} at {offset} isn't read"),
///     Err(Error::UnknownPath { name, .. }) => assert_eq!(name, "numbr"),
///     Err(error) => panic!("{error}"),
/// }
/// ```
#[derive(Clone, Debug, PartialEq, Eq)]
#[non_exhaustive]
pub enum Error {
    /// The octets aren't what the call asks for.
    Refused {
        /// The kind of the error (`soq_kind` of soqavise.h); 0 if the call doesn't say it.
        kind: u32,
        /// The path to the part of a message or of JSON, as `tbsCertificate.validity`; empty if it is
        /// the whole, or the call doesn't say it.
        path: String,
        /// Where the part begins that isn't read, or the block of PEM; of another call without a
        /// schema, where octets follow a value.
        offset: usize,
        /// The rules, and what is wrong.
        text: String,
    },
    /// Modules have faults.
    Module {
        /// The name of the module's text, as the call had it, of the first fault. It is empty where no
        /// line has the fault.
        name: String,
        /// The line of the first fault, counted from 1, or 0.
        line: u32,
        /// Its column, counted from 1, or 0.
        column: u32,
        /// A line `NAME:LINE:COLUMN: what is wrong` for each fault.
        text: String,
    },
    /// No module has the type.
    UnknownType {
        /// The name that the call had.
        name: String,
        /// What is wrong with it.
        text: String,
    },
    /// No value of the type has a part at the path, or it isn't a path.
    UnknownPath {
        /// The path that the call had.
        path: String,
        /// Its first step that is wrong: `subjet` of `tbsCertificate.subjet[0]`.
        name: String,
        /// What is wrong with it.
        text: String,
    },
    /// The octets of a schema are damaged, or those of another version of the library.
    BadSchema {
        /// What is wrong with them.
        text: String,
    },
    /// The library that is linked doesn't take the call, as one of another version.
    WrongCall {
        /// The status that it returned (`soq_status` of soqavise.h).
        status: u32,
    },
    /// An allocation failed.
    OutOfMemory,
}

impl fmt::Display for Error {
    fn fmt(&self, f: &mut fmt::Formatter<'_>) -> fmt::Result {
        match self {
            Error::Refused { text, .. } | Error::Module { text, .. } | Error::BadSchema { text } => f.write_str(text),
            Error::UnknownType { name, text } => write!(f, "{name}: {text}"),
            Error::UnknownPath { path, name, text } => write!(f, "{path}: {text}: {name}"),
            Error::WrongCall { status } => write!(f, "the library doesn't take this call (soq_status {status})"),
            Error::OutOfMemory => f.write_str("out of memory"),
        }
    }
}

impl error::Error for Error {}

/// The encoding rules.
#[derive(Clone, Copy, Debug, PartialEq, Eq)]
#[repr(u32)]
pub enum Rules {
    /// Basic encoding rules.
    Ber = 0,
    /// Canonical encoding rules.
    Cer = 1,
    /// Distinguished encoding rules.
    Der = 2,
}

/// The types (`soq_type` of soqavise.h), each with its name in X.680 or in its standard.
#[allow(missing_docs)]
#[derive(Clone, Copy, Debug, PartialEq, Eq)]
#[repr(u32)]
pub enum Type {
    Bool = 0,
    Integer = 1,
    Bits = 2,
    Octets = 3,
    Null = 4,
    Oid = 5,
    Utf8 = 6,
    Printable = 7,
    Ia5 = 8,
    UtcTime = 9,
    GenTime = 10,
    Any = 11,
    Certificate = 12,
    Crl = 13,
    Request = 14,
    Cms = 15,
    Snmp = 16,
    Ldap = 17,
}

/// The two types of times.
#[derive(Clone, Copy, Debug, PartialEq, Eq)]
#[repr(u32)]
pub enum TimeType {
    /// UTCTime, whose years are from 1970 to 2069. In certificates 50 to 69 mean 1950 to 1969.
    Utc = 9,
    /// GeneralizedTime.
    Generalized = 10,
}

/// One whole encoding, and what follows it.
#[derive(Clone, Copy, Debug, PartialEq, Eq)]
pub struct Encoding<'a> {
    /// The class of its tag: 0 is universal, 1 application, 2 context-specific, 3 private.
    pub tag_class: u32,
    /// The number of its tag.
    pub tag_number: u32,
    /// Whether it is constructed: its contents are encodings again.
    pub is_constructed: bool,
    /// Its contents, without end-of-contents octets.
    pub contents: &'a [u8],
    /// All of its octets.
    pub whole: &'a [u8],
    /// What follows it.
    pub rest: &'a [u8],
}

/// An instant, by its fields in UTC.
///
/// Its text has a fraction if it isn't 0, and a leap second is the second 60.
///
/// ```
/// let time = soqavise::time(soqavise::TimeType::Utc, soqavise::Rules::Der, b"\x17\x0d361121130721Z");
/// assert_eq!(time.map(|it| it.to_string()).as_deref(), Ok("2036-11-21 13:07:21"));
/// ```
#[derive(Clone, Copy, Debug, Default, PartialEq, Eq)]
#[repr(C)]
pub struct Time {
    /// The year.
    pub year: i32,
    /// The month, from 1.
    pub month: u32,
    /// The day, from 1.
    pub day: u32,
    /// The hour.
    pub hour: u32,
    /// The minute.
    pub minute: u32,
    /// The second.
    pub second: u32,
    /// The nanoseconds. From 1,000,000,000 on they are in a leap second after the second 59.
    pub nanosecond: u32,
}

impl fmt::Display for Time {
    fn fmt(&self, f: &mut fmt::Formatter<'_>) -> fmt::Result {
        let Time { year, month, day, hour, minute, .. } = self;
        let second = self.second + self.nanosecond / 1_000_000_000;
        write!(f, "{year:04}-{month:02}-{day:02} {hour:02}:{minute:02}:{second:02}")?;
        match self.nanosecond % 1_000_000_000 {
            0 => Ok(()),
            fraction => f.write_str(format!(".{fraction:09}").trim_end_matches('0')),
        }
    }
}

/// An instant, as seconds since 1970.
#[derive(Clone, Copy, Debug, Default, PartialEq, Eq)]
#[repr(C)]
pub struct Instant {
    /// The seconds since the start of 1970 in UTC, without leap seconds.
    pub seconds: i64,
    /// The nanoseconds. From 1,000,000,000 on they are in a leap second after the second.
    pub nanosecond: u32,
}

#[derive(Default)]
#[repr(C)]
struct Passed {
    consumed: usize,
    steps: usize,
}

#[derive(Default)]
#[repr(C)]
struct Fault {
    kind: u32,
    offset: usize,
    text_length: usize,
}

#[derive(Default)]
#[repr(C)]
struct Parts {
    tag_class: u32,
    tag_number: u32,
    constructed: u32,
    header: usize,
    contents: usize,
    length: usize,
}

unsafe extern "C" {
    fn soq_proved_skip(rules: u32, octets: *const u8, length: usize, passed: &mut Passed) -> u32;
    fn soq_proved_check(of: u32, octets: *const u8, length: usize) -> u32;
    fn soq_proved_normalise(
        of: u32,
        rules: u32,
        octets: *const u8,
        length: usize,
        buffer: *mut u8,
        capacity: usize,
        needed: &mut usize,
    ) -> u32;
    fn soq_proved_decode_error(
        of: u32,
        rules: u32,
        octets: *const u8,
        length: usize,
        fault: &mut Fault,
        text: *mut u8,
        capacity: usize,
    ) -> u32;
    fn soq_proved_next(rules: u32, octets: *const u8, length: usize, parts: &mut Parts) -> u32;
    fn soq_proved_integer_i64(rules: u32, octets: *const u8, length: usize, number: &mut i64) -> u32;
    fn soq_proved_integer_octets(
        rules: u32,
        octets: *const u8,
        length: usize,
        buffer: *mut u8,
        capacity: usize,
        needed: &mut usize,
    ) -> u32;
    fn soq_proved_oid_text(
        rules: u32,
        octets: *const u8,
        length: usize,
        buffer: *mut u8,
        capacity: usize,
        needed: &mut usize,
    ) -> u32;
    fn soq_proved_time(of: u32, rules: u32, octets: *const u8, length: usize, time: &mut Time) -> u32;
}

// The statuses that a function returns (`soq_status` of soqavise.h).
const OK: u32 = 0;
const REFUSED: u32 = 1;
const OUT_OF_MEMORY: u32 = 2;
const BUFFER_TOO_SMALL: u32 = 3;
const UNKNOWN_TYPE: u32 = 4;
const BAD_SCHEMA: u32 = 6;
const UNKNOWN_PATH: u32 = 7;
const ABSENT: u32 = 8;

/// Returns what a status says; octets that are refused have this text.
fn answer(status: u32, text: &str) -> Result<(), Error> {
    match status {
        OK => Ok(()),
        OUT_OF_MEMORY => Err(Error::OutOfMemory),
        REFUSED => Err(refused(text)),
        status => Err(Error::WrongCall { status }),
    }
}

fn refused(text: &str) -> Error {
    Error::Refused {
        kind: 0,
        path: String::new(),
        offset: 0,
        text: text.to_owned(),
    }
}

/// Calls a function that writes to a buffer, again with a larger one if it asks for that. Returns
/// what it wrote.
fn written(
    capacity: usize,
    text: &str,
    mut call: impl FnMut(&mut [u8], &mut usize) -> u32,
) -> Result<Vec<u8>, Error> {
    let mut buffer = vec![0; capacity];
    loop {
        let mut needed = 0;
        match call(&mut buffer, &mut needed) {
            BUFFER_TOO_SMALL => buffer.resize(needed, 0),
            status => {
                answer(status, text)?;
                buffer.truncate(needed);
                return Ok(buffer);
            }
        }
    }
}

/// Returns octets that end with a zero as text, without the zero.
fn text_of(octets: &[u8]) -> String {
    let (_zero, text) = octets.split_last().unwrap_or((&0, &[]));
    String::from_utf8_lossy(text).into_owned()
}

/// Returns the fields of the time that the octets are, of the type with this universal tag.
fn time_of_instant(number: u32, rules: Rules, octets: &[u8]) -> Option<Time> {
    match number {
        23 => time(TimeType::Utc, rules, octets).ok(),
        24 => time(TimeType::Generalized, rules, octets).ok(),
        _ => None,
    }
}

/// Returns the length of the one whole encoding at the front of the octets, of any type.
///
/// ```
/// use soqavise::{skip, Rules};
///
/// assert_eq!(skip(Rules::Ber, &[0x30, 0x80, 0x05, 0x00, 0x00, 0x00, 0x05]), Ok(6));
/// ```
///
/// # Errors
/// `Refused` if the octets don't begin with one.
pub fn skip(rules: Rules, octets: &[u8]) -> Result<usize, Error> {
    let mut passed = Passed::default();
    let (at, length) = (octets.as_ptr(), octets.len());
    let status = unsafe { soq_proved_skip(rules as u32, at, length, &mut passed) };
    answer(status, "the octets don't begin with a whole encoding")?;
    Ok(passed.consumed)
}

/// Checks that the octets are the one DER encoding of a value of the type. Open types aren't looked
/// into: the parameters of an algorithm, the values in a name, the filter of a search of LDAP.
///
/// ```
/// use soqavise::{check, Error, Type};
///
/// assert_eq!(check(Type::Bool, &[0x01, 0x01, 0xFF]), Ok(()));
/// assert!(matches!(check(Type::Bool, &[0x01, 0x01, 0x05]), Err(Error::Refused { .. }))); // X.690 11.1
/// ```
///
/// # Errors
/// `Refused` with the kind of the error and its text if they aren't.
pub fn check(of: Type, octets: &[u8]) -> Result<(), Error> {
    let status = unsafe { soq_proved_check(of as u32, octets.as_ptr(), octets.len()) };
    if let Err(error) = answer(status, "not the DER encoding of its value") {
        check_by(of, Rules::Der, octets)?;
        return Err(error);
    }
    Ok(())
}

/// Returns the DER octets of the value that all of the octets encode.
///
/// ```
/// use soqavise::{normalise, Rules, Type};
///
/// assert_eq!(normalise(Type::Bool, Rules::Ber, &[0x01, 0x01, 0x05]), Ok(vec![0x01, 0x01, 0xFF]));
/// ```
///
/// # Errors
/// `Refused` if they aren't one value of the type under these rules, or it has no DER encoding.
pub fn normalise(of: Type, rules: Rules, octets: &[u8]) -> Result<Vec<u8>, Error> {
    let (at, length) = (octets.as_ptr(), octets.len());
    let normal = written(length, "its value has no DER encoding", |buffer, needed| unsafe {
        let (to, capacity) = (buffer.as_mut_ptr(), buffer.len());
        soq_proved_normalise(of as u32, rules as u32, at, length, to, capacity, needed)
    });
    if let Err(Error::Refused { .. }) = normal {
        check_by(of, rules, octets)?;
    }
    normal
}

/// Checks that the octets are exactly one value of the type under these rules.
///
/// # Errors
/// `Refused` with the kind of the error, the offset of octets that follow a value, and the text.
pub fn check_by(of: Type, rules: Rules, octets: &[u8]) -> Result<(), Error> {
    let (mut fault, mut text) = (Fault::default(), [0; 512]);
    let (at, length) = (octets.as_ptr(), octets.len());
    let status = unsafe {
        let (to, capacity) = (text.as_mut_ptr(), text.len());
        soq_proved_decode_error(of as u32, rules as u32, at, length, &mut fault, to, capacity)
    };
    match answer(status, "") {
        Err(Error::Refused { .. }) => Err(Error::Refused {
            kind: fault.kind,
            path: String::new(),
            offset: fault.offset,
            text: String::from_utf8_lossy(&text[..fault.text_length.min(text.len() - 1)]).into_owned(),
        }),
        other => other,
    }
}

/// Returns the parts of the one whole encoding at the front of the octets, of any type. As in an
/// open type, its header may be in any number of octets.
///
/// # Errors
/// `Refused` if the octets don't begin with one.
pub fn next(rules: Rules, octets: &[u8]) -> Result<Encoding<'_>, Error> {
    let mut parts = Parts::default();
    let (at, length) = (octets.as_ptr(), octets.len());
    let status = unsafe { soq_proved_next(rules as u32, at, length, &mut parts) };
    answer(status, "the octets don't begin with a whole encoding")?;
    let (whole, rest) = octets.split_at(parts.length);
    Ok(Encoding {
        tag_class: parts.tag_class,
        tag_number: parts.tag_number,
        is_constructed: parts.constructed != 0,
        contents: &whole[parts.header..][..parts.contents],
        whole,
        rest,
    })
}

/// Returns the encodings of which the octets are made, such as those in constructed contents. After
/// an error there are no more.
///
/// ```
/// use soqavise::{encodings, Error, Rules};
///
/// let octets = [0x01, 0x01, 0xFF, 0x05, 0x00];
/// let tags: Result<Vec<u32>, Error> = encodings(Rules::Der, &octets).map(|it| Ok(it?.tag_number)).collect();
/// assert_eq!(tags, Ok(vec![1, 5]));
/// ```
pub fn encodings(rules: Rules, octets: &[u8]) -> Encodings<'_> {
    Encodings { rules, left: octets }
}

/// The iterator that [`encodings`] returns.
#[derive(Clone, Debug)]
pub struct Encodings<'a> {
    rules: Rules,
    left: &'a [u8],
}

impl<'a> Iterator for Encodings<'a> {
    type Item = Result<Encoding<'a>, Error>;

    fn next(&mut self) -> Option<Self::Item> {
        if self.left.is_empty() {
            return None;
        }
        let found = next(self.rules, self.left);
        self.left = found.as_ref().map_or(&[], |it| it.rest);
        Some(found)
    }
}

impl FusedIterator for Encodings<'_> {}

/// Returns the number of the INTEGER that all of the octets are. Its tag may be any.
///
/// ```
/// assert_eq!(soqavise::integer(soqavise::Rules::Der, &[0x02, 0x02, 0x01, 0x00]), Ok(256));
/// ```
///
/// # Errors
/// `Refused` if they aren't one, or 64 bits don't hold its number.
pub fn integer(rules: Rules, octets: &[u8]) -> Result<i64, Error> {
    let mut number = 0;
    let (at, length) = (octets.as_ptr(), octets.len());
    let status = unsafe { soq_proved_integer_i64(rules as u32, at, length, &mut number) };
    answer(status, "the octets aren't one INTEGER of 64 bits")?;
    Ok(number)
}

/// Returns the number of the INTEGER that all of the octets are, of any length, in two's complement
/// in the fewest octets. Its tag may be any.
///
/// # Errors
/// `Refused` if they aren't one.
pub fn integer_octets(rules: Rules, octets: &[u8]) -> Result<Vec<u8>, Error> {
    let (at, length) = (octets.as_ptr(), octets.len());
    written(length, "the octets aren't one INTEGER", |buffer, needed| unsafe {
        let (to, capacity) = (buffer.as_mut_ptr(), buffer.len());
        soq_proved_integer_octets(rules as u32, at, length, to, capacity, needed)
    })
}

/// Returns the OBJECT IDENTIFIER that all of the octets are, as `1.2.840`. Its tag may be any.
///
/// ```
/// let text = soqavise::identifier(soqavise::Rules::Der, &[0x06, 0x03, 0x55, 0x1D, 0x11]);
/// assert_eq!(text.as_deref(), Ok("2.5.29.17"));
/// ```
///
/// # Errors
/// `Refused` if they aren't one.
pub fn identifier(rules: Rules, octets: &[u8]) -> Result<String, Error> {
    let (at, length) = (octets.as_ptr(), octets.len());
    let text = written(64, "the octets aren't one OBJECT IDENTIFIER", |buffer, needed| unsafe {
        let (to, capacity) = (buffer.as_mut_ptr(), buffer.len());
        soq_proved_oid_text(rules as u32, at, length, to, capacity, needed)
    })?;
    Ok(text_of(&text))
}

/// Returns the instant of the UTCTime or the GeneralizedTime that all of the octets are. Its tag may
/// be any.
///
/// # Errors
/// `Refused` if they aren't one.
pub fn time(of: TimeType, rules: Rules, octets: &[u8]) -> Result<Time, Error> {
    let mut time = Time::default();
    let (at, length) = (octets.as_ptr(), octets.len());
    let status = unsafe { soq_proved_time(of as u32, rules as u32, at, length, &mut time) };
    answer(status, "the octets aren't one time")?;
    Ok(time)
}
