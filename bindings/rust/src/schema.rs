//! Values of types of ASN.1 modules, which are read when the program runs.

use crate::{answer, modules, text_of, time_of_instant, Error, Instant, Rules};
use crate::{ABSENT, BAD_SCHEMA, BUFFER_TOO_SMALL, OK, REFUSED, UNKNOWN_PATH, UNKNOWN_TYPE};
use std::borrow::Cow;
use std::iter::FusedIterator;
use std::ops::Index;
use std::slice;

#[repr(C)]
struct Texts<'a> {
    name: *const u8,
    name_length: usize,
    text: *const u8,
    text_length: usize,
    of: std::marker::PhantomData<&'a str>,
}

#[derive(Clone, Copy, Default)]
#[repr(C)]
struct Reason {
    kind: u32,
    line: u32,
    column: u32,
    offset: usize,
    path_length: usize,
    text_length: usize,
}

#[derive(Clone, Copy, Debug, Default, PartialEq, Eq)]
#[repr(C)]
struct Extent {
    offset: usize,
    header: usize,
    contents: usize,
    length: usize,
    tag_class: u32,
    tag_number: u32,
    constructed: u32,
    kind: u32,
}

#[derive(Clone, Copy, Default)]
#[repr(C)]
struct Listed {
    part: Extent,
    depth: usize,
    index: usize,
    name: usize,
    name_length: usize,
}

#[derive(Default)]
#[repr(C)]
struct Counts {
    parts: usize,
    names: usize,
}

#[rustfmt::skip]
unsafe extern "C" {
    fn soq_proved_compile(texts: *const Texts<'_>, count: usize, name: *const u8, name_length: usize, buffer: *mut u8, capacity: usize, needed: &mut usize, reason: &mut Reason, text: *mut u8, text_capacity: usize) -> u32;
    fn soq_proved_check_by(schema: *const u8, schema_length: usize, rules: u32, open_types: u32, octets: *const u8, length: usize, reason: &mut Reason, text: *mut u8, text_capacity: usize) -> u32;
    fn soq_proved_find(schema: *const u8, schema_length: usize, rules: u32, octets: *const u8, length: usize, path: *const u8, path_length: usize, part: &mut Extent, reason: &mut Reason, text: *mut u8, text_capacity: usize) -> u32;
    fn soq_proved_parts(schema: *const u8, schema_length: usize, rules: u32, octets: *const u8, length: usize, parts: *mut Listed, count: usize, names: *mut u8, names_capacity: usize, counts: &mut Counts, reason: &mut Reason, text: *mut u8, text_capacity: usize) -> u32;
    fn soq_proved_json(schema: *const u8, schema_length: usize, rules: u32, lines: u32, octets: *const u8, length: usize, buffer: *mut u8, capacity: usize, needed: &mut usize, reason: &mut Reason, text: *mut u8, text_capacity: usize) -> u32;
    fn soq_proved_encode(schema: *const u8, schema_length: usize, rules: u32, json: *const u8, length: usize, buffer: *mut u8, capacity: usize, needed: &mut usize, reason: &mut Reason, text: *mut u8, text_capacity: usize) -> u32;
    fn soq_proved_normalise_by(schema: *const u8, schema_length: usize, rules: u32, octets: *const u8, length: usize, buffer: *mut u8, capacity: usize, needed: &mut usize, reason: &mut Reason, text: *mut u8, text_capacity: usize) -> u32;
    fn soq_proved_seconds(of: u32, rules: u32, octets: *const u8, length: usize, instant: &mut Instant) -> u32;
    fn soq_proved_utf8(kind: u32, rules: u32, octets: *const u8, length: usize, buffer: *mut u8, capacity: usize, needed: &mut usize) -> u32;
    fn soq_proved_bits(rules: u32, octets: *const u8, length: usize, buffer: *mut u8, capacity: usize, needed: &mut usize, bits: &mut usize) -> u32;
}

/// The most octets of a text of an error that are kept.
const TEXT: usize = 4096;

/// Returns the text of an error, and the path that it begins with.
fn said(reason: &Reason, text: &[u8]) -> (String, String) {
    let text = &text[..reason.text_length.min(text.len() - 1)];
    let path = &text[..reason.path_length.min(text.len())];
    (String::from_utf8_lossy(text).into_owned(), String::from_utf8_lossy(path).into_owned())
}

/// Returns the error of a call by a schema, unless its status is that of success.
fn told(status: u32, reason: &Reason, text: &[u8]) -> Result<(), Error> {
    let (text, path) = said(reason, text);
    match status {
        REFUSED => Err(Error::Refused { kind: reason.kind, path, offset: reason.offset, text }),
        BAD_SCHEMA => Err(Error::BadSchema { text }),
        status => answer(status, ""),
    }
}

/// Returns the error of modules, and of the name of a type that is asked for.
fn told_of_modules(of: &str, status: u32, reason: &Reason, text: &[u8]) -> Result<(), Error> {
    let (text, _) = said(reason, text);
    let Reason { line, column, .. } = *reason;
    match status {
        REFUSED => {
            let place = text.split_once(&format!(":{line}:{column}: ")).filter(|_| line > 0);
            let name = place.map_or("", |(name, _)| name).to_owned();
            Err(Error::Module { name, line, column, text })
        }
        UNKNOWN_TYPE => Err(Error::UnknownType { name: of.to_owned(), text }),
        status => answer(status, ""),
    }
}

/// Calls a function that writes octets and a reason, again with a larger buffer if it asks for that.
fn made(
    capacity: usize,
    error: impl Fn(u32, &Reason, &[u8]) -> Result<(), Error>,
    call: impl Fn(&mut [u8], &mut usize, &mut Reason, &mut [u8]) -> u32,
) -> Result<Vec<u8>, Error> {
    let (mut buffer, mut text) = (vec![0; capacity], vec![0; TEXT]);
    loop {
        let (mut needed, mut reason) = (0, Reason::default());
        match call(&mut buffer, &mut needed, &mut reason, &mut text) {
            BUFFER_TOO_SMALL => buffer.resize(needed, 0),
            status => {
                error(status, &reason, &text)?;
                buffer.truncate(needed);
                return Ok(buffer);
            }
        }
    }
}

/// A type of ASN.1 modules, with the types that it is made of.
#[derive(Clone, Debug, PartialEq, Eq)]
pub struct Schema {
    octets: Vec<u8>,
}

impl Schema {
    /// Returns the schema of a type of the modules of standards that are built in: `TYPE`, the first of
    /// this name, or `MODULE.TYPE`.
    ///
    /// ```
    /// use soqavise::{Rules, Schema};
    ///
    /// # fn main() -> Result<(), soqavise::Error> {
    /// let schema = Schema::named("LDAPMessage")?;
    /// let octets = [0x30, 0x05, 0x02, 0x01, 0x03, 0x42, 0x00]; // an unbindRequest (RFC 4511 4.3)
    /// let message = schema.read(Rules::Der, &octets)?;
    /// assert_eq!(message["messageID"].as_i64(), Some(3));
    /// assert_eq!(message["protocolOp"].parts()[0].name(), "unbindRequest");
    /// # Ok(())
    /// # }
    /// ```
    ///
    /// # Errors
    /// `UnknownType` if no module has such a type, or the crate was built without the modules.
    pub fn named(of: &str) -> Result<Schema, Error> {
        if modules::are_missing() {
            let text = "the crate was built without the modules of standards (SOQAVISE_MODULES may name their folder)";
            return Err(Error::UnknownType { name: of.to_owned(), text: text.to_owned() });
        }
        Schema::compile(&[], of)
    }

    /// Reads modules, each with the name that faults have for it, and returns the schema of a type:
    /// `TYPE`, the first of this name, or `MODULE.TYPE`.
    ///
    /// They may import from the modules of standards that are built in. A type that they don't have is
    /// looked for there, and one of them with the name of a built-in module takes its place.
    ///
    /// ```
    /// use soqavise::{Error, Schema};
    ///
    /// let text = "M DEFINITIONS ::= BEGIN\nT ::= SEQUENCE { part Missing }\nEND";
    /// let Err(Error::Module { name, line, column, .. }) = Schema::compile(&[("m.asn1", text)], "T") else {
    ///     panic!("Missing isn't defined");
    /// };
    /// assert_eq!((name.as_str(), line, column), ("m.asn1", 2, 23));
    /// ```
    ///
    /// # Errors
    /// `Module` with the place of the first fault of the modules, and a line for each; `UnknownType` if
    /// no module has such a type.
    pub fn compile(modules: &[(&str, &str)], of: &str) -> Result<Schema, Error> {
        let texts: Vec<Texts<'_>> = modules
            .iter()
            .copied()
            .chain(modules::needed(modules, of))
            .map(|(name, text)| Texts {
                name: name.as_ptr(),
                name_length: name.len(),
                text: text.as_ptr(),
                text_length: text.len(),
                of: std::marker::PhantomData,
            })
            .collect();
        let error = |status, reason: &Reason, text: &[u8]| told_of_modules(of, status, reason, text);
        let octets = made(1 << 14, error, |buffer, needed, reason, text| unsafe {
            let (to, capacity) = (buffer.as_mut_ptr(), buffer.len());
            soq_proved_compile(texts.as_ptr(), texts.len(), of.as_ptr(), of.len(), to, capacity, needed, reason, text.as_mut_ptr(), text.len())
        })?;
        Ok(Schema { octets })
    }

    /// Returns the schema with these octets, which [`as_octets`](Schema::as_octets) returned. Each
    /// call checks them, and returns `BadSchema` if they are damaged.
    pub fn from_octets(octets: Vec<u8>) -> Schema {
        Schema { octets }
    }

    /// Returns the octets of the schema, in a form of the library's own.
    pub fn as_octets(&self) -> &[u8] {
        &self.octets
    }

    /// Checks that all of the octets are one value of the type. By DER they are then its only
    /// encoding, and the octets inside open types are well formed too.
    ///
    /// # Errors
    /// `Refused` with the path to the part, where it begins, and why it isn't read.
    pub fn check(&self, rules: Rules, octets: &[u8]) -> Result<(), Error> {
        self.check_with(rules, 1, octets)
    }

    fn check_with(&self, rules: Rules, open_types: u32, octets: &[u8]) -> Result<(), Error> {
        let (mut reason, mut text) = (Reason::default(), vec![0; TEXT]);
        let (schema, count) = (self.octets.as_ptr(), self.octets.len());
        let (at, length) = (octets.as_ptr(), octets.len());
        let status = unsafe { soq_proved_check_by(schema, count, rules as u32, open_types, at, length, &mut reason, text.as_mut_ptr(), text.len()) };
        told(status, &reason, &text)
    }

    /// Returns the value that all of the octets are. Its parts borrow from them.
    ///
    /// # Errors
    /// As [`check`](Schema::check), except that open types aren't looked into.
    pub fn read<'a>(&self, rules: Rules, octets: &'a [u8]) -> Result<Value<'a>, Error> {
        let (parts, names) = self.parts(rules, octets)?;
        if parts[0].part.length != octets.len() {
            // It is refused for the octets that follow.
            self.check_with(rules, 0, octets)?;
        }
        let mut values = parts.iter().map(|it| Value::of(it, rules, octets, &names)).rev().collect();
        Ok(nested(&mut values, &mut parts.iter().map(|it| it.depth).rev().collect()))
    }

    fn parts(&self, rules: Rules, octets: &[u8]) -> Result<(Vec<Listed>, Vec<u8>), Error> {
        let (schema, count) = (self.octets.as_ptr(), self.octets.len());
        let (mut parts, mut names, mut text) = (vec![Listed::default(); 256], vec![0; 4096], vec![0; TEXT]);
        loop {
            let (mut counts, mut reason) = (Counts::default(), Reason::default());
            let (at, length) = (octets.as_ptr(), octets.len());
            let status = unsafe {
                soq_proved_parts(schema, count, rules as u32, at, length, parts.as_mut_ptr(), parts.len(), names.as_mut_ptr(), names.len(), &mut counts, &mut reason, text.as_mut_ptr(), text.len())
            };
            let is_done = status != BUFFER_TOO_SMALL;
            if is_done {
                told(status, &reason, &text)?;
            }
            parts.resize(counts.parts, Listed::default());
            names.resize(counts.names, 0);
            if is_done {
                return Ok((parts, names));
            }
        }
    }

    /// Returns the part to which a path leads, as `tbsCertificate.extensions[1].extnValue`, or `None`
    /// if the value doesn't have it. Parts after it aren't read, nor those inside it: a CHOICE is of
    /// the kind [`Kind::Choice`], and its tag, or a path to an alternative, says which is chosen.
    ///
    /// ```
    /// use soqavise::{Rules, Schema};
    ///
    /// # fn main() -> Result<(), soqavise::Error> {
    /// let text = "M DEFINITIONS IMPLICIT TAGS ::= BEGIN T ::= CHOICE { low [0] NULL, high [1] INTEGER } END";
    /// let schema = Schema::compile(&[("m.asn1", text)], "T")?;
    /// let octets = [0x81, 0x01, 0x07];
    /// assert_eq!(schema.find(Rules::Der, &octets, "")?.map(|it| it.tag_number()), Some(1));
    /// assert_eq!(schema.find(Rules::Der, &octets, "high")?.and_then(|it| it.as_u64()), Some(7));
    /// assert_eq!(schema.find(Rules::Der, &octets, "low")?, None);
    /// # Ok(())
    /// # }
    /// ```
    ///
    /// # Errors
    /// `Refused` if a part before it can't be read; `UnknownPath` if no value of the type has such a
    /// part.
    pub fn find<'a>(&self, rules: Rules, octets: &'a [u8], path: &str) -> Result<Option<Value<'a>>, Error> {
        let (mut part, mut reason, mut text) = (Extent::default(), Reason::default(), vec![0; TEXT]);
        match self.search(rules, octets, path, &mut part, &mut reason, &mut text) {
            ABSENT => return Ok(None),
            UNKNOWN_PATH => {
                let (text, _) = said(&reason, &text);
                let name = self.unknown_step(path).to_owned();
                return Err(Error::UnknownPath { path: path.to_owned(), name, text });
            }
            status => told(status, &reason, &text)?,
        }
        let found = Listed { part, ..Listed::default() };
        Ok(Some(Value::of(&found, rules, octets, &[])))
    }

    fn search(&self, rules: Rules, octets: &[u8], path: &str, part: &mut Extent, reason: &mut Reason, text: &mut [u8]) -> u32 {
        let (schema, count) = (self.octets.as_ptr(), self.octets.len());
        let (at, length) = (octets.as_ptr(), octets.len());
        unsafe { soq_proved_find(schema, count, rules as u32, at, length, path.as_ptr(), path.len(), part, reason, text.as_mut_ptr(), text.len()) }
    }

    /// Returns the first step of an unknown path with which it is unknown. A path is looked up before
    /// any octet is read, so there are none.
    fn unknown_step<'p>(&self, path: &'p str) -> &'p str {
        let ends: Vec<usize> = path.match_indices(['.', '[']).map(|(at, _)| at).chain([path.len()]).collect();
        let known = ends.partition_point(|end| {
            let (mut part, mut reason) = (Extent::default(), Reason::default());
            self.search(Rules::Der, &[], &path[..*end], &mut part, &mut reason, &mut [0]) != UNKNOWN_PATH
        });
        let start = known.checked_sub(1).map_or(0, |last| ends[last]);
        let step = &path[start..ends.get(known).copied().unwrap_or(path.len())];
        match step.strip_prefix('.') {
            Some(name) if start > 0 && !name.is_empty() => name,
            _ => step,
        }
    }

    /// Returns the value that all of the octets are as JSON (X.697).
    ///
    /// # Errors
    /// `Refused` if the octets aren't a value of the type, or it has no JSON.
    pub fn to_json(&self, rules: Rules, octets: &[u8]) -> Result<String, Error> {
        let (schema, count) = (self.octets.as_ptr(), self.octets.len());
        let (at, length) = (octets.as_ptr(), octets.len());
        let json = made(4 * length + 256, told, |buffer, needed, reason, text| unsafe {
            let (to, capacity) = (buffer.as_mut_ptr(), buffer.len());
            soq_proved_json(schema, count, rules as u32, 0, at, length, to, capacity, needed, reason, text.as_mut_ptr(), text.len())
        })?;
        Ok(text_of(&json))
    }

    /// Returns the octets, by these rules, of the value that a JSON text is.
    ///
    /// # Errors
    /// `Refused` with the path to the part of the JSON that isn't of its type.
    pub fn from_json(&self, rules: Rules, json: &str) -> Result<Vec<u8>, Error> {
        let (schema, count) = (self.octets.as_ptr(), self.octets.len());
        made(json.len(), told, |buffer, needed, reason, text| unsafe {
            let (to, capacity) = (buffer.as_mut_ptr(), buffer.len());
            soq_proved_encode(schema, count, rules as u32, json.as_ptr(), json.len(), to, capacity, needed, reason, text.as_mut_ptr(), text.len())
        })
    }

    /// Returns the DER octets of the value that all of the octets are.
    ///
    /// # Errors
    /// `Refused` if they aren't one value of the type by these rules, or it has no DER encoding.
    pub fn normalise(&self, rules: Rules, octets: &[u8]) -> Result<Vec<u8>, Error> {
        let (schema, count) = (self.octets.as_ptr(), self.octets.len());
        let (at, length) = (octets.as_ptr(), octets.len());
        made(length, told, |buffer, needed, reason, text| unsafe {
            let (to, capacity) = (buffer.as_mut_ptr(), buffer.len());
            soq_proved_normalise_by(schema, count, rules as u32, at, length, to, capacity, needed, reason, text.as_mut_ptr(), text.len())
        })
    }
}

/// Takes the last of the values with those inside it, which precede it in the list.
fn nested<'a>(values: &mut Vec<Value<'a>>, depths: &mut Vec<usize>) -> Value<'a> {
    let (mut value, depth) = (values.pop().expect("a part"), depths.pop().expect("a depth"));
    while depths.last().is_some_and(|next| *next > depth) {
        let part = nested(values, depths);
        value.parts.push(part);
    }
    value
}

/// The kind of a part's type (`soq_part_kind` of soqavise.h).
#[allow(missing_docs)]
#[derive(Clone, Copy, Debug, PartialEq, Eq)]
#[non_exhaustive]
pub enum Kind {
    Null,
    Boolean,
    Integer,
    BitString,
    OctetString,
    ObjectIdentifier,
    RelativeIdentifier,
    Real,
    Enumerated,
    String,
    Time,
    Date,
    Sequence,
    SequenceOf,
    Set,
    SetOf,
    Choice,
    Tagged,
    Any,
    Unknown,
    /// There is no such part.
    Absent,
}

/// A part of a message, with those inside it. It borrows from the message.
///
/// It is indexed as a value of `serde_json` is: by the name of a component or of the alternative
/// that is chosen, or by the index of an element. A part that isn't there is one of the kind
/// [`Kind::Absent`]. Explicit tags are gone through. A loop over a reference goes over its parts.
///
/// ```
/// use soqavise::{Kind, Rules, Schema};
///
/// # fn main() -> Result<(), soqavise::Error> {
/// let text = "M DEFINITIONS ::= BEGIN T ::= SEQUENCE { key OCTET STRING, flags SEQUENCE OF BOOLEAN } END";
/// let schema = Schema::compile(&[("m.asn1", text)], "T")?;
/// let octets = [0x30, 0x0B, 0x04, 0x01, 0x61, 0x30, 0x06, 0x01, 0x01, 0xFF, 0x01, 0x01, 0x00];
/// let value = schema.read(Rules::Der, &octets)?;
/// assert_eq!(value["key"].as_octets().as_deref(), Some(&b"a"[..]));
/// assert_eq!(value["flags"].iter().filter_map(|it| it.as_bool()).collect::<Vec<_>>(), [true, false]);
/// for part in &value {
///     println!("{} at {}", part.name(), part.offset()); // key at 2, flags at 5
/// }
/// assert_eq!(value["missing"].kind(), Kind::Absent);
/// # Ok(())
/// # }
/// ```
#[derive(Clone, Debug, PartialEq, Eq)]
pub struct Value<'a> {
    name: String,
    number: u32,
    rules: Rules,
    offset: usize,
    tag_class: u32,
    tag_number: u32,
    is_constructed: bool,
    contents: &'a [u8],
    whole: &'a [u8],
    parts: Vec<Value<'a>>,
}

/// The number that no kind has.
const NO_PART: u32 = u32::MAX;

static NOTHING: Value<'static> = Value {
    name: String::new(),
    number: NO_PART,
    rules: Rules::Der,
    offset: 0,
    tag_class: 0,
    tag_number: 0,
    is_constructed: false,
    contents: &[],
    whole: &[],
    parts: Vec::new(),
};

impl<'a> Value<'a> {
    fn of(listed: &Listed, rules: Rules, octets: &'a [u8], names: &[u8]) -> Value<'a> {
        let part = &listed.part;
        let whole = &octets[part.offset..][..part.length];
        let name = names.get(listed.name..).and_then(|it| it.get(..listed.name_length)).unwrap_or(&[]);
        Value {
            name: String::from_utf8_lossy(name).into_owned(),
            number: part.kind,
            rules,
            offset: part.offset,
            tag_class: part.tag_class,
            tag_number: part.tag_number,
            is_constructed: part.constructed != 0,
            contents: &whole[part.header..][..part.contents],
            whole,
            parts: Vec::new(),
        }
    }

    /// Returns the kind of its type.
    pub fn kind(&self) -> Kind {
        match self.number {
            1 => Kind::Boolean,
            2 => Kind::Integer,
            3 => Kind::BitString,
            4 => Kind::OctetString,
            5 => Kind::Null,
            6 => Kind::ObjectIdentifier,
            10 => Kind::Enumerated,
            9 => Kind::Real,
            13 => Kind::RelativeIdentifier,
            12 | 14 | 18 | 19 | 22 | 26 | 27 | 28 | 30 | 32 | 33 | 34 => Kind::String,
            16 => Kind::Sequence,
            17 => Kind::Set,
            23 | 24 => Kind::Time,
            31 => Kind::Date,
            48 => Kind::SequenceOf,
            49 => Kind::SetOf,
            64 => Kind::Choice,
            65 => Kind::Tagged,
            66 => Kind::Any,
            67 => Kind::Unknown,
            _ => Kind::Absent,
        }
    }

    /// Returns its name in the part that it is in; an element has none.
    pub fn name(&self) -> &str {
        &self.name
    }

    /// Returns the class of the tag that its octets begin with: 0 is universal, 1 application, 2
    /// context-specific, 3 private. That of a CHOICE is of the alternative that is chosen.
    pub fn tag_class(&self) -> u32 {
        self.tag_class
    }

    /// Returns the number of the tag that its octets begin with.
    pub fn tag_number(&self) -> u32 {
        self.tag_number
    }

    /// Returns whether its octets are constructed: its contents are encodings again.
    pub fn is_constructed(&self) -> bool {
        self.is_constructed
    }

    /// Returns where it begins, in octets from the start of the message.
    pub fn offset(&self) -> usize {
        self.offset
    }

    /// Returns all of its octets.
    pub fn octets(&self) -> &'a [u8] {
        self.whole
    }

    /// Returns its contents octets. Of an OCTET STRING in segments these are the segments:
    /// [`as_octets`](Value::as_octets) returns the string.
    pub fn contents(&self) -> &'a [u8] {
        self.contents
    }

    /// Returns the part inside explicit tags, and the alternative that is chosen.
    fn inner(&self) -> &Value<'a> {
        match (self.number, self.parts.first()) {
            (64 | 65, Some(part)) => part.inner(),
            _ => self,
        }
    }

    /// Returns the value inside explicit tags.
    fn untagged(&self) -> &Value<'a> {
        match (self.number, self.parts.first()) {
            (65, Some(part)) => part.untagged(),
            _ => self,
        }
    }

    /// Returns the part with this name, if there is one.
    pub fn get(&self, name: &str) -> Option<&Value<'a>> {
        self.untagged().parts.iter().find(|it| it.name == name)
    }

    /// Returns the parts: components that are present, elements, or the alternative that is chosen.
    pub fn parts(&self) -> &[Value<'a>] {
        &self.untagged().parts
    }

    /// Returns an iterator over the parts.
    pub fn iter(&self) -> slice::Iter<'_, Value<'a>> {
        self.parts().iter()
    }

    /// Returns an iterator over this part and all that are inside it, at any depth, in the order of
    /// their octets, each before those inside it. Explicit tags have no path of their own, so what is
    /// in one isn't a further part.
    ///
    /// ```
    /// use soqavise::{Rules, Schema};
    ///
    /// # fn main() -> Result<(), soqavise::Error> {
    /// let octets = b"\x30\x06\x82\x01a\x82\x01b"; // RFC 5280 4.2.1.6
    /// let names = Schema::named("SubjectAltName")?.read(Rules::Der, octets)?;
    /// for part in names.walk().filter(|it| it.depth == 2) {
    ///     println!("{}: {:?}", part.path, part.value.as_text()); // [0].dNSName: Some("a"), ..
    /// }
    /// let paths: Vec<String> = names.walk().map(|it| it.path).collect();
    /// assert_eq!(paths, ["", "[0]", "[0].dNSName", "[1]", "[1].dNSName"]);
    /// # Ok(())
    /// # }
    /// ```
    pub fn walk(&self) -> Walk<'_, 'a> {
        let whole = Located { path: String::new(), depth: 0, value: self };
        Walk { waiting: vec![whole] }
    }

    /// Returns a BOOLEAN.
    pub fn as_bool(&self) -> Option<bool> {
        let part = self.inner();
        match (part.number, part.contents) {
            (1, [octet]) => Some(*octet != 0),
            _ => None,
        }
    }

    /// Returns the octets of an OCTET STRING, borrowed unless they are in segments (X.690 8.7.3).
    pub fn as_octets(&self) -> Option<Cow<'a, [u8]>> {
        let part = self.inner();
        match (part.number, part.is_constructed) {
            (4, false) => Some(Cow::Borrowed(part.contents)),
            (4, true) => joined(part.rules, part.contents).map(Cow::Owned),
            _ => None,
        }
    }

    /// Returns the number of an INTEGER or an ENUMERATED, if 64 bits without a sign hold it.
    pub fn as_u64(&self) -> Option<u64> {
        let part = self.inner();
        let octets = matches!(part.number, 2 | 10).then(|| crate::integer_octets(part.rules, part.whole).ok())??;
        let (first, _) = octets.split_first()?;
        let digits = octets.strip_prefix(&[0]).unwrap_or(&octets);
        (*first < 0x80 && digits.len() <= 8).then(|| digits.iter().fold(0, |number, octet| number << 8 | u64::from(*octet)))
    }

    /// Returns the number of an INTEGER or an ENUMERATED, if 64 bits hold it.
    pub fn as_i64(&self) -> Option<i64> {
        let part = self.inner();
        matches!(part.number, 2 | 10).then(|| crate::integer(part.rules, part.whole).ok())?
    }

    /// Returns the number of an INTEGER in two's complement, in the fewest octets.
    pub fn as_integer_octets(&self) -> Option<Vec<u8>> {
        let part = self.inner();
        (part.number == 2).then(|| crate::integer_octets(part.rules, part.whole).ok())?
    }

    /// Returns an OBJECT IDENTIFIER, as `1.2.840`.
    pub fn as_identifier(&self) -> Option<String> {
        let part = self.inner();
        (part.number == 6).then(|| crate::identifier(part.rules, part.whole).ok())?
    }

    /// Returns a string whose characters are known, also one in an open type.
    pub fn as_text(&self) -> Option<String> {
        let part = self.inner();
        let kind = match part.number {
            66 if part.tag_class == 0 => part.tag_number,
            number => number,
        };
        let (at, length) = (part.whole.as_ptr(), part.whole.len());
        let text = crate::written(length + 1, "", |buffer, needed| unsafe {
            let (to, capacity) = (buffer.as_mut_ptr(), buffer.len());
            soq_proved_utf8(kind, part.rules as u32, at, length, to, capacity, needed)
        });
        Some(text_of(&text.ok()?))
    }

    /// Returns a UTCTime or a GeneralizedTime as seconds since 1970. The years of a UTCTime are from
    /// 1970 to 2069.
    pub fn as_instant(&self) -> Option<Instant> {
        let part = self.inner();
        let of = match part.number {
            23 => 9,
            24 => 10,
            _ => return None,
        };
        let mut instant = Instant::default();
        let status = unsafe { soq_proved_seconds(of, part.rules as u32, part.whole.as_ptr(), part.whole.len(), &mut instant) };
        (status == OK).then_some(instant)
    }

    /// Returns a UTCTime or a GeneralizedTime by its fields in UTC.
    pub fn as_time(&self) -> Option<crate::Time> {
        let part = self.inner();
        time_of_instant(part.number, part.rules, part.whole)
    }

    /// Returns the bits of a BIT STRING, the first bit of each octet first, and their number.
    pub fn as_bits(&self) -> Option<(Vec<u8>, usize)> {
        let part = self.inner();
        if part.number != 3 {
            return None;
        }
        let (at, length) = (part.whole.as_ptr(), part.whole.len());
        let count = std::cell::Cell::new(0);
        let octets = crate::written(length, "", |buffer, needed| unsafe {
            let (to, capacity) = (buffer.as_mut_ptr(), buffer.len());
            let mut bits = 0;
            let status = soq_proved_bits(part.rules as u32, at, length, to, capacity, needed, &mut bits);
            count.set(bits);
            status
        });
        Some((octets.ok()?, count.get()))
    }
}

/// A part that [`Value::walk`] finds.
#[derive(Clone, Debug, PartialEq, Eq)]
pub struct Located<'v, 'a> {
    /// Its path from the part that is gone through, as [`Schema::find`] takes it: `list[1].name`. That
    /// of components that a newer version has added ends with `...`, which `find` doesn't take.
    pub path: String,
    /// In how many parts it is, of those that are gone through.
    pub depth: usize,
    /// The part.
    pub value: &'v Value<'a>,
}

/// The iterator that [`Value::walk`] returns.
#[derive(Clone, Debug)]
pub struct Walk<'v, 'a> {
    /// The parts that are left, the next one last, without those inside them.
    waiting: Vec<Located<'v, 'a>>,
}

impl<'v, 'a> Iterator for Walk<'v, 'a> {
    type Item = Located<'v, 'a>;

    fn next(&mut self) -> Option<Self::Item> {
        let found = self.waiting.pop()?;
        let is_list = matches!(found.value.untagged().kind(), Kind::SequenceOf | Kind::SetOf);
        let inner = found.value.iter().enumerate().map(|(index, value)| Located {
            path: match found.path.as_str() {
                path if is_list => format!("{path}[{index}]"),
                "" => value.name.clone(),
                path => format!("{path}.{}", value.name),
            },
            depth: found.depth + 1,
            value,
        });
        self.waiting.extend(inner.rev());
        Some(found)
    }
}

impl FusedIterator for Walk<'_, '_> {}

/// Returns the octets of the segments of an OCTET STRING, which may be in segments again.
fn joined(rules: Rules, segments: &[u8]) -> Option<Vec<u8>> {
    let (mut octets, mut waiting) = (Vec::new(), vec![segments]);
    while let Some(left) = waiting.pop() {
        if left.is_empty() {
            continue;
        }
        let segment = crate::next(rules, left).ok()?;
        waiting.push(segment.rest);
        match (segment.tag_class, segment.tag_number, segment.is_constructed) {
            (0, 4, true) => waiting.push(segment.contents),
            (0, 4, false) => octets.extend_from_slice(segment.contents),
            _ => return None,
        }
    }
    Some(octets)
}

impl<'v, 'a> IntoIterator for &'v Value<'a> {
    type Item = &'v Value<'a>;
    type IntoIter = slice::Iter<'v, Value<'a>>;

    fn into_iter(self) -> Self::IntoIter {
        self.iter()
    }
}

impl<'a> Index<&str> for Value<'a> {
    type Output = Value<'a>;

    fn index(&self, name: &str) -> &Value<'a> {
        self.get(name).unwrap_or(&NOTHING)
    }
}

impl<'a> Index<usize> for Value<'a> {
    type Output = Value<'a>;

    fn index(&self, index: usize) -> &Value<'a> {
        let part = self.inner();
        match part.number {
            48 | 49 => part.parts.get(index).unwrap_or(&NOTHING),
            _ => &NOTHING,
        }
    }
}
