"""BER, CER and DER (ITU-T X.690), read and written by a library whose functions are proved.

The module calls libsoqavise.so by ctypes. The library is looked for in the file that the
environment variable SOQAVISE_LIBRARY names, then beside the module's folder, then as the system
looks for libraries. Types of standards are known by their names:

>>> import soqavise
>>> unbind = bytes.fromhex("3005 020103 4200")  # an unbindRequest (RFC 4511 4.3)
>>> soqavise.Schema("LDAPMessage").loads(unbind)
{'messageID': 3, 'protocolOp': {'unbindRequest': None}}
>>> soqavise.Schema("LDAPMessage").loads(unbind, native=True)
{'messageID': 3, 'protocolOp': Choice(name='unbindRequest', value=None)}

For some calls no schema is needed:

>>> soqavise.check(soqavise.Type.OID, bytes.fromhex("06032A0304"))
>>> soqavise.identifier(soqavise.Rules.DER, bytes.fromhex("06032A0304"))
'1.2.3.4'
>>> soqavise.check(soqavise.Type.BOOL, bytes.fromhex("010105"))
Traceback (most recent call last):
    ..
soqavise.Refused: DER: BOOLEAN octet 05 is neither 00 nor FF

Values of any type of your own modules are read and written, in the form of JSON (X.697):

>>> module = "Pairs DEFINITIONS ::= BEGIN Pair ::= SEQUENCE { number INTEGER, name UTF8String OPTIONAL } END"
>>> pair = soqavise.Schema({"pairs.asn1": module}, "Pair")
>>> pair.loads(bytes.fromhex("3006 020105 0C0161"))
{'number': 5, 'name': 'a'}
>>> pair.dumps({"number": 5}).hex()
'3003020105'
>>> pair.check(bytes.fromhex("3003 020205"))
Traceback (most recent call last):
    ..
soqavise.Refused: number, byte 2: DER: unexpected end of input, need 1 more octet
"""
from __future__ import annotations

import ctypes
import ctypes.util
import datetime
import os
import pathlib
import re
import struct
from typing import Any, Callable, Iterator, Mapping, NamedTuple, Sequence, Union, cast, overload

from soqavise._kinds import (
    BadSchema,
    ErrorKind,
    ModuleFault,
    PartKind,
    Refused,
    Rules,
    Type,
    UnknownPath,
    UnknownType,
    named,
)
from soqavise._modules import needed
from soqavise._values import BitString, Choice, Listed, Known, json_text, json_value, native, steps

__all__ = [
    "BadSchema",
    "BitString",
    "Choice",
    "Encoding",
    "ErrorKind",
    "ModuleFault",
    "Part",
    "PartKind",
    "PemBlock",
    "Refused",
    "Rules",
    "Schema",
    "Type",
    "UnknownPath",
    "UnknownType",
    "check",
    "encodings",
    "extension",
    "fault",
    "identifier",
    "integer",
    "name_text",
    "next_encoding",
    "normalise",
    "pem_blocks",
    "skip",
    "time",
]

for _public in (
    BadSchema,
    BitString,
    Choice,
    ErrorKind,
    ModuleFault,
    PartKind,
    Refused,
    Rules,
    Type,
    UnknownPath,
    UnknownType,
):
    _public.__module__ = __name__

# What calls take as octets. Anything else is a TypeError.
Octets = Union[bytes, bytearray, memoryview]


class Encoding(NamedTuple):
    """One whole encoding: its tag, its contents, and all of its octets."""

    tag_class: int  # 0 universal, 1 application, 2 context-specific, 3 private
    tag_number: int
    constructed: bool
    contents: bytes
    whole: bytes


class _Passed(ctypes.Structure):
    _fields_ = [("consumed", ctypes.c_size_t), ("steps", ctypes.c_size_t)]


class _Fault(ctypes.Structure):
    _fields_ = [
        ("kind", ctypes.c_uint32),
        ("offset", ctypes.c_size_t),
        ("text_length", ctypes.c_size_t),
    ]


class _Encoding(ctypes.Structure):
    _fields_ = [
        ("tag_class", ctypes.c_uint32),
        ("tag_number", ctypes.c_uint32),
        ("constructed", ctypes.c_uint32),
        ("header", ctypes.c_size_t),
        ("contents", ctypes.c_size_t),
        ("length", ctypes.c_size_t),
    ]


class _Time(ctypes.Structure):
    _fields_ = [("year", ctypes.c_int32)] + [
        (name, ctypes.c_uint32)
        for name in ("month", "day", "hour", "minute", "second", "nanosecond")
    ]


class _Texts(ctypes.Structure):
    _fields_ = [
        ("name", ctypes.c_char_p),
        ("name_length", ctypes.c_size_t),
        ("text", ctypes.c_char_p),
        ("text_length", ctypes.c_size_t),
    ]


class _Reason(ctypes.Structure):
    _fields_ = [
        ("kind", ctypes.c_uint32),
        ("line", ctypes.c_uint32),
        ("column", ctypes.c_uint32),
        ("offset", ctypes.c_size_t),
        ("path_length", ctypes.c_size_t),
        ("text_length", ctypes.c_size_t),
    ]


class _Part(ctypes.Structure):
    _fields_ = [(name, ctypes.c_size_t) for name in ("offset", "header", "contents", "length")] + [
        (name, ctypes.c_uint32) for name in ("tag_class", "tag_number", "constructed", "kind")
    ]


class _Counts(ctypes.Structure):
    _fields_ = [(name, ctypes.c_size_t) for name in ("parts", "names")]


# The numbers of a `soq_listed_part`.
_LISTED = struct.Struct("@4N4I4N")


class _Block(ctypes.Structure):
    _fields_ = [(name, ctypes.c_size_t) for name in ("label", "label_length", "line")]


class PemBlock(NamedTuple):
    """A block of PEM: its octets are None if its lines aren't base64, or it has no last line."""

    label: bytes
    line: int  # the number of its first line, from 1
    octets: bytes | None


class Part(NamedTuple):
    """A part of a message: where it begins, and its octets."""

    offset: int
    tag_class: int  # 0 universal, 1 application, 2 context-specific, 3 private
    tag_number: int
    kind: int  # a PartKind; of a CHOICE the tag, or a path to an alternative, says which is chosen
    contents: bytes
    whole: bytes


def _load() -> ctypes.CDLL:
    beside = pathlib.Path(__file__).resolve().parents[2] / "libsoqavise.so"
    name = os.environ.get("SOQAVISE_LIBRARY") or (str(beside) if beside.exists() else None)
    name = name or ctypes.util.find_library("soqavise")
    if name is None:
        raise ImportError("libsoqavise.so isn't found: SOQAVISE_LIBRARY may name it")
    return ctypes.CDLL(name)


_LIBRARY = _load()
(
    _OK,
    _REFUSED,
    _OUT_OF_MEMORY,
    _TOO_SMALL,
    _UNKNOWN_TYPE,
    _UNKNOWN_RULE,
    _BAD_SCHEMA,
    _UNKNOWN_PATH,
    _ABSENT,
) = range(9)
_OCTETS = [ctypes.c_char_p, ctypes.c_size_t]
_SIZE = ctypes.POINTER(ctypes.c_size_t)

_LIBRARY.soq_version.restype = ctypes.c_char_p
__version__: str = _LIBRARY.soq_version().decode()


def _function(name: str, *arguments: Any) -> Callable[..., int]:
    function: Any = getattr(_LIBRARY, name)
    function.argtypes, function.restype = arguments, ctypes.c_uint
    return cast(Callable[..., int], function)


_KIND = ctypes.c_uint
_skip = _function("soq_skip", _KIND, *_OCTETS, ctypes.POINTER(_Passed))
_check = _function("soq_check", _KIND, *_OCTETS)
_normalise = _function("soq_normalise", _KIND, _KIND, *_OCTETS, *_OCTETS, _SIZE)
_decode_error = _function(
    "soq_decode_error", _KIND, _KIND, *_OCTETS, ctypes.POINTER(_Fault), *_OCTETS
)
_next = _function("soq_next", _KIND, ctypes.c_void_p, ctypes.c_size_t, ctypes.POINTER(_Encoding))
_integer_octets = _function("soq_integer_octets", _KIND, *_OCTETS, *_OCTETS, _SIZE)
_identifier = _function("soq_oid_text", _KIND, *_OCTETS, *_OCTETS, _SIZE)
_time = _function("soq_time", _KIND, _KIND, *_OCTETS, ctypes.POINTER(_Time))
_name_text = _function("soq_name_text", _KIND, *_OCTETS, *_OCTETS, _SIZE)
_extension = _function("soq_extension", _KIND, *_OCTETS, ctypes.c_char_p, *_OCTETS, _SIZE)
_pem = _function("soq_pem", *_OCTETS, ctypes.c_size_t, ctypes.POINTER(_Block), *_OCTETS, _SIZE)
_REASON = [ctypes.POINTER(_Reason), *_OCTETS]
_compile = _function(
    "soq_compile",
    ctypes.POINTER(_Texts),
    ctypes.c_size_t,
    ctypes.c_char_p,
    *_OCTETS,
    _SIZE,
    *_REASON,
)
_check_by = _function("soq_check_by", *_OCTETS, _KIND, ctypes.c_int, *_OCTETS, *_REASON)
_find = _function(
    "soq_find", *_OCTETS, _KIND, *_OCTETS, ctypes.c_char_p, ctypes.POINTER(_Part), *_REASON
)
_list = _function(
    "soq_parts",
    *_OCTETS,
    _KIND,
    *_OCTETS,
    ctypes.c_void_p,
    ctypes.c_size_t,
    *_OCTETS,
    ctypes.POINTER(_Counts),
    *_REASON,
)
_bits = _function("soq_bits", _KIND, *_OCTETS, *_OCTETS, _SIZE, _SIZE)
_json = _function("soq_json", *_OCTETS, _KIND, ctypes.c_int, *_OCTETS, *_OCTETS, _SIZE, *_REASON)
_encode = _function("soq_encode", *_OCTETS, _KIND, *_OCTETS, *_OCTETS, _SIZE, *_REASON)
_normalise_by = _function("soq_normalise_by", *_OCTETS, _KIND, *_OCTETS, *_OCTETS, _SIZE, *_REASON)


def _octets(octets: Octets) -> bytes:
    """Returns octets as ctypes hands them over. A text, or a number, isn't octets."""
    if isinstance(octets, bytes):
        return octets
    if isinstance(octets, (bytearray, memoryview)):
        return bytes(octets)
    raise TypeError(
        f"octets are bytes, a bytearray or a memoryview, and not {type(octets).__name__}"
    )


def _word(text: str) -> bytes:
    """Returns a text as C has it, which ends at the first NUL."""
    if not isinstance(text, str):
        raise TypeError(f"a name is a str, and not {type(text).__name__}")
    if "\0" in text:
        raise ValueError(f"{text!r} has a NUL")
    return text.encode("utf-8")


def _answer(status: int, text: str) -> None:
    """Raises the error of a status, unless it is SOQ_OK."""
    if status == _OUT_OF_MEMORY:
        raise MemoryError
    if status == _REFUSED:
        raise Refused(text)
    if status != _OK:
        raise _wrong_call(status)


def _wrong_call(status: int) -> ValueError:
    """Returns the error of a call that the library doesn't take, whatever the octets are."""
    return ValueError(f"the library doesn't take this call (soq_status {status})")


def _written(capacity: int, call: Callable[..., int]) -> tuple[int, bytes]:
    """Returns the status of a call, and what it writes, with a larger buffer if it asks for one."""
    while True:
        buffer, needed = ctypes.create_string_buffer(max(capacity, 1)), ctypes.c_size_t()
        status = call(buffer, capacity, needed)
        if status != _TOO_SMALL:
            return status, buffer.raw[: needed.value]
        capacity = needed.value


def fault(type: Type, rules: Rules, octets: Octets) -> Refused | None:
    """Returns why the octets aren't exactly one value of the type, or None if they are one."""
    type, rules, octets = Type(type), Rules(rules), _octets(octets)
    told, text = _Fault(), ctypes.create_string_buffer(512)
    status = _decode_error(type, rules, octets, len(octets), told, text, len(text))
    if status == _REFUSED:
        return Refused(text.value.decode("utf-8", "replace"), told.kind, told.offset)
    _answer(status, "")
    return None


def check(type: Type, octets: Octets) -> None:
    """Checks that the octets are the one DER encoding of a value of the type.

    Open types aren't looked into. Raises Refused if they aren't.
    """
    type, octets = Type(type), _octets(octets)
    status = _check(type, octets, len(octets))
    if status == _REFUSED:
        raise fault(type, Rules.DER, octets) or Refused("not the DER encoding of its value")
    _answer(status, "")


def normalise(type: Type, rules: Rules, octets: Octets) -> bytes:
    """Returns the DER octets of the value that all of the octets encode under these rules."""
    type, rules, octets = Type(type), Rules(rules), _octets(octets)
    status, normal = _written(
        len(octets), lambda *room: _normalise(type, rules, octets, len(octets), *room)
    )
    if status == _REFUSED:
        raise fault(type, rules, octets) or Refused("its value has no DER encoding")
    _answer(status, "")
    return normal


def skip(rules: Rules, octets: Octets) -> int:
    """Returns the length of the one whole encoding at the front of the octets, of any type."""
    rules, octets = Rules(rules), _octets(octets)
    passed = _Passed()
    _answer(
        _skip(rules, octets, len(octets), passed), "the octets don't begin with a whole encoding"
    )
    return int(passed.consumed)


def _encoding_at(rules: Rules, octets: bytes, at: int) -> Encoding:
    found = _Encoding()
    start = ctypes.cast(ctypes.c_char_p(octets), ctypes.c_void_p).value or 0
    status = _next(rules, start + at, len(octets) - at, found)
    _answer(status, "the octets don't begin with a whole encoding")
    first = at + found.header
    contents, whole = octets[first : first + found.contents], octets[at : at + found.length]
    return Encoding(found.tag_class, found.tag_number, bool(found.constructed), contents, whole)


def next_encoding(rules: Rules, octets: Octets) -> Encoding:
    """Returns the parts of the one whole encoding at the front of the octets, of any type."""
    return _encoding_at(Rules(rules), _octets(octets), 0)


def encodings(rules: Rules, octets: Octets) -> Iterator[Encoding]:
    """Yields the encodings of which the octets are made, such as those in constructed contents."""
    rules, octets = Rules(rules), _octets(octets)
    at = 0
    while at < len(octets):
        found = _encoding_at(rules, octets, at)
        yield found
        at += len(found.whole)


def integer(rules: Rules, octets: Octets) -> int:
    """Returns the number of the INTEGER that all of the octets are, of any length. Its tag may be
    any."""
    rules, octets = Rules(rules), _octets(octets)
    buffer, needed = ctypes.create_string_buffer(len(octets) + 1), ctypes.c_size_t()
    status = _integer_octets(rules, octets, len(octets), buffer, len(buffer), needed)
    _answer(status, "the octets aren't one INTEGER")
    return int.from_bytes(buffer.raw[: needed.value], "big", signed=True)


def identifier(rules: Rules, octets: Octets) -> str:
    """Returns the OBJECT IDENTIFIER that all of the octets are, as '1.2.840', with any tag."""
    rules, octets = Rules(rules), _octets(octets)
    capacity = 4 * len(octets) + 8
    status, text = _written(capacity, lambda *room: _identifier(rules, octets, len(octets), *room))
    _answer(status, "the octets aren't one OBJECT IDENTIFIER")
    return text[:-1].decode("ascii")


def _counting(octets: bytes, rules: Rules) -> Callable[[Listed], int]:
    """Returns a function that returns the number of bits of a part of octets, a BIT STRING."""

    def count(part: Listed) -> int:
        held = octets[part.offset : part.offset + part.length]
        buffer, needed = ctypes.create_string_buffer(len(held)), ctypes.c_size_t()
        bits = ctypes.c_size_t()
        status = _bits(rules, held, len(held), buffer, len(buffer), needed, bits)
        _answer(status, "the octets aren't one BIT STRING")
        return bits.value

    return count


def extension(rules: Rules, octets: Octets, identifier: str) -> bytes | None:
    """Returns the octets of the first extension with this identifier, '2.5.29.17', or None if none
    has it.

    All of the octets are Extensions (RFC 5280 4.1).

    """
    rules, octets = Rules(rules), _octets(octets)
    buffer, needed = ctypes.create_string_buffer(max(len(octets), 1)), ctypes.c_size_t()
    status = _extension(rules, octets, len(octets), _word(identifier), buffer, len(octets), needed)
    if status == _ABSENT:
        return None
    _answer(status, "the octets aren't Extensions")
    return buffer.raw[: needed.value]


def name_text(rules: Rules, octets: Octets) -> str:
    """Returns the text of the Name (RFC 5280 4.1.2.4) that all of the octets are, by RFC 4514."""
    rules, octets = Rules(rules), _octets(octets)
    capacity = 2 * len(octets) + 1
    status, text = _written(capacity, lambda *room: _name_text(rules, octets, len(octets), *room))
    _answer(status, "the octets aren't one Name")
    return text[:-1].decode("utf-8")


def pem_blocks(text: Octets | str) -> Iterator[PemBlock]:
    """Yields the blocks of a text of PEM (RFC 7468). Other lines, before and between them, are
    skipped.

    The time grows with the length of the text, also where it has many blocks.

    """
    text = text.encode("utf-8") if isinstance(text, str) else _octets(text)
    # soq_pem decodes all blocks of its text, so it is called with the text from one first line up
    # to the next: no block goes on beyond a line that may be the first of another.
    starts = [found.start() for found in re.finditer(rb"^-----BEGIN ", text, re.MULTILINE)]
    line, counted = 1, 0
    for start, end in zip(starts, [*starts[1:], len(text)]):
        line, counted = line + text.count(b"\n", counted, start), start
        piece, found = text[start:end], _Block()
        status, contents = _written(
            len(piece), lambda *room: _pem(piece, len(piece), 0, found, *room)
        )
        if status == _ABSENT:
            continue
        if status != _REFUSED:
            _answer(status, "")
        label = piece[found.label : found.label + found.label_length]
        yield PemBlock(label, line, None if status == _REFUSED else contents)


def time(type: Type, rules: Rules, octets: Octets) -> datetime.datetime:
    """Returns the instant of the UTCTime or GeneralizedTime that all of the octets are, in UTC.

    Its tag may be any. The year of a UTCTime is from 1970 to 2069; in certificates 50 to 69 mean
    1950 to 1969. Nanoseconds are cut to microseconds; a leap second is the second before it.
    Raises OverflowError for a year that a datetime can't have, and ValueError for another type.
    """
    type, rules, octets = Type(type), Rules(rules), _octets(octets)
    if type not in (Type.UTCTIME, Type.GENTIME):
        raise ValueError(f"{type.name} is no type of times")
    it = _Time()
    _answer(_time(type, rules, octets, len(octets), it), "the octets aren't one time")
    if not datetime.MINYEAR <= it.year <= datetime.MAXYEAR:
        raise OverflowError(f"year {it.year}")
    microsecond = min(it.nanosecond, 999_999_999) // 1000
    return datetime.datetime(
        it.year, it.month, it.day, it.hour, it.minute, it.second, microsecond, datetime.timezone.utc
    )


def _said(reason: _Reason, text: ctypes.Array[ctypes.c_char]) -> bytes:
    """Returns the text of a call by a schema that has no result."""
    return text.raw[: min(reason.text_length, len(text) - 1)]


def _told(status: int, reason: _Reason, text: ctypes.Array[ctypes.c_char]) -> None:
    """Raises the error of a call by a schema, unless its status is SOQ_OK."""
    if status == _OK:
        return
    said = _said(reason, text)
    shown = said.decode("utf-8", "replace")
    if status == _REFUSED:
        path = said[: reason.path_length].decode("utf-8", "replace")
        raise Refused(shown, reason.kind, reason.offset, path)
    if status == _BAD_SCHEMA:
        raise BadSchema(shown)
    _answer(status, shown)


def _made(capacity: int, call: Callable[..., int]) -> bytes:
    """Returns what a call by a schema writes, with a larger buffer if it asks for one."""
    text, reason = ctypes.create_string_buffer(4096), _Reason()
    status, octets = _written(capacity, lambda *room: call(*room, reason, text, len(text)))
    _told(status, reason, text)
    return octets


def _named_texts(modules: Mapping[str, str] | Sequence[str]) -> dict[str, str]:
    """Returns texts of modules by their names, which are numbers for those that have none."""
    if isinstance(modules, Mapping):
        return dict(modules)
    texts = [modules] if isinstance(modules, str) else modules
    return {f"{number}": text for number, text in enumerate(texts, 1)}


def _compiled(named: Sequence[tuple[str, str]], type: str) -> bytes:
    """Returns the octets of the schema of a type of modules, which are texts after their names."""
    asked = _word(type)
    pairs = [(name.encode(), text.encode()) for name, text in named]
    texts = (_Texts * max(len(pairs), 1))(
        *(_Texts(name, len(name), text, len(text)) for name, text in pairs)
    )
    reason, text = _Reason(), ctypes.create_string_buffer(4096)
    status, octets = _written(
        1 << 14, lambda *to: _compile(texts, len(pairs), asked, *to, reason, text, len(text))
    )
    said = _said(reason, text).decode("utf-8", "replace")
    if status == _UNKNOWN_TYPE:
        raise UnknownType(f"{type}: {said}", type)
    if status == _REFUSED:
        raise ModuleFault(said, reason.line, reason.column)
    _answer(status, said)
    return octets


class Schema:
    """A type of ASN.1 modules, with the types that it is made of."""

    @overload
    def __init__(self, type: str, /) -> None:
        ...

    @overload
    def __init__(self, *, type: str) -> None:
        ...

    @overload
    def __init__(self, modules: Mapping[str, str] | Sequence[str], type: str) -> None:
        ...

    def __init__(
        self, modules: Mapping[str, str] | Sequence[str] = (), type: str | None = None
    ) -> None:
        """Takes a type of the modules of standards that are built in, or reads modules, which are
        texts by their names, texts alone or one text, and takes a type of them: `TYPE`, the first
        of this name, or `MODULE.TYPE`.

        Modules may import from those that are built in. A type that they don't have is looked for
        there, and one of them with the name of a built-in module takes its place.

        Raises ModuleFault if the modules have faults, UnknownType, and FileNotFoundError without
        modules if the built-in ones aren't found.
        """
        if type is None:
            if not isinstance(modules, str):
                raise TypeError("the name of a type is missing")
            type, modules = modules, ()
        named = _named_texts(modules)
        self._octets = _compiled([*named.items(), *needed(named.values(), type).items()], type)
        self._known = Known()

    @classmethod
    def from_octets(cls, octets: Octets) -> Schema:
        """Returns the schema with these octets, which `octets` of another had. Each call checks
        them, and raises BadSchema if they are damaged."""
        schema = cls.__new__(cls)
        schema._octets, schema._known = _octets(octets), Known()
        return schema

    @property
    def octets(self) -> bytes:
        """The octets of the schema, in a form of the library's own, which its version has."""
        return self._octets

    def check(self, octets: Octets, rules: Rules = Rules.DER, open_types: bool = True) -> None:
        """Checks that all of the octets are one value of the type.

        By DER they are then its only encoding; with open_types those inside open types are well
        formed too. Raises Refused with the path to the part, where it begins, and why it isn't
        read.
        """
        reason, text = _Reason(), ctypes.create_string_buffer(4096)
        rules, octets = Rules(rules), _octets(octets)
        status = _check_by(
            self._octets,
            len(self._octets),
            rules,
            bool(open_types),
            octets,
            len(octets),
            reason,
            text,
            len(text),
        )
        _told(status, reason, text)

    def loads(self, octets: Octets, rules: Rules = Rules.DER, *, native: bool = False) -> Any:
        """Returns the value that all of the octets are, in the form of JSON (X.697): a SEQUENCE as
        a dict, a SEQUENCE OF as a list, an OCTET STRING and an open type as hexadecimal digits, a
        time as its text.

        With `native` octets and the encoding in an open type are bytes, a UTCTime and a
        GeneralizedTime a datetime in UTC, a CHOICE a Choice, a BIT STRING a BitString, and a REAL a
        float or a Decimal. The years of a UTCTime are from 1970 to 2069. A time that a datetime
        can't have stays its text: the year 0, a leap second, more than six digits of a second.
        Raises Refused.
        """
        rules, octets = Rules(rules), _octets(octets)
        made = _made(
            4 * len(octets) + 256,
            lambda *to: _json(self._octets, len(self._octets), rules, 0, octets, len(octets), *to),
        )
        form = json_value(made[:-1])
        return self._native(form, octets, rules) if native else form

    def _native(self, form: Any, octets: bytes, rules: Rules) -> Any:
        """Returns the value of octets that has this form of JSON."""
        return native(form, *self._parts(octets, rules), _counting(octets, rules))

    def _parts(self, octets: bytes, rules: Rules) -> tuple[list[Listed], bytes]:
        """Returns the parts of the value at the front of the octets, and their names."""
        count, size = 256, 4096
        while True:
            parts, names, counts = (
                ctypes.create_string_buffer(count * _LISTED.size),
                ctypes.create_string_buffer(size),
                _Counts(),
            )
            text, reason = ctypes.create_string_buffer(4096), _Reason()
            status = _list(
                self._octets,
                len(self._octets),
                rules,
                octets,
                len(octets),
                parts,
                count,
                names,
                size,
                counts,
                reason,
                text,
                len(text),
            )
            if status != _TOO_SMALL:
                _told(status, reason, text)
                listed = _LISTED.iter_unpack(memoryview(parts)[: counts.parts * _LISTED.size])
                return [Listed._make(it) for it in listed], names.raw[: counts.names]
            count, size = counts.parts, counts.names

    def dumps(self, value: Any, rules: Rules = Rules.DER) -> bytes:
        """Returns the octets of a value, which is in the form of JSON (X.697) or as `loads` returns
        it with `native`; a datetime has a zone. Raises Refused with the path to the part that isn't
        of its type.
        """
        rules = Rules(rules)
        tried: set[tuple[str, ...]] = set()
        while True:
            text, unsure = json_text(value, self._known)
            try:
                octets = self._encoded(text, rules)
            except Refused as refused:
                names = steps(refused.path)
                if names in tried:
                    self._known.second.discard(names)
                if names not in unsure.first:
                    raise
                tried.add(names)
                self._known.second.add(names)
            else:
                self._known.learn(
                    unsure, lambda: self._parts(octets, rules), _counting(octets, rules)
                )
                return octets

    def _encoded(self, text: bytes, rules: Rules) -> bytes:
        """Returns the octets of a value that has this text of JSON."""
        return _made(
            len(text),
            lambda *to: _encode(self._octets, len(self._octets), rules, text, len(text), *to),
        )

    def normalise(self, octets: Octets, rules: Rules = Rules.BER) -> bytes:
        """Returns the DER octets of the value that all of the octets are. Raises Refused."""
        rules, octets = Rules(rules), _octets(octets)
        return _made(
            len(octets),
            lambda *to: _normalise_by(
                self._octets, len(self._octets), rules, octets, len(octets), *to
            ),
        )

    def find(self, octets: Octets, path: str, rules: Rules = Rules.DER) -> Part | None:
        """Returns the part to which a path leads, as `tbsCertificate.extensions[1].extnValue`, or
        None if the value doesn't have it. Parts after it aren't read. Raises Refused if a part
        before it can't be read, and UnknownPath if no value of the type has such a part."""
        rules, octets = Rules(rules), _octets(octets)
        status, part, reason, text = self._search(octets, path, rules)
        if status == _ABSENT:
            return None
        if status == _UNKNOWN_PATH:
            name = self._unknown_step(path)
            raise UnknownPath(
                f"{path}: {_said(reason, text).decode('utf-8', 'replace')}: {name}", path, name
            )
        _told(status, reason, text)
        whole = octets[part.offset : part.offset + part.length]
        contents = whole[part.header : part.header + part.contents]
        return Part(
            part.offset,
            part.tag_class,
            part.tag_number,
            named(PartKind, part.kind),
            contents,
            whole,
        )

    def _search(
        self, octets: bytes, path: str, rules: Rules
    ) -> tuple[int, _Part, _Reason, ctypes.Array[ctypes.c_char]]:
        """Returns the status of a call of soq_find, and what it wrote."""
        part, reason, text = _Part(), _Reason(), ctypes.create_string_buffer(4096)
        status = _find(
            self._octets,
            len(self._octets),
            rules,
            octets,
            len(octets),
            _word(path),
            part,
            reason,
            text,
            len(text),
        )
        return status, part, reason, text

    def _unknown_step(self, path: str) -> str:
        """Returns the first step of an unknown path with which it is unknown. A path is looked up
        before any octet is read, so there are none."""
        ends = [found.start() for found in re.finditer(r"[.\[]", path)] + [len(path)]
        known, unknown = -1, len(ends) - 1
        while unknown - known > 1:
            middle = (known + unknown) // 2
            if self._search(b"", path[: ends[middle]], Rules.DER)[0] == _UNKNOWN_PATH:
                unknown = middle
            else:
                known = middle
        start = ends[known] if known >= 0 else 0
        step = path[start : ends[unknown]]
        return step[1:] if start > 0 and step[0] == "." and len(step) > 1 else step
