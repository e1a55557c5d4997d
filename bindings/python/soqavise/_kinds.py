"""The numbers of the library's header, and the errors of its calls."""
from __future__ import annotations

import enum


class Rules(enum.IntEnum):
    """The encoding rules."""

    BER = 0
    CER = 1
    DER = 2


class Type(enum.IntEnum):
    """The types, each with its name in X.680 or in its standard (`soq_type` of soqavise.h)."""

    BOOL = 0
    INTEGER = 1
    BITS = 2
    OCTETS = 3
    NULL = 4
    OID = 5
    UTF8 = 6
    PRINTABLE = 7
    IA5 = 8
    UTCTIME = 9
    GENTIME = 10
    ANY = 11
    CERTIFICATE = 12
    CRL = 13
    REQUEST = 14
    CMS = 15
    SNMP = 16
    LDAP = 17


class ErrorKind(enum.IntEnum):
    """The kinds of errors (`soq_kind` of soqavise.h)."""

    NONE = 0
    INCOMPLETE = 1
    UNEXPECTED_EXTRA_DATA = 2
    UNEXPECTED_EMPTY_INPUT = 3
    EXCEEDS_MAX_PARSE_DEPTH = 4
    REAL_NOT_SUPPORTED = 5
    OUT_OF_MEMORY = 6
    LENGTH_EXCEEDS_PLATFORM_WIDTH = 7
    INVALID_BOOL = 8
    MISMATCHED_LENGTH = 9
    INTEGER_OVERFLOW = 10
    DISCRIMINANT_VALUE_NOT_FOUND = 11
    INVALID_BIT_STRING = 12
    SIZE_CONSTRAINT_NOT_SATISFIED = 13
    VALUE_CONSTRAINT_NOT_SATISFIED = 14
    PERMITTED_ALPHABET_ERROR = 15
    STRING_CONVERSION_FAILED = 16
    NO_VALID_CHOICE = 17
    MISSING_FIELD = 18
    DUPLICATE_FIELD = 19
    TRAILING_ZERO_BITS = 20
    UNSUPPORTED_TAG_NUMBER = 32
    UNSUPPORTED_OBJECT_IDENTIFIER_ARC = 33
    UNEXPECTED_END_OF_CONTENTS = 34
    MISSING_END_OF_CONTENTS = 35
    INDEFINITE_LENGTH_NOT_ALLOWED = 36
    RESERVED_LENGTH_OCTET = 37
    MISMATCHED_TAG = 38
    INVALID_CONSTRUCTED_IDENTIFIER = 39
    INVALID_OBJECT_IDENTIFIER = 40
    INVALID_DATE = 41
    CONSTRUCTED_ENCODING_NOT_ALLOWED = 64
    NON_MINIMAL_TAG_NUMBER = 65
    CONSTRUCTED_BIT_MISMATCH = 66
    NON_MINIMAL_LENGTH = 67
    NON_MINIMAL_INTEGER = 68
    NON_MINIMAL_ARC = 69
    NONZERO_UNUSED_BITS = 70
    DEFAULT_VALUE_PRESENT = 71
    SET_COMPONENTS_OUT_OF_ORDER = 72
    SET_OF_OUT_OF_ORDER = 73


class PartKind(enum.IntEnum):
    """The kinds of types of parts (`soq_part_kind` of soqavise.h), most by the number of the
    universal tag."""

    BOOLEAN = 1
    INTEGER = 2
    BIT_STRING = 3
    OCTET_STRING = 4
    NULL = 5
    OBJECT_IDENTIFIER = 6
    REAL = 9
    ENUMERATED = 10
    UTF8 = 12
    RELATIVE_OID = 13
    TIME = 14
    SEQUENCE = 16
    SET = 17
    NUMERIC = 18
    PRINTABLE = 19
    IA5 = 22
    UTC_TIME = 23
    GENERALIZED_TIME = 24
    VISIBLE = 26
    ANY_OCTETS = 27
    UNIVERSAL = 28
    BMP = 30
    DATE = 31
    TIME_OF_DAY = 32
    DATE_TIME = 33
    DURATION = 34
    SEQUENCE_OF = 48
    SET_OF = 49
    CHOICE = 64
    TAGGED = 65
    ANY = 66
    UNKNOWN = 67


def named(kinds: type[enum.IntEnum], number: int) -> int:
    """Returns the member of an enumeration with this number, or the number if a later library has
    more."""
    try:
        return kinds(number)
    except ValueError:
        return number


class Refused(ValueError):
    """The octets aren't what the call asks for.

    `kind` is the kind of the error, an ErrorKind, which is NONE if it isn't known. Of a call by a
    schema, `path` leads to the part of the message or of JSON, as `tbsCertificate.validity`, and
    `offset` is where the part begins; of another call, `offset` is that of octets that follow a
    value.
    """

    def __init__(self, text: str, kind: int = 0, offset: int = 0, path: str = "") -> None:
        super().__init__(text)
        self.kind = named(ErrorKind, kind)
        self.offset = offset
        self.path = path


class ModuleFault(ValueError):
    """Modules have faults, each in a line `NAME:LINE:COLUMN: what is wrong`. `name`, `line` and
    `column` are those of the first; where no line has the fault they are '' and 0."""

    def __init__(self, text: str, line: int = 0, column: int = 0) -> None:
        super().__init__(text)
        name, place, _ = text.partition(f":{line}:{column}: ")
        self.name = name if line and place else ""
        self.line = line
        self.column = column


class BadSchema(ValueError):
    """The octets of a schema are damaged, or those of another version of the library."""


class UnknownType(LookupError):
    """No module has a type of this name, which is `name`."""

    def __init__(self, text: str, name: str = "") -> None:
        super().__init__(text)
        self.name = name


class UnknownPath(LookupError):
    """No value of the type has a part with this path, or the text isn't a path. `name` is the first
    step of `path` that is wrong: in `tbsCertificate.subjet[0]` it is `subjet`."""

    def __init__(self, text: str, path: str = "", name: str = "") -> None:
        super().__init__(text)
        self.path = path
        self.name = name
