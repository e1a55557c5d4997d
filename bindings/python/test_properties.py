"""Properties of the module, over octets that hypothesis makes up (Debian's python3-hypothesis);
without it they are skipped."""
import datetime
import unittest

from soqavise import (
    BitString,
    Choice,
    ErrorKind,
    Refused,
    Rules,
    Schema,
    Type,
    check,
    fault,
    normalise,
)

try:
    from hypothesis import given, settings
    from hypothesis import strategies as st
except ImportError:
    raise unittest.SkipTest("hypothesis isn't installed") from None

MODULE = """Kinds DEFINITIONS IMPLICIT TAGS ::= BEGIN
Kinds ::= SEQUENCE {
    number INTEGER, bits BIT STRING, fixed [0] BIT STRING (SIZE (9)), octets OCTET STRING,
    id OBJECT IDENTIFIER, kind ENUMERATED { low(3), high(5), ... }, text UTF8String OPTIONAL,
    flag BOOLEAN DEFAULT FALSE, instant Instant, set [1] SET OF INTEGER,
    list [2] SEQUENCE OF Kinds, any [3] EXPLICIT ANY, ... }
Instant ::= CHOICE { utc UTCTime, general GeneralizedTime, none NULL }
END
"""
KINDS = Schema(MODULE, "Kinds")
SCHEMAS = [
    KINDS,
    *map(
        Schema,
        ("Certificate", "ContentInfo", "LDAPMessage", "SNMP.Message", "Name", "GeneralNames"),
    ),
]
PATHS = [
    "",
    "list[0].instant",
    "tbsCertificate.subject",
    "content",
    "protocolOp.searchRequest.filter",
    "[0]",
]
UTC = datetime.timezone.utc


def lists(inner):
    """Values of Kinds with these in them. The elements of a SET OF ascend, as DER has them."""

    def octets(number):
        return number.to_bytes(max(number, ~number).bit_length() // 8 + 1, "big", signed=True)

    years = st.datetimes(
        datetime.datetime(1970, 1, 1), datetime.datetime(2069, 12, 31), timezones=st.just(UTC)
    )
    instants = st.one_of(
        years.map(lambda it: Choice("utc", it.replace(microsecond=0))),
        st.datetimes(timezones=st.just(UTC)).map(lambda it: Choice("general", it)),
        st.just(Choice("none", None)),
    )
    return st.fixed_dictionaries(
        {
            "number": st.integers(),
            "bits": st.binary(max_size=9).map(lambda it: BitString(it, 8 * len(it))),
            "fixed": st.integers(0, 511).map(lambda it: BitString((it << 7).to_bytes(2, "big"), 9)),
            "octets": st.binary(),
            "id": st.lists(st.integers(0, 2**32 - 1), max_size=4).map(
                lambda arcs: ".".join(map(str, [2, 999, *arcs]))
            ),
            "kind": st.sampled_from(["low", "high", 4, -7]),
            "instant": instants,
            "set": st.lists(st.integers()).map(
                lambda it: sorted(it, key=lambda number: (len(octets(number)), octets(number)))
            ),
            "list": inner,
            "any": st.binary(max_size=99).map(lambda it: bytes([4, len(it)]) + it),
        },
        optional={"text": st.text(), "flag": st.just(True)},
    )


VALUES = st.recursive(
    lists(st.just([])), lambda inner: lists(st.lists(inner, max_size=3)), max_leaves=4
)


def is_read(call, *arguments):
    """Returns whether a call, which may refuse its arguments and nothing else, has a result."""
    try:
        call(*arguments)
    except Refused as refused:
        assert isinstance(refused.kind, ErrorKind) and refused.offset >= 0 and str(refused), refused
        return False
    return True


class Properties(unittest.TestCase):
    def assert_reads_or_refuses(self, schema, octets):
        for rules in Rules:
            is_loaded = is_read(schema.loads, octets, rules)
            self.assertEqual(is_read(lambda: schema.loads(octets, rules, native=True)), is_loaded)
            is_read(schema.check, octets, rules)
            for path in PATHS:
                try:
                    is_read(schema.find, octets, path, rules)
                except LookupError:  # another type's path
                    pass
        for native in (False, True):
            if is_read(schema.loads, octets):
                self.assertEqual(schema.dumps(schema.loads(octets, native=native)), octets)

    @settings(deadline=None, database=None, max_examples=60)
    @given(st.sampled_from(SCHEMAS), st.binary())
    def test_any_octets_are_read_or_refused(self, schema, octets):
        self.assert_reads_or_refuses(schema, octets)
        for type in Type:
            is_read(check, type, octets)
            is_read(normalise, type, Rules.BER, octets)
            fault(type, Rules.CER, octets)

    @settings(deadline=None, database=None, max_examples=60)
    @given(VALUES)
    def test_values_are_read_back(self, value):
        for rules in Rules:
            self.assertEqual(KINDS.loads(KINDS.dumps(value, rules), rules, native=True), value)
        octets = KINDS.dumps(value)
        KINDS.check(octets)
        self.assertEqual(KINDS.dumps(KINDS.loads(octets)), octets)

    @settings(deadline=None, database=None, max_examples=60)
    @given(VALUES, st.data())
    def test_spoilt_octets_are_read_or_refused(self, value, data):
        octets = bytearray(KINDS.dumps(value))
        for _ in range(data.draw(st.integers(1, 3))):
            octets[data.draw(st.integers(0, len(octets) - 1))] = data.draw(st.integers(0, 255))
        self.assert_reads_or_refuses(KINDS, bytes(octets))

    @settings(deadline=None, database=None, max_examples=60)
    @given(
        st.recursive(
            st.none()
            | st.booleans()
            | st.integers()
            | st.floats()
            | st.text(st.characters())
            | st.binary()
            | st.datetimes()
            | st.times()
            | st.dates()
            | st.decimals(),
            lambda inner: st.lists(inner)
            | st.dictionaries(st.text() | st.integers(), inner)
            | st.builds(Choice, st.sampled_from(["utc", "x"]), inner),
        )
    )
    def test_any_value_is_written_or_refused(self, value):
        for schema in SCHEMAS:
            is_read(schema.dumps, value)


if __name__ == "__main__":
    unittest.main()
