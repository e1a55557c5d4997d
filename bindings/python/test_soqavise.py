"""Tests of the module: python3 -m unittest, with SOQAVISE_LIBRARY naming libsoqavise.so."""
import base64
import datetime
import decimal
import doctest
import os
import pathlib
import pickle
import re
import subprocess
import sys
import time as clock
import unittest

import soqavise
from soqavise import (
    BadSchema, BitString, Choice, ErrorKind, ModuleFault, PartKind, Refused, Rules, Schema, Type, UnknownPath, UnknownType, check, encodings, extension, fault,
    identifier, integer, name_text, next_encoding, normalise, pem_blocks, skip, time,
)
from soqavise._modules import needed
from soqavise._values import Known, Listed, json_text, json_value, native

TOP = pathlib.Path(__file__).resolve().parents[2]
HEADER = TOP / "include/soqavise.h"
UNBIND = bytes.fromhex("30050201034200")  # an unbindRequest (RFC 4511 4.3)


def load_tests(_loader, tests, _pattern):
    """Adds the examples of the module's comments."""
    for module in (soqavise, soqavise._values):
        tests.addTests(doctest.DocTestSuite(module, soqavise.__dict__.copy()))
    return tests


def utc(*fields):
    return datetime.datetime(*fields, tzinfo=datetime.timezone.utc)


def type_of(notation):
    """Returns the schema of a type in this notation."""
    return Schema(f"M DEFINITIONS IMPLICIT TAGS ::= BEGIN T ::= {notation} END", "T")


def octets(digits):
    return bytes.fromhex(digits)


class Calls(unittest.TestCase):
    """Octets are worked out by hand from X.690, whose sections are named."""

    def test_checks(self):
        check(Type.BOOL, octets("0101FF"))
        check(Type.LDAP, octets("30050201034200"))  # RFC 4511 4.3
        with self.assertRaises(Refused) as refused:  # 11.1
            check(Type.BOOL, octets("010105"))
        self.assertEqual(refused.exception.kind, 8)
        self.assertIs(refused.exception.kind, ErrorKind.INVALID_BOOL)
        self.assertTrue(str(refused.exception).startswith("DER: "))

    def test_says_why(self):
        self.assertIsNone(fault(Type.BOOL, Rules.BER, octets("010105")))  # 8.2.2
        self.assertEqual(fault(Type.BOOL, Rules.DER, octets("0101FF00")).offset, 3)  # 8.1.1.1

    def test_normalises(self):
        self.assertEqual(normalise(Type.OCTETS, Rules.BER, octets("2480040141040142 0000")), octets("04024142"))  # 8.7.3
        self.assertEqual(normalise(Type.BOOL, Rules.BER, octets("010105")), octets("0101FF"))
        with self.assertRaises(Refused):
            normalise(Type.ANY, Rules.BER, octets("30800000"))

    def test_goes_through_encodings(self):
        found = next_encoding(Rules.BER, octets("30800101FF0000 0500"))  # 8.1.3.6, 8.1.5
        self.assertEqual((found.tag_class, found.tag_number, found.constructed), (0, 16, True))
        self.assertEqual((found.contents, found.whole), (octets("0101FF"), octets("30800101FF0000")))
        self.assertEqual([it.tag_number for it in encodings(Rules.DER, octets("0101FF0500"))], [1, 5])
        self.assertEqual(skip(Rules.BER, octets("30800101FF0000 0500")), 7)
        with self.assertRaises(Refused):
            next_encoding(Rules.DER, octets("30800000"))
        with self.assertRaises(Refused):
            skip(Rules.DER, b"")

    def test_takes_octets_alone(self):
        calls = (check, lambda it: check(Type.BOOL, it)), (next_encoding, lambda it: next_encoding(Rules.DER, it)), (
            encodings, lambda it: list(encodings(Rules.DER, it))), (integer, lambda it: integer(Rules.DER, it)), (
            skip, lambda it: skip(Rules.DER, it)), (fault, lambda it: fault(Type.BOOL, Rules.DER, it)), (pem_blocks, lambda it: list(pem_blocks(it)))
        for call, given in calls:
            for wrong in (5, None, [1], *(() if call is pem_blocks else ("0" * 100_000,))):
                with self.subTest(call=call.__name__, wrong=type(wrong)), self.assertRaises(TypeError):
                    given(wrong)
        for same in (bytearray, memoryview):
            self.assertEqual(integer(Rules.DER, same(octets("020105"))), 5)

    def test_refuses_wrong_calls(self):
        for call in (lambda: check(2**32, octets("0101FF")), lambda: next_encoding(9, octets("0500")), lambda: skip(-1, octets("0500"))):
            with self.assertRaises(ValueError) as wrong:
                call()
            self.assertNotIsInstance(wrong.exception, Refused)
        with self.assertRaises(ValueError) as wrong:
            extension(Rules.DER, octets("3000"), "2.5.29\0.15")
        self.assertNotIsInstance(wrong.exception, Refused)

    def test_reads_integers(self):
        self.assertEqual(integer(Rules.DER, octets("0201FF")), -1)  # 8.3
        self.assertEqual(integer(Rules.DER, octets("800105")), 5)
        self.assertEqual(integer(Rules.DER, octets("0209008000000000000000")), 2**63)
        self.assertEqual(integer(Rules.DER, octets("02020080")), 128)
        for digits in ("0200", "02020001", "020100 00", "0209FF8000000000000000", "2201 00"):
            with self.assertRaises(Refused):
                integer(Rules.DER, octets(digits))

    def test_reads_identifiers(self):
        self.assertEqual(identifier(Rules.DER, octets("0603883703")), "2.999.3")  # 8.19.5
        with self.assertRaises(Refused):
            identifier(Rules.DER, octets("0600"))

    def test_finds_extensions(self):
        held = octets("300D 300B 0603551D0F 0404 030205A0")  # keyUsage (RFC 5280 4.2.1.3)
        self.assertEqual(extension(Rules.DER, held, "2.5.29.15"), octets("030205A0"))
        self.assertIsNone(extension(Rules.DER, held, "2.5.29.19"))
        with self.assertRaises(Refused):
            extension(Rules.DER, held[1:], "2.5.29.15")

    def test_writes_names(self):
        # the first example of RFC 4514 4
        name = octets("3046 31133011060A0992268993F22C64011916036E6574 31173015060A0992268993F22C64011916076578616D706C65"
                      "31163014060A0992268993F22C6401010C066A736D697468")
        self.assertEqual(name_text(Rules.DER, name), "UID=jsmith,DC=example,DC=net")
        with self.assertRaises(Refused):
            name_text(Rules.DER, name[1:])

    def test_reads_pem(self):
        text = b"before\n-----BEGIN A B-----\nAQID\nBA==\n-----END A B-----\n-----BEGIN C-----\n?\n-----END C-----\n"
        self.assertEqual(list(pem_blocks(text)), [(b"A B", 2, bytes([1, 2, 3, 4])), (b"C", 6, None)])
        self.assertEqual(list(pem_blocks(text.decode("ascii"))), list(pem_blocks(text)))
        self.assertEqual(list(pem_blocks(b"")), [])

    def test_reads_spoilt_pem(self):
        # RFC 7468 2 and 3: a block ends with a line of its label; a line of dashes may be the first of the next.
        first, last = b"-----BEGIN X-----\n", b"-----END X-----\n"
        whole = first + b"AQID\n" + last
        for text, wanted in (
            (first + first + b"AQID\n" + last, [(b"X", 1, None), (b"X", 2, b"\1\2\3")]),
            (whole + whole, [(b"X", 1, b"\1\2\3"), (b"X", 4, b"\1\2\3")]),
            (first + b"AQID\n-----END Y-----\n" + whole, [(b"X", 1, None), (b"X", 4, b"\1\2\3")]),
            (b" " + whole + whole, [(b"X", 4, b"\1\2\3")]),
            (b"-----BEGIN X\n" + whole, [(b"X", 2, b"\1\2\3")]),
            (first + b"-----BEGIN X\nAQID\n" + last, [(b"X", 1, None)]),
            (first + b"AQ -----BEGIN ID\n" + last, [(b"X", 1, None)]),
            (whole.replace(b"\n", b"\r\n") * 2, [(b"X", 1, b"\1\2\3"), (b"X", 4, b"\1\2\3")]),
            (first[:-1], [(b"X", 1, None)]),
        ):
            with self.subTest(text=text):
                self.assertEqual(list(pem_blocks(text)), wanted)

    def test_reads_many_blocks_in_linear_time(self):
        # As many as a bundle of certificates might have; base64 is that of the standard library.
        held = bytes(range(256)) * 4
        lines = base64.encodebytes(held).decode()
        text = f"-----BEGIN X-----\n{lines}-----END X-----\n"
        start = clock.perf_counter()
        found = list(pem_blocks(text * 4000))
        self.assertEqual((len(found), {it.octets for it in found}, found[-1].line), (4000, {held}, 3999 * text.count("\n") + 1))
        self.assertLess(clock.perf_counter() - start, 20)  # where each call reads the whole text it is minutes

    def test_reads_times(self):
        noon = datetime.datetime(2026, 11, 24, 12, tzinfo=datetime.timezone.utc)
        self.assertEqual(time(Type.UTCTIME, Rules.DER, octets("170D3236313132343132303030305A")), noon)  # 11.8
        self.assertEqual(time(Type.GENTIME, Rules.DER, octets("180F32303236313132343132303030305A")), noon)  # 11.7
        with self.assertRaises(ValueError) as wrong:
            time(Type.BOOL, Rules.DER, octets("0101FF"))
        self.assertNotIsInstance(wrong.exception, Refused)
        self.assertIn("BOOL", str(wrong.exception))

    @unittest.skipUnless(HEADER.exists(), "the header isn't there")
    def test_has_the_numbers_of_the_header(self):
        for prefix, names in (("KIND", ErrorKind), ("PART", PartKind)):
            numbers = re.findall(rf"\bSOQ_{prefix}_(\w+) = (\d+)", HEADER.read_text())
            self.assertEqual([(it.name, str(it.value)) for it in names], numbers)


MODULE = """Rows DEFINITIONS IMPLICIT TAGS ::= BEGIN
Row ::= SEQUENCE {
    number INTEGER,
    name UTF8String OPTIONAL,
    list SEQUENCE OF BOOLEAN,
    kind CHOICE { low [0] NULL, high [1] INTEGER }
}
END
"""


class Schemas(unittest.TestCase):
    """The octets are worked out by hand from X.690, the values from X.697."""

    row = octets("3012 020105 0C02C3A9 3006 0101FF 010100 810107")
    value = {"number": 5, "name": "\u00e9", "list": [True, False], "kind": {"high": 7}}

    def setUp(self):
        self.schema = Schema({"rows.asn1": MODULE}, "Row")

    def test_reads_and_writes(self):
        self.assertEqual(self.schema.loads(self.row), self.value)
        self.assertEqual(self.schema.dumps(self.value), self.row)
        spelled = octets("3080 020105 2C06 0401C3 0401A9 3080 010105 010100 0000 810107 0000")  # 8.1.3.6, 8.2.2, 8.21
        self.assertEqual(self.schema.loads(spelled, Rules.BER), self.value)
        self.assertEqual(self.schema.normalise(spelled), self.row)
        for modules in ([MODULE], MODULE):
            self.assertEqual(Schema(modules, "Rows.Row").loads(self.row), self.value)

    def test_checks(self):
        self.schema.check(self.row)
        with self.assertRaises(Refused) as refused:  # 11.1
            self.schema.check(self.row.replace(octets("0101FF"), octets("010105")))
        self.assertEqual((refused.exception.path, refused.exception.offset, refused.exception.kind), ("list[0]", 11, 8))
        with self.assertRaises(Refused) as refused:
            self.schema.dumps({"number": 5, "list": [True, 0]})
        self.assertEqual(refused.exception.path, "list[1]")

    def test_finds(self):
        part = self.schema.find(self.row, "kind.high")
        self.assertEqual((part.offset, part.tag_class, part.tag_number, part.contents), (17, 2, 1, octets("07")))
        self.assertIs(part.kind, PartKind.INTEGER)
        chosen = self.schema.find(self.row, "kind")
        self.assertEqual((chosen.kind, chosen.tag_class, chosen.tag_number), (PartKind.CHOICE, 2, 1))
        self.assertIsNone(self.schema.find(self.row, "kind.low"))
        self.assertEqual(integer(Rules.DER, part.whole), 7)
        self.assertIsNone(self.schema.find(self.row, "list[2]"))
        for unknown, name in (
            ("names", "names"), ("list[", "["), ("number.part", "part"), ("kind.middle.low", "middle"), ("list[0][1].x", "[1]"), ("[0]", "[0]"),
            ("list[01].x", "[01]"), ("kind..high", "."), (".number", ".number"), ("list[0].", "."),
        ):
            with self.subTest(unknown=unknown), self.assertRaises(UnknownPath) as wrong:
                self.schema.find(self.row, unknown)
            self.assertEqual((wrong.exception.path, wrong.exception.name), (unknown, name))
            self.assertTrue(str(wrong.exception).startswith(unknown + ": ") and str(wrong.exception).endswith(": " + name))
            self.assertNotIsInstance(wrong.exception, ValueError)
        with self.assertRaises(ValueError):
            self.schema.find(self.row, "number\0.part")

    def test_takes_octets_alone(self):
        for call in (self.schema.check, self.schema.loads, self.schema.normalise, lambda it: self.schema.find(it, "number")):
            for wrong in (5, self.row.decode("latin-1"), list(self.row)):
                with self.assertRaises(TypeError):
                    call(wrong)
        for call in (self.schema.check, self.schema.loads, self.schema.normalise):
            with self.assertRaises(ValueError):
                call(self.row, 7)

    def test_reports_faults(self):
        with self.assertRaises(ModuleFault) as faulty:
            Schema({"m.asn1": "M DEFINITIONS ::= BEGIN\nT ::= SEQUENCE { part Missing }\nEND\n"}, "T")
        self.assertTrue(str(faulty.exception).startswith("m.asn1:2:23: "))
        self.assertEqual((faulty.exception.name, faulty.exception.line, faulty.exception.column), ("m.asn1", 2, 23))
        for name in ("Other", "Other.Row", "Rows.Other"):
            with self.assertRaises(UnknownType) as unknown:
                Schema({"rows.asn1": MODULE}, name)
            self.assertEqual(unknown.exception.name, name)
            self.assertTrue(str(unknown.exception).startswith(name + ": "))
        with self.assertRaises(ValueError):
            Schema({"rows.asn1": MODULE}, "Row\0x")

    def test_refuses_damaged_schemas(self):
        kept = self.schema.octets
        Schema.from_octets(bytearray(kept)).check(self.row)
        self.assertEqual(pickle.loads(pickle.dumps(self.schema)).loads(self.row), self.value)
        for damaged in (kept[1:], kept[:-1], b"", self.row):
            schema = Schema.from_octets(damaged)
            for call in (
                schema.check, schema.loads, schema.normalise, lambda it: schema.find(it, "number"), lambda it: schema.find(it, "names"),
                lambda it: schema.dumps(self.value),
            ):
                with self.assertRaises(BadSchema) as bad:
                    call(self.row)
                self.assertNotIsInstance(bad.exception, Refused)
        with self.assertRaises(TypeError):
            Schema.from_octets("schema")


class Values(unittest.TestCase):
    """Octets and values are worked out by hand from X.690, whose sections are named, unless another source is."""

    def assert_is(self, schema, digits, value):
        """Asserts that octets are this value, that is of these types, and the value these octets, in either form."""
        held = octets(digits)
        found = schema.loads(held, native=True)
        self.assertEqual((type(found), found), (type(value), value))
        self.assertEqual((schema.dumps(value), schema.dumps(schema.loads(held))), (held, held))

    def test_are_those_of_python(self):
        for notation, digits, value in (
            ("BOOLEAN", "0101FF", True),
            ("INTEGER", "0201FF", -1),  # 8.3
            ("NULL", "0500", None),
            ("OCTET STRING", "04020AFF", b"\x0a\xff"),
            ("BIT STRING", "0307040A3B5F291CD0", BitString(octets("0A3B5F291CD0"), 44)),  # 8.6.4.2
            ("BIT STRING (SIZE (44))", "0307040A3B5F291CD0", BitString(octets("0A3B5F291CD0"), 44)),
            ("BIT STRING (SIZE (0))", "030100", BitString(b"", 0)),
            ("BIT STRING { first(0) }", "030205A0", BitString(b"\xa0", 3)),
            ("OBJECT IDENTIFIER", "0603883703", "2.999.3"),  # 8.19.5
            ("ENUMERATED { low(3), ... }", "0A0103", "low"),
            ("ENUMERATED { low(3), ... }", "0A0104", 4),
            ("UTF8String", "0C02C3A9", "\u00e9"),
            ("TeletexString", "1401E9", "\u00e9"),
            ("BMPString", "1E020041", "A"),
            ("ANY", "020105", octets("020105")),
            ("SEQUENCE OF OCTET STRING", "3005 0400 040161", [b"", b"a"]),
            ("SEQUENCE OF INTEGER", "3000", []),
            ("SEQUENCE OF UTCTime", "300F 170D3730303130313030303030305A", [utc(1970, 1, 1)]),
            ("SEQUENCE OF SEQUENCE OF CHOICE { bits BIT STRING (SIZE (3)), time UTCTime }",
             "3015 3013 030205A0 170D3730303130313030303030305A",
             [[Choice("bits", BitString(b"\xa0", 3)), Choice("time", utc(1970, 1, 1))]]),
            ("SEQUENCE { a [0] EXPLICIT ANY, b INTEGER DEFAULT 5 }", "3004 A0020500", {"a": octets("0500")}),
            ("SEQUENCE { a INTEGER, ... }", "3008 020105 0500 040100", {"a": 5, "...": [octets("0500"), octets("040100")]}),
            ("SET { b [1] OCTET STRING, a [0] NULL }", "3105 8000 810161", {"a": None, "b": b"a"}),
            ("CHOICE { low [0] NULL, high [1] EXPLICIT CHOICE { octets OCTET STRING } }", "A103 040161", Choice("high", Choice("octets", b"a"))),
            ("CHOICE { low NULL, ... }", "040100", Choice("...", octets("040100"))),
        ):
            with self.subTest(notation=notation, digits=digits):
                self.assert_is(type_of(notation), digits, value)

    def test_are_instants(self):
        for notation, text, value in (
            ("UTCTime", b"261124120000Z", utc(2026, 11, 24, 12)),  # 11.8
            ("UTCTime", b"700101000000Z", utc(1970, 1, 1)),
            ("UTCTime", b"691231235959Z", utc(2069, 12, 31, 23, 59, 59)),
            ("GeneralizedTime", b"20261124120000Z", utc(2026, 11, 24, 12)),  # 11.7
            ("GeneralizedTime", b"00991124120000.25Z", utc(99, 11, 24, 12, 0, 0, 250_000)),
            ("GeneralizedTime", b"19851106210627.123456Z", utc(1985, 11, 6, 21, 6, 27, 123_456)),
            ("GeneralizedTime", b"19851106210627.1234567Z", "19851106210627.1234567Z"),
            ("GeneralizedTime", b"00001124120000Z", "00001124120000Z"),
            ("GeneralizedTime", b"20161231235960Z", "20161231235960Z"),
        ):
            with self.subTest(text=text):
                tag = 23 if notation == "UTCTime" else 24
                self.assert_is(type_of(notation), bytes([tag, len(text), *text]).hex(), value)
        self.assert_is(type_of("DATE"), "1F1F083139383531313134", datetime.date(1985, 11, 14))  # 8.26.1
        # 8.25.3: a time with an offset is the instant in UTC.
        zoned = type_of("GeneralizedTime").loads(b"\x18\x1319851106210627+0100", Rules.BER, native=True)
        self.assertEqual(zoned, utc(1985, 11, 6, 20, 6, 27))
        self.assertEqual(type_of("UTCTime").dumps(zoned.astimezone(datetime.timezone(datetime.timedelta(hours=1)))), b"\x17\x0d851106200627Z")

    def test_are_read_by_ber(self):
        schema = type_of("SEQUENCE { a BOOLEAN DEFAULT FALSE, l SEQUENCE OF NULL DEFAULT {}, s OCTET STRING, b BIT STRING (SIZE (12)) }")
        held = octets("3080 010100 3000 2480 040161 040162 0000 2380 03020041 030204F0 0000 0000")  # 8.6.4, 8.7.3
        value = {"s": b"ab", "b": BitString(octets("41F0"), 12)}
        self.assertEqual(schema.loads(held, Rules.BER, native=True), value)
        self.assertEqual(schema.dumps(value), octets("3009 04026162 03030441F0"))

    def test_are_those_of_a_certificate(self):
        # As openssl x509 -noout -text prints them.
        path = TOP / "crates/soqavise/data/certificate.pem"
        if not path.exists():
            self.skipTest("the certificate isn't there")
        held = next(pem_blocks(path.read_bytes())).octets
        schema = Schema("Certificate")
        body = schema.loads(held, native=True)["tbsCertificate"]
        self.assertEqual(body["serialNumber"], 0x0102030405)
        self.assertEqual(body["validity"], {
            "notBefore": Choice("utcTime", utc(2026, 11, 24, 13, 7, 21)), "notAfter": Choice("utcTime", utc(2036, 11, 21, 13, 7, 21)),
        })
        key = body["subjectPublicKeyInfo"]["subjectPublicKey"]
        self.assertEqual((key.length, key.octets[:4]), (8 * 65, octets("043E09D1")))
        extensions = {it["extnID"]: it["extnValue"] for it in body["extensions"]}
        self.assertEqual(Schema("SubjectAltName").loads(extensions["2.5.29.17"], native=True), [Choice("dNSName", "example.org")])
        self.assertEqual(Schema("BasicConstraints").loads(extensions["2.5.29.19"], native=True), {})
        for native_form in (False, True):
            self.assertEqual(schema.dumps(schema.loads(held, native=native_form)), held)

    def test_are_those_of_a_key_usage(self):
        usage = Schema("KeyUsage").loads(octets("030205A0"), native=True)  # digitalSignature, keyEncipherment (RFC 5280 4.2.1.3)
        self.assertEqual([it for it in range(-1, 10) if usage.has(it)], [0, 2])

    def test_are_reals(self):
        real = Listed(*[0] * 7, PartKind.REAL, *[0] * 4)
        # X.697 24: 8.5 has the rest. Each number is that of its text by the standard library.
        for text, value in (
            (b"0.1", 0.1), (b"5", 5.0), (b"1e+22", 1e22), (b'"-0"', -0.0), (b'"INF"', float("inf")), (b'"-INF"', float("-inf")),
            (b'{"base10Value":15E-1}', decimal.Decimal("1.5")), (b'{"base10Value":15}', decimal.Decimal(15)),
            (b'{"base10Value":1E400}', decimal.Decimal("1E400")), (b'{"base10Value":0.12345678901234567890}', decimal.Decimal("0.12345678901234567890")),
            (b'"{mantissa 1, base 2, exponent 5000}"', "{mantissa 1, base 2, exponent 5000}"),
        ):
            with self.subTest(text=text):
                form = json_value(text)
                found = native(form, [real], b"", lambda _: 0)
                self.assertEqual((type(found), repr(found)), (type(value), repr(value)))
                for written in (json_text(found, Known())[0], json_text(form, Known())[0]):
                    again = native(json_value(written), [real], b"", lambda _: 0)
                    self.assertEqual(repr(again), repr(value))
        self.assertEqual(repr(native(json_value(b'"NaN"'), [real], b"", lambda _: 0)), "nan")
        self.assertEqual(json_text([float("nan"), float("inf")], Known())[0], b'["NaN","INF"]')

    def test_are_long_numbers(self):
        schema = type_of("INTEGER")
        for number in (10**4999, -(10**4999), 10**8000 - 1, -(10**12000 + 7), 2**100_000):
            digits = number.to_bytes(number.bit_length() // 8 + 1, "big", signed=True)
            held = b"\x02\x82" + len(digits).to_bytes(2, "big") + digits  # 8.1.3.5
            for native_form in (False, True):
                self.assertEqual(schema.loads(held, native=native_form), number)
            self.assertEqual(schema.dumps(number), held)

    def test_are_of_the_type(self):
        # JSON has the same text for octets, a time and characters, so none is taken for another.
        row = "SEQUENCE { list SEQUENCE OF [0] EXPLICIT CHOICE { wrong %s, right NULL } }"
        for notation, value in (
            ("UTF8String", b"a"), ("IA5String", b"a"), ("INTEGER", b"\x12"), ("OBJECT IDENTIFIER", b"\x12"), ("BIT STRING (SIZE (8))", b"a"),
            ("UTF8String", utc(2026, 1, 1)), ("INTEGER", utc(2026, 1, 1)), ("UTF8String", datetime.date(2026, 1, 1)),
            ("UTF8String", datetime.time(12)), ("UTF8String", datetime.datetime(2026, 1, 1)), ("UTF8String", BitString(b"a", 8)),
            ("OCTET STRING", BitString(b"a", 8)), ("BIT STRING (SIZE (12))", BitString(b"\xab\x00", 16)), ("BIT STRING (SIZE (12))", BitString(b"\xab", 8)),
            ("GeneralizedTime", datetime.datetime(1, 1, 1, tzinfo=datetime.timezone(datetime.timedelta(hours=1)))),
        ):
            schema, given = type_of(row % notation), {"list": [Choice("right", None), Choice("wrong", value)]}
            for rules in (Rules.DER, Rules.BER, Rules.DER):
                with self.subTest(notation=notation, value=value), self.assertRaises(Refused) as refused:
                    schema.dumps(given, rules)
                self.assertEqual(refused.exception.path, "list[1].wrong")
        schema = type_of("SEQUENCE OF BIT STRING (SIZE (12))")
        right = [BitString(b"\xab\xc0", 12)] * 2
        for _ in range(2):
            self.assertEqual(schema.loads(schema.dumps(right), native=True), right)
            with self.assertRaises(Refused) as refused:
                schema.dumps([*right, BitString(b"\xab\x00", 16)])
            self.assertEqual(refused.exception.path, "[2]")
        # What isn't written, since it is the default value, may be octets or their digits.
        self.assertEqual(type_of("SEQUENCE { octets OCTET STRING DEFAULT 'AB'H }").dumps({"octets": b"\xab"}), octets("3000"))

    def test_are_refused_with_their_paths(self):
        schema = type_of("SEQUENCE { list SEQUENCE OF CHOICE { utc UTCTime, bits BIT STRING (SIZE (3)), general GeneralizedTime, number INTEGER } }")
        circle = []
        circle.append(circle)
        for element, path in (
            ({1}, ""), (b"5", ""), (Choice("number", {1}), ".number"), (Choice("number", utc(2026, 1, 1)), ".number"), (Choice("number", 1.5), ".number"),
            (Choice("number", float("nan")), ".number"), (Choice("number", "\ud800"), ".number"), (Choice("number", {5: 5}), ".number"),
            (Choice("number", decimal.Decimal("NaN")), ".number"), (Choice("utc", utc(2080, 1, 1)), ".utc"),
            (Choice("utc", datetime.datetime(2026, 1, 1)), ".utc"), (Choice("utc", datetime.date(2026, 1, 1)), ".utc"),
            (Choice("bits", BitString(b"\xa0", 9)), ".bits"), (Choice("bits", BitString(b"\xa1", 8)), ".bits"), (Choice("bits", BitString(b"", -1)), ".bits"),
            (Choice("general", "1"), ".general"), (Choice("number", circle), ".number"),
        ):
            right = [Choice("utc", utc(2026, 1, 1)), Choice("general", utc(2080, 1, 1)), Choice("bits", BitString(b"\xa0", 3))]
            with self.subTest(element=repr(element)):
                with self.assertRaises(Refused) as refused:
                    schema.dumps({"list": [*right, element]})
                self.assertTrue(refused.exception.path.startswith(f"list[3]{path}"), refused.exception.path)
                self.assertTrue(str(refused.exception).startswith(refused.exception.path + ": "))
                # What is refused changes nothing of what isn't.
                self.assertEqual(schema.loads(schema.dumps({"list": right}), native=True), {"list": right})


IMPORTING = """Mine { 1 3 6 1 4 1 99999 } DEFINITIONS ::= BEGIN
IMPORTS MessageID -- FROM Nowhere -- FROM %s { 1 2 3 }; -- "
Mine ::= SEQUENCE { id MessageID } /* FROM Nowhere */
END
"""


class BuiltIn(unittest.TestCase):
    def test_knows_types(self):
        self.assertEqual(Schema("LDAPMessage").loads(UNBIND), {"messageID": 3, "protocolOp": {"unbindRequest": None}})
        for name in ("LDAP.LDAPMessage", "Certificate", "ContentInfo", "PFX", "CMP.PKIMessage", "PKCS12.SafeContents", "KDC-REQ"):
            with self.subTest(name=name):
                self.assertEqual(Schema(type=name).octets, Schema(name).octets)
        for name in ("LdapMessage", "LDAP.Certificate", "OpenLDAP.LDAPMessage", "LDAPMessage ::=", "", "."):
            with self.subTest(name=name), self.assertRaises(UnknownType):
                Schema(name)
        with self.assertRaises(TypeError):
            Schema()

    @unittest.skipUnless((TOP / "crates").exists(), "the certificate isn't there")
    def test_reads_a_certificate(self):
        # As openssl x509 -noout -serial -subject -enddate -ext subjectAltName prints them.
        block = next(pem_blocks((TOP / "crates/soqavise/data/certificate.pem").read_bytes()))
        body = Schema("Certificate").loads(block.octets)["tbsCertificate"]
        self.assertEqual((body["serialNumber"], body["validity"]["notAfter"]), (0x0102030405, {"utcTime": "361121130721Z"}))
        held = [it["extnValue"] for it in body["extensions"] if it["extnID"] == "2.5.29.17"]
        self.assertEqual(Schema("SubjectAltName").loads(octets(held[0])), [{"dNSName": "example.org"}])

    def test_are_imported(self):
        for module in ("LDAP", "Lightweight-Directory-Access-Protocol-V3"):
            schema = Schema({"mine.asn1": IMPORTING % module}, "Mine")
            self.assertEqual(schema.loads(octets("3003020103")), {"id": 3})
        # A type that these modules don't have is that of the built-in ones.
        self.assertEqual(Schema(IMPORTING % "LDAP", "LDAPMessage").octets, Schema("LDAPMessage").octets)
        with self.assertRaises(ModuleFault) as fault:
            Schema({"mine.asn1": IMPORTING % "LDAPv4"}, "Mine")
        self.assertEqual((fault.exception.name, fault.exception.line), ("mine.asn1", 3))
        with self.assertRaises(UnknownType):
            Schema(IMPORTING % "LDAP", "Yours")

    def test_give_way(self):
        own = "%s DEFINITIONS ::= BEGIN MessageID ::= BOOLEAN LDAPMessage ::= NULL END"
        for name in ("LDAP", "LDAP { iso(1) 2 }", "LDAP -- DEFINITIONS -- { 1 }", "Other"):
            for type in ("LDAPMessage", name.split()[0] + ".LDAPMessage"):
                self.assertIsNone(Schema(own % name, type).loads(octets("0500")))
        both = [IMPORTING % "LDAP", own % "LDAP"]
        self.assertEqual(Schema(both, "Mine").loads(octets("30030101FF")), {"id": True})
        with self.assertRaises(UnknownType):
            Schema(own % "LDAP", "LDAPString")

    def test_are_found_in_linear_time(self):
        start = clock.perf_counter()
        for piece in ("--a--", "/*", '"', '"a"', "A{", "A{} DEFINITIONS ", "a-", "A--", "--\n", "FROM A "):
            self.assertEqual(needed([piece * 100_000, "T ::="], "T"), {})
        self.assertLess(clock.perf_counter() - start, 20)  # where each piece is looked for the end of another it is minutes

    def test_says_that_they_are_missing(self):
        program = "import soqavise\nsoqavise.Schema('M DEFINITIONS ::= BEGIN T ::= NULL END', 'T')\nsoqavise.Schema('Certificate')"
        told = subprocess.run(
            [sys.executable, "-B", "-c", program], env={**os.environ, "SOQAVISE_MODULES": "/nowhere"}, cwd=pathlib.Path(__file__).parent,
            capture_output=True, text=True, check=False,
        ).stderr.splitlines()[-1]
        self.assertTrue(told.startswith("FileNotFoundError: Certificate: /nowhere has no module; "), told)


if __name__ == "__main__":
    unittest.main()
