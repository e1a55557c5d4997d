//! Octets are worked out by hand from X.690, whose sections are named, and JSON from X.697.
use soqavise::{extension, name_text, pem, Error, Kind, Rules, Schema, Value};
use std::borrow::Cow;
use std::time::{Duration, Instant};

const MODULE: &str = "Rows DEFINITIONS IMPLICIT TAGS ::= BEGIN
Row ::= SEQUENCE {
    number INTEGER,
    name UTF8String OPTIONAL,
    list SEQUENCE OF BOOLEAN,
    kind CHOICE { low [0] NULL, high [1] INTEGER },
    held [3] EXPLICIT BIT STRING OPTIONAL
}
END
";

/// {number 5, name U+00E9, list {TRUE, FALSE}, kind high: 7, held '101'B}
const ROW: [u8; 26] = [
    0x30, 0x18, 0x02, 0x01, 0x05, 0x0C, 0x02, 0xC3, 0xA9, 0x30, 0x06, 0x01, 0x01, 0xFF, 0x01, 0x01, 0x00, 0x81, 0x01, 0x07, 0xA3, 0x04, 0x03, 0x02,
    0x05, 0xA0,
];

const JSON: &str = r#"{"number":5,"name":"é","list":[true,false],"kind":{"high":7},"held":{"value":"A0","length":3}}"#;

fn schema() -> Schema {
    Schema::compile(&[("rows.asn1", MODULE)], "Row").expect("a schema")
}

#[test]
fn reads_values() {
    let row = schema().read(Rules::Der, &ROW).expect("a row");
    assert_eq!(row.kind(), Kind::Sequence);
    assert_eq!(row["number"].as_i64(), Some(5));
    assert_eq!(row["name"].as_text().as_deref(), Some("é"));
    assert_eq!(row["list"].parts().len(), 2);
    assert_eq!((row["list"][1].kind(), row["list"][1].octets(), row["list"][1].offset()), (Kind::Boolean, &ROW[14..17], 14));
    assert_eq!(row["kind"]["high"].as_i64(), Some(7));
    assert_eq!(row["kind"].as_i64(), Some(7));
    assert_eq!((row["kind"]["low"].kind(), row["list"][2].kind(), row["x"]["y"].kind()), (Kind::Absent, Kind::Absent, Kind::Absent));
    assert_eq!(row["held"].as_bits(), Some((vec![0xA0], 3)));
    assert_eq!(row.iter().map(|it| it.name()).collect::<Vec<_>>(), ["number", "name", "list", "kind", "held"]);
    let mut names = Vec::new();
    for part in &row {
        names.push(part.name());
    }
    assert_eq!(names, row.parts().iter().map(|it| it.name()).collect::<Vec<_>>());
    assert_eq!(row["list"].iter().map(|it| it.as_bool()).collect::<Vec<_>>(), [Some(true), Some(false)]);
    assert_eq!((row["number"].as_bool(), row["missing"].as_bool(), row["missing"].as_u64()), (None, None, None));
    assert_eq!((row["number"].as_u64(), row["kind"].as_u64(), row["name"].as_u64()), (Some(5), Some(7), None));
    assert_eq!((row["kind"].tag_class(), row["kind"].tag_number(), row["kind"].is_constructed()), (2, 1, false));
    assert_eq!((row["held"].tag_class(), row["held"].tag_number(), row["held"].is_constructed()), (2, 3, true));
}

#[test]
fn goes_through_all_parts() {
    let row = schema().read(Rules::Der, &ROW).expect("a row");
    let found: Vec<_> = row.walk().map(|it| (it.path, it.depth, it.value.offset())).collect();
    let wanted = [
        ("", 0, 0), ("number", 1, 2), ("name", 1, 5), ("list", 1, 9), ("list[0]", 2, 11), ("list[1]", 2, 14), ("kind", 1, 17), ("kind.high", 2, 17),
        ("held", 1, 20),
    ];
    assert_eq!(found, wanted.map(|(path, depth, offset)| (path.to_owned(), depth, offset)));
    assert_eq!(row["list"].walk().map(|it| it.path).collect::<Vec<_>>(), ["", "[0]", "[1]"]);
    assert_eq!(row["missing"].walk().count(), 1);
    for part in row.walk() {
        let same = schema().find(Rules::Der, &ROW, &part.path).expect(&part.path).expect("a part");
        assert_eq!((same.offset(), same.octets(), same.kind()), (part.value.offset(), part.value.octets(), part.value.kind()), "{}", part.path);
    }
}

#[test]
fn reads_numbers() {
    let module = "M DEFINITIONS ::= BEGIN T ::= SEQUENCE { number INTEGER } E ::= ENUMERATED { low(3) } END";
    let schema = Schema::compile(&[("m.asn1", module)], "T").expect("a schema");
    // X.690 8.3: two's complement, the first octet 0 where the first bit of the number is 1.
    for (octets, number) in [
        (&[0x00][..], Some(0)),
        (&[0x7F], Some(127)),
        (&[0x00, 0x80], Some(128)),
        (&[0xFF], None),
        (&[0x80], None),
        (&[0x7F, 0xFF, 0xFF, 0xFF, 0xFF, 0xFF, 0xFF, 0xFF], Some(i64::MAX as u64)),
        (&[0x00, 0xFF, 0xFF, 0xFF, 0xFF, 0xFF, 0xFF, 0xFF, 0xFF], Some(u64::MAX)),
        (&[0x01, 0x00, 0x00, 0x00, 0x00, 0x00, 0x00, 0x00, 0x00], None),
    ] {
        let length = octets.len() as u8;
        let message = [&[0x30, length + 2, 0x02, length], octets].concat();
        assert_eq!(schema.read(Rules::Der, &message).expect("a number")["number"].as_u64(), number, "{octets:?}");
    }
    let schema = Schema::compile(&[("m.asn1", module)], "E").expect("a schema");
    assert_eq!(schema.read(Rules::Der, &[0x0A, 0x01, 0x03]).expect("low").as_u64(), Some(3));
}

#[test]
fn reads_octets() {
    let module = "M DEFINITIONS IMPLICIT TAGS ::= BEGIN T ::= SEQUENCE { plain OCTET STRING, cut [0] OCTET STRING, flag BOOLEAN } END";
    let schema = Schema::compile(&[("m.asn1", module)], "T").expect("a schema");
    // 8.7.3: segments, of which one is in segments again; 8.2.2.
    let octets = [
        0x30, 0x80, 0x04, 0x01, 0x61, 0xA0, 0x80, 0x04, 0x01, 0x62, 0x24, 0x80, 0x04, 0x00, 0x04, 0x02, 0x63, 0x64, 0x00, 0x00, 0x24, 0x03, 0x04, 0x01,
        0x65, 0x00, 0x00, 0x01, 0x01, 0x05, 0x00, 0x00,
    ];
    let value = schema.read(Rules::Ber, &octets).expect("a value");
    assert!(matches!(value["plain"].as_octets(), Some(Cow::Borrowed([0x61]))));
    assert_eq!(value["cut"].as_octets().as_deref(), Some(&b"bcde"[..]));
    assert_eq!((value["flag"].as_bool(), value["flag"].as_octets(), value.as_octets()), (Some(true), None, None));
}

#[test]
fn finds_parts() {
    let found = schema().find(Rules::Der, &ROW, "kind.high").expect("a path").expect("a part");
    assert_eq!((found.offset(), found.contents(), found.as_i64()), (17, &[7][..], Some(7)));
    assert_eq!(schema().find(Rules::Der, &ROW, "list[2]"), Ok(None));
    let chosen = schema().find(Rules::Der, &ROW, "kind").expect("a path").expect("a part");
    assert_eq!((chosen.kind(), chosen.tag_class(), chosen.tag_number()), (Kind::Choice, 2, 1));
    assert_eq!(schema().find(Rules::Der, &ROW, "kind.low"), Ok(None));
}

#[test]
fn says_which_step_is_wrong() {
    for (path, wrong) in [
        ("names", "names"),
        ("list[", "["),
        ("number.part", "part"),
        ("kind.middle.low", "middle"),
        ("list[0][1].x", "[1]"),
        ("[0]", "[0]"),
        ("list[01].x", "[01]"),
        ("kind..high", "."),
        (".number", ".number"),
        ("list[0].", "."),
    ] {
        let error = schema().find(Rules::Der, &ROW, path).expect_err(path);
        let shown = error.to_string();
        let Error::UnknownPath { path: asked, name, .. } = error else {
            panic!("{path}");
        };
        assert_eq!((asked.as_str(), name.as_str()), (path, wrong));
        assert!(shown.starts_with(&format!("{path}: ")) && shown.ends_with(&format!(": {wrong}")), "{shown}");
    }
}

/// A module that imports from this one.
fn importing(module: &str) -> String {
    format!(
        "Mine {{ 1 3 6 1 4 1 99999 }} DEFINITIONS ::= BEGIN
IMPORTS MessageID -- FROM Nowhere -- FROM {module} {{ 1 2 3 }}; -- \"é
Mine ::= SEQUENCE {{ id MessageID }} /* FROM Nowhere */
END
"
    )
}

#[test]
fn knows_types() {
    for name in ["LDAPMessage", "LDAP.LDAPMessage"] {
        let schema = Schema::named(name).expect("a type");
        let message = schema.read(Rules::Der, &[0x30, 5, 2, 1, 3, 0x42, 0]).expect("an unbindRequest"); // RFC 4511 4.3
        assert_eq!((message["messageID"].as_i64(), message["protocolOp"]["unbindRequest"].kind()), (Some(3), Kind::Null));
    }
    for name in ["Certificate", "ContentInfo", "PFX", "CMP.PKIMessage", "PKCS12.SafeContents", "KDC-REQ"] {
        assert!(Schema::named(name).is_ok(), "{name}");
    }
    for asked in ["LdapMessage", "LDAP.Certificate", "OpenLDAP.LDAPMessage", "LDAPMessage ::=", "", "."] {
        assert!(matches!(Schema::named(asked), Err(Error::UnknownType { name, .. }) if name == asked), "{asked}");
    }
}

#[test]
fn imports_from_built_in_modules() {
    for module in ["LDAP", "Lightweight-Directory-Access-Protocol-V3"] {
        let schema = Schema::compile(&[("mine.asn1", &importing(module))], "Mine").expect("a type");
        assert_eq!(schema.read(Rules::Der, &[0x30, 3, 2, 1, 3]).expect("3")["id"].as_i64(), Some(3));
    }
    let text = importing("LDAP");
    // A type that these modules don't have is that of the built-in ones.
    assert_eq!(Schema::compile(&[("mine.asn1", &text)], "LDAPMessage"), Schema::named("LDAPMessage"));
    assert!(matches!(Schema::compile(&[("mine.asn1", &text)], "Yours"), Err(Error::UnknownType { .. })));
    let Err(Error::Module { name, line, .. }) = Schema::compile(&[("mine.asn1", &importing("LDAPv4"))], "Mine") else {
        panic!("a module that isn't there");
    };
    assert_eq!((name.as_str(), line), ("mine.asn1", 3));
}

#[test]
fn built_in_modules_give_way() {
    let own = |name: &str| format!("{name} DEFINITIONS ::= BEGIN MessageID ::= BOOLEAN LDAPMessage ::= NULL END");
    for name in ["LDAP", "LDAP { iso(1) 2 }", "LDAP -- DEFINITIONS -- { 1 }", "Other"] {
        for of in ["LDAPMessage", &format!("{}.LDAPMessage", name.split(' ').next().unwrap_or(""))] {
            let schema = Schema::compile(&[("own.asn1", &own(name))], of).expect("a type");
            assert_eq!(schema.check(Rules::Der, &[5, 0]), Ok(()));
        }
    }
    let schema = Schema::compile(&[("mine.asn1", &importing("LDAP")), ("own.asn1", &own("LDAP"))], "Mine").expect("a type");
    assert_eq!(schema.read(Rules::Der, &[0x30, 3, 1, 1, 0xFF]).expect("a BOOLEAN")["id"].as_bool(), Some(true));
    let unknown = Schema::compile(&[("own.asn1", &own("LDAP"))], "LDAPString");
    assert!(matches!(unknown, Err(Error::UnknownType { .. })));
}

#[test]
fn converts() {
    assert_eq!(schema().to_json(Rules::Der, &ROW).as_deref(), Ok(JSON));
    assert_eq!(schema().from_json(Rules::Der, JSON).as_deref(), Ok(&ROW[..]));
    assert_eq!(schema().normalise(Rules::Der, &ROW).as_deref(), Ok(&ROW[..]));
    let Err(Error::Refused { path, .. }) = schema().from_json(Rules::Der, r#"{"number":5,"list":[true,0]}"#) else {
        panic!("X.697");
    };
    assert_eq!(path, "list[1]");
}

#[test]
fn reports_places() {
    let mut changed = ROW;
    changed[13] = 5; // 11.1
    for result in [schema().check(Rules::Der, &changed), schema().read(Rules::Der, &changed).map(drop)] {
        let Err(Error::Refused { kind, path, offset, text }) = result else {
            panic!("11.1");
        };
        assert_eq!((kind, path.as_str(), offset), (8, "list[0]", 11));
        assert!(text.starts_with("list[0], byte 11: DER: "), "{text}");
    }
    assert_eq!(schema().check(Rules::Ber, &changed), Ok(())); // 8.2.2
    let Err(Error::Module { name, line, column, text }) = Schema::compile(&[("m.asn1", "M DEFINITIONS ::= BEGIN\nT ::= SEQUENCE { part Missing }\nEND\n")], "T") else {
        panic!("a type that isn't defined");
    };
    assert_eq!((name.as_str(), line, column), ("m.asn1", 2, 23));
    assert!(text.starts_with("m.asn1:2:23: "), "{text}");
    for asked in ["Other", "Other.Row", "Rows.Other"] {
        let error = Schema::compile(&[("rows.asn1", MODULE)], asked).expect_err("no such type");
        assert!(error.to_string().starts_with(&format!("{asked}: ")), "{error}");
        assert!(matches!(error, Error::UnknownType { name, .. } if name == asked));
    }
}

#[test]
fn refuses_damaged_schemas() {
    let octets = schema().as_octets().to_vec();
    assert_eq!(Schema::from_octets(octets.clone()).check(Rules::Der, &ROW), Ok(()));
    for damaged in [&octets[1..], &octets[..octets.len() - 1], &[], &ROW] {
        let schema = Schema::from_octets(damaged.to_vec());
        for error in [
            schema.check(Rules::Der, &ROW).err(),
            schema.read(Rules::Der, &ROW).err(),
            schema.find(Rules::Der, &ROW, "number").err(),
            schema.find(Rules::Der, &ROW, "names").err(),
            schema.to_json(Rules::Der, &ROW).err(),
            schema.from_json(Rules::Der, JSON).err(),
            schema.normalise(Rules::Der, &ROW).err(),
        ] {
            assert!(matches!(error, Some(Error::BadSchema { .. })), "{error:?}");
        }
    }
}

/// Reads the value of each part in each way.
fn touch(whole: &Value<'_>) -> usize {
    let parts = whole.walk().map(|it| it.value);
    let found = parts.map(|it| {
        let numbers = (it.as_i64(), it.as_u64(), it.as_bool(), it.as_integer_octets());
        let texts = (it.as_text(), it.as_identifier(), it.as_octets(), it.as_bits());
        let times = (it.as_time().map(|it| it.to_string()), it.as_instant());
        usize::from(numbers != (None, None, None, None)) + usize::from(texts != (None, None, None, None)) + usize::from(times != (None, None))
    });
    found.sum()
}

#[test]
fn reads_or_refuses_spoilt_octets() {
    let schema = schema();
    let mut read = 0;
    for (at, octet) in (0..ROW.len()).flat_map(|at| (0..=255).map(move |octet| (at, octet))) {
        let mut changed = ROW;
        changed[at] = octet;
        for rules in [Rules::Ber, Rules::Cer, Rules::Der] {
            let Ok(value) = schema.read(rules, &changed) else {
                assert!(matches!(schema.check(rules, &changed), Err(Error::Refused { .. })));
                continue;
            };
            assert!(touch(&value) > 0);
            read += 1;
            if rules == Rules::Der {
                // DER has one encoding of a value (X.690 10), so what is read is written again.
                assert_eq!(schema.normalise(rules, &changed).as_deref(), Ok(&changed[..]));
                let json = schema.to_json(rules, &changed).expect("JSON");
                assert_eq!(schema.from_json(rules, &json).as_deref(), Ok(&changed[..]), "{json}");
            }
        }
    }
    assert!(read > 1000, "{read}");
}

#[test]
fn refuses_octets_after_the_value() {
    let longer: Vec<u8> = ROW.iter().copied().chain([0]).collect();
    for rules in [Rules::Ber, Rules::Der] {
        let Err(Error::Refused { kind, path, offset, .. }) = schema().read(rules, &longer) else {
            panic!("an octet follows");
        };
        assert_eq!((kind, path.as_str(), offset), (2, "", ROW.len()));
    }
}

/// Returns the label, the line and the octets of each block.
fn blocks(text: &str) -> Vec<(&str, usize, Option<Vec<u8>>)> {
    pem(text).map(|it| (it.label, it.line, it.octets.ok())).collect()
}

#[test]
fn reads_pem() {
    let text = "before\n-----BEGIN A B-----\nAQID\nBA==\n-----END A B-----\n-----BEGIN C-----\n?\n-----END C-----\n-----BEGIN D-----\n";
    assert_eq!(blocks(text), [("A B", 2, Some(vec![1, 2, 3, 4])), ("C", 6, None), ("D", 9, None)]);
    assert_eq!(blocks(""), []);
    let Some(Err(Error::Refused { offset, text: said, .. })) = pem(text).nth(1).map(|it| it.octets) else {
        panic!("no base64");
    };
    assert_eq!(&text[offset..][..17], "-----BEGIN C-----");
    assert!(said.starts_with("line 6: the block \"C\" "), "{said}");
}

// RFC 7468 2 and 3: a block ends with a line of its label; a line of dashes may be the first of the next.
#[test]
fn reads_spoilt_pem() {
    let whole = "-----BEGIN X-----\nAQID\n-----END X-----\n";
    let (first, contents) = ("-----BEGIN X-----\n", Some(vec![1, 2, 3]));
    assert_eq!(blocks(&whole.repeat(2)), [("X", 1, contents.clone()), ("X", 4, contents.clone())]);
    assert_eq!(blocks(&format!("{first}{whole}")), [("X", 1, None), ("X", 2, contents.clone())]);
    assert_eq!(blocks(&format!("{first}AQID\n-----END Y-----\n{whole}")), [("X", 1, None), ("X", 4, contents.clone())]);
    assert_eq!(blocks(&format!(" {whole}{whole}")), [("X", 4, contents.clone())]);
    assert_eq!(blocks(&format!("-----BEGIN X\n{whole}")), [("X", 2, contents.clone())]);
    assert_eq!(blocks(&whole.replace("AQID", "-----BEGIN X\nAQID")), [("X", 1, None)]);
    assert_eq!(blocks(&whole.replace("AQID", "AQ -----BEGIN ID")), [("X", 1, None)]);
    assert_eq!(blocks(&whole.replace('\n', "\r\n")), [("X", 1, contents)]);
}

#[test]
fn reads_many_blocks_in_linear_time() {
    let line = format!("{}\n", "AQID".repeat(16));
    let block = format!("-----BEGIN X-----\n{}-----END X-----\n", line.repeat(24));
    let (text, start) = (block.repeat(4000), Instant::now());
    assert_eq!(pem(&text).filter(|it| it.octets == Ok([1, 2, 3].repeat(384))).count(), 4000);
    assert_eq!(pem(&text).last().map(|it| it.line), Some(3999 * 26 + 1));
    // Where each call reads the whole text it is minutes.
    assert!(start.elapsed() < Duration::from_secs(60), "{:?}", start.elapsed());
}

// DC=net, DC=example, UID=jsmith: the first example of RFC 4514 4.
const NAME: [u8; 72] = *b"\x30\x46\x31\x13\x30\x11\x06\x0a\x09\x92\x26\x89\x93\xf2\x2c\x64\x01\x19\x16\x03net\
    \x31\x17\x30\x15\x06\x0a\x09\x92\x26\x89\x93\xf2\x2c\x64\x01\x19\x16\x07example\
    \x31\x16\x30\x14\x06\x0a\x09\x92\x26\x89\x93\xf2\x2c\x64\x01\x01\x0c\x06jsmith";

#[test]
fn writes_names() {
    assert_eq!(name_text(Rules::Der, &NAME).unwrap(), "UID=jsmith,DC=example,DC=net");
    assert!(matches!(name_text(Rules::Der, &NAME[1..]), Err(Error::Refused { .. })));
}

#[test]
fn finds_extensions() {
    // keyUsage 03 02 05 A0 (RFC 5280 4.2.1.3).
    let octets = [0x30, 0x0D, 0x30, 0x0B, 0x06, 0x03, 0x55, 0x1D, 0x0F, 0x04, 0x04, 0x03, 0x02, 0x05, 0xA0];
    assert_eq!(extension(Rules::Der, &octets, "2.5.29.15"), Ok(Some(vec![0x03, 0x02, 0x05, 0xA0])));
    assert_eq!(extension(Rules::Der, &octets, "2.5.29.19"), Ok(None));
    assert!(matches!(extension(Rules::Der, &octets[1..], "2.5.29.15"), Err(Error::Refused { .. })));
}
