//! Octets are worked out by hand from X.690, whose sections are named.
use soqavise::{
    check, check_by, encodings, identifier, integer, integer_octets, next, normalise, skip, time, Error, Rules, Time, TimeType, Type,
};

fn octets(digits: &str) -> Vec<u8> {
    let digits: Vec<u8> = digits.bytes().filter(|it| *it != b' ').collect();
    let pairs = digits.chunks(2).map(|it| std::str::from_utf8(it).expect("digits"));
    pairs.map(|it| u8::from_str_radix(it, 16).expect("digits")).collect()
}

fn is_refused<T>(result: Result<T, Error>) -> bool {
    matches!(result, Err(Error::Refused { .. }))
}

#[test]
fn checks() {
    assert_eq!(check(Type::Bool, &octets("0101FF")), Ok(()));
    assert_eq!(check(Type::Ldap, &octets("30050201034200")), Ok(())); // RFC 4511 4.3
    let Err(Error::Refused { kind, text, .. }) = check(Type::Bool, &octets("010105")) else {
        panic!("11.1");
    };
    assert_eq!(kind, 8);
    assert!(text.starts_with("DER: "), "{text}");
    assert_eq!(check_by(Type::Bool, Rules::Ber, &octets("010105")), Ok(())); // 8.2.2
    let Err(Error::Refused { offset, .. }) = check_by(Type::Bool, Rules::Der, &octets("0101FF00")) else {
        panic!("8.1.1.1");
    };
    assert_eq!(offset, 3);
}

#[test]
fn normalises() {
    let normal = normalise(Type::Octets, Rules::Ber, &octets("2480 040141 040142 0000")); // 8.7.3
    assert_eq!(normal, Ok(octets("04024142")));
    assert!(is_refused(normalise(Type::Any, Rules::Ber, &octets("30800000"))));
}

#[test]
fn goes_through_encodings() {
    let input = octets("3080 0101FF 0000 0500"); // 8.1.3.6, 8.1.5
    let found = next(Rules::Ber, &input).expect("one encoding");
    assert_eq!((found.tag_class, found.tag_number, found.is_constructed), (0, 16, true));
    assert_eq!((found.contents, found.whole, found.rest), (&input[2..5], &input[..7], &input[7..]));
    assert_eq!(skip(Rules::Ber, &input), Ok(7));
    assert_eq!(encodings(Rules::Ber, &input).map(|it| it.expect("two").tag_number).collect::<Vec<_>>(), [16, 5]);
    assert!(is_refused(next(Rules::Der, &input)));
    assert!(is_refused(skip(Rules::Der, &[])));
    assert_eq!(encodings(Rules::Der, &octets("0500 02")).map(is_refused).collect::<Vec<_>>(), [false, true]);
}

#[test]
fn reads_values() {
    assert_eq!(integer(Rules::Der, &octets("0201FF")), Ok(-1)); // 8.3
    assert_eq!(integer(Rules::Der, &octets("800105")), Ok(5)); // 8.14
    assert!(is_refused(integer(Rules::Der, &octets("0209008000000000000000"))));
    assert_eq!(integer_octets(Rules::Der, &octets("0209008000000000000000")), Ok(octets("008000000000000000")));
    assert!(is_refused(integer_octets(Rules::Der, &octets("02020001")))); // 8.3.2
    assert_eq!(identifier(Rules::Der, &octets("0603883703")), Ok("2.999.3".to_owned())); // 8.19.5
    assert!(is_refused(identifier(Rules::Der, &octets("0600"))));
    let noon = Time { year: 2026, month: 11, day: 24, hour: 12, ..Time::default() };
    assert_eq!(time(TimeType::Utc, Rules::Der, &octets("170D3236313132343132303030305A")), Ok(noon)); // 11.8
    assert_eq!(time(TimeType::Generalized, Rules::Der, &octets("180F32303236313132343132303030305A")), Ok(noon)); // 11.7
    assert!(is_refused(time(TimeType::Utc, Rules::Der, &octets("0101FF"))));
    // 11.7 and X.680 46: a fraction of a second, and a leap second.
    for (text, shown) in [
        ("19851106210627.3Z", "1985-11-06 21:06:27.3"),
        ("20161231235960Z", "2016-12-31 23:59:60"),
        ("00010101000000Z", "0001-01-01 00:00:00"),
    ] {
        let octets = [&[24, text.len() as u8], text.as_bytes()].concat();
        assert_eq!(time(TimeType::Generalized, Rules::Der, &octets).map(|it| it.to_string()).as_deref(), Ok(shown));
    }
}
