//! The library (its proved code, as a static library) beside its peers, in one process, on the same octets.
//! Each side is called through a pointer to a function `(octets) -> usize` that isn't inlined, so both pay the same call.
//! A round calls every candidate in turn on all inputs; of all rounds the least time of each counts.
use bcder::encode::{self, PrimitiveContent, Values};
use bcder::{Mode, Oid, Tag};
use std::hint::black_box;
use std::io;
use std::time::{Duration, Instant};

macro_rules! exports { ($($name:ident($($p:ident: $t:ty),*);)*) => { extern "C" { $(fn $name(input: *const u8, len: usize $(, $p: $t)*) -> usize;)* } } }
exports! {
    soq_nothing(); soq_bool_read(); soq_i64_read(); soq_integer_read(); soq_oid_read(); soq_octets_read(); soq_octets_borrow();
    soq_utf8_read(); soq_printable_read(); soq_pair_read(); soq_validity_read(); soq_validity_read_written(); soq_octets_put();
    soq_list_i64_read(); soq_list_integer_read();
    soq_oid_write(times: usize); soq_bits_write(times: usize); soq_octets_write(times: usize); soq_pair_write(times: usize); soq_validity_write(times: usize);
    soq_list_i64_write(times: usize); soq_list_integer_write(times: usize);
    soq_nest_write_3(times: usize); soq_nest_write_10(times: usize); soq_nest_write_20(times: usize);
    soq_bool_write(times: usize); soq_i64_write(times: usize); soq_both_read(); soq_both_write(times: usize);
    soq_certificate_read(); soq_certificate_write(times: usize); soq_certificate_read_written(); soq_certificate_normalise(); soq_certificate_check(times: usize);
    soq_snmp_read(); soq_snmp_write(times: usize); soq_ldap_read(); soq_ldap_write(times: usize);
    soq_skip();
}

fn hex(s: &str) -> Vec<u8> { (0..s.len() / 2).map(|i| u8::from_str_radix(&s[2 * i..2 * i + 2], 16).unwrap()).collect() }

#[derive(asn1::Asn1Read, asn1::Asn1Write)]
enum Time { Utc(asn1::UtcTime), Gen(asn1::GeneralizedTime) }
#[derive(asn1::Asn1Read, asn1::Asn1Write)]
struct Validity { a: Time, b: Time }
#[derive(asn1::Asn1Read, asn1::Asn1Write)]
struct Pair { a: i64, b: bool }

#[derive(asn1::Asn1Read, asn1::Asn1Write)]
struct Algorithm<'a> { algorithm: asn1::ObjectIdentifier, parameters: Option<asn1::Tlv<'a>> }
#[derive(asn1::Asn1Read, asn1::Asn1Write)]
struct Attribute<'a> { kind: asn1::ObjectIdentifier, value: asn1::Tlv<'a> }
#[derive(asn1::Asn1Read, asn1::Asn1Write)]
struct KeyInfo<'a> { algorithm: Algorithm<'a>, key: asn1::BitString<'a> }
#[derive(asn1::Asn1Read, asn1::Asn1Write)]
struct Extension<'a> { id: asn1::ObjectIdentifier, #[default(false)] critical: bool, value: &'a [u8] }
type Name<'a> = asn1::SequenceOf<'a, asn1::SetOf<'a, Attribute<'a>>>;
#[derive(asn1::Asn1Read, asn1::Asn1Write)]
struct ToBeSigned<'a> {
    #[explicit(0)] #[default(0u8)] version: u8, serial: asn1::BigInt<'a>, signature: Algorithm<'a>, issuer: Name<'a>, validity: Validity, subject: Name<'a>,
    key: KeyInfo<'a>, #[implicit(1)] issuer_id: Option<asn1::BitString<'a>>, #[implicit(2)] subject_id: Option<asn1::BitString<'a>>,
    #[explicit(3)] extensions: Option<asn1::SequenceOf<'a, Extension<'a>>>,
}
#[derive(asn1::Asn1Read, asn1::Asn1Write)]
struct Certificate<'a> { signed: ToBeSigned<'a>, algorithm: Algorithm<'a>, signature: asn1::BitString<'a> }

#[derive(asn1::Asn1Read, asn1::Asn1Write)]
struct VarBind<'a> { name: asn1::ObjectIdentifier, value: asn1::Tlv<'a> }
#[derive(asn1::Asn1Read, asn1::Asn1Write)]
struct Pdu<'a> { request_id: i32, error_status: i32, error_index: i32, bindings: asn1::SequenceOf<'a, VarBind<'a>> }
#[derive(asn1::Asn1Read, asn1::Asn1Write)]
enum Pdus<'a> {
    #[implicit(0)] GetRequest(Pdu<'a>), #[implicit(1)] GetNextRequest(Pdu<'a>), #[implicit(2)] Response(Pdu<'a>), #[implicit(3)] SetRequest(Pdu<'a>),
    #[implicit(6)] InformRequest(Pdu<'a>), #[implicit(7)] SnmpV2Trap(Pdu<'a>), #[implicit(8)] Report(Pdu<'a>),
}
/// A message of SNMP, whose values asn1 leaves as octets.
#[derive(asn1::Asn1Read, asn1::Asn1Write)]
struct Message<'a> { version: u8, community: &'a [u8], data: Pdus<'a> }

/// A message of LDAP by bcder, of the operations that the rows have: octets are shared with the input, and texts aren't looked at.
fn ldap<S: bcder::decode::Source>(c: &mut bcder::decode::Constructed<S>) -> Result<usize, S::Err> {
    use bcder::OctetString as Octets;
    c.take_sequence(|c| {
        let id = c.take_u32()?;
        let bound = c.take_opt_constructed_if(Tag::application(0), |c| Ok((c.take_u8()?, Octets::take_from(c)?, c.take_primitive_if(Tag::CTX_0, |p| p.take_all())?)))?;
        if black_box(bound).is_none() {
            let entry = c.take_opt_constructed_if(Tag::application(4), |c| Ok((Octets::take_from(c)?, c.take_sequence(|c| {
                let mut attributes = vec![];
                while let Some(a) = c.take_opt_sequence(|c| Ok((Octets::take_from(c)?, c.take_set(|c| {
                    let mut values = vec![];
                    while let Some(v) = Octets::take_opt_from(c)? { values.push(v) }
                    Ok(values)
                })?)))? { attributes.push(a) }
                Ok(attributes)
            })?)))?;
            if black_box(entry).is_none() {
                let result = |c: &mut bcder::decode::Constructed<S>| Ok((c.take_primitive_if(Tag::ENUMERATED, |p| p.to_u8())?, Octets::take_from(c)?, Octets::take_from(c)?));
                if black_box(c.take_opt_constructed_if(Tag::application(1), result)?).is_none() { black_box(c.take_constructed_if(Tag::application(5), result)?); }
            }
        }
        let controls = c.take_opt_constructed_if(Tag::CTX_0, |c| c.take_sequence(|c| Ok((Octets::take_from(c)?, Octets::take_opt_from(c)?))))?;
        black_box(controls);
        Ok(id as usize | 1)
    })
}

/// The certificates of a PEM file.
fn certificates(file: &str) -> Vec<Input> {
    let mut found = vec![];
    let mut text = String::new();
    for line in std::fs::read_to_string(file).unwrap_or_default().lines() {
        match line {
            "-----BEGIN CERTIFICATE-----" => text.clear(),
            "-----END CERTIFICATE-----" => found.push(input(base64(&text))),
            line => text.push_str(line.trim()),
        }
    }
    found
}

fn base64(text: &str) -> Vec<u8> {
    let digits = text.bytes().filter(|b| *b != b'=').map(|b| match b { b'A'..=b'Z' => b - b'A', b'a'..=b'z' => b - b'a' + 26, b'0'..=b'9' => b - b'0' + 52, b'+' => 62, _ => 63 });
    let (mut out, mut bits, mut count) = (vec![], 0u32, 0);
    for d in digits {
        bits = bits << 6 | d as u32;
        count += 6;
        if count >= 8 { count -= 8; out.push((bits >> count) as u8); }
    }
    out
}

struct Input { octets: Vec<u8>, bytes: bytes::Bytes }
type Call<'a> = Box<dyn Fn(&Input) -> usize + 'a>;

/// Least ns of one call over all inputs, for each candidate; how many inputs it took.
fn measure(inputs: &[Input], calls: &[Call], budget: Duration, per_call: &[usize]) -> Vec<(f64, usize)> {
    let mut best = vec![(f64::MAX, 0); calls.len()];
    // So many passes over the inputs that a timing is at least some 20 us.
    let passes: Vec<usize> = calls.iter().map(|f| {
        let t = Instant::now();
        for i in inputs { black_box(f(black_box(i))); }
        let once = t.elapsed().as_nanos().max(1) as usize;
        (20_000 / once).max(1)
    }).collect();
    let start = Instant::now();
    let mut round = 0;
    while round < 8 || (start.elapsed() < budget && round < 5000) {
        for (k, f) in calls.iter().enumerate() {
            let t = Instant::now();
            let mut ok = 0;
            for _ in 0..passes[k] { ok = 0; for i in inputs { if black_box(f(black_box(i))) != 0 { ok += 1; } } }
            let ns = t.elapsed().as_nanos() as f64 / (passes[k] * inputs.len() * per_call[k]) as f64;
            if ns < best[k].0 { best[k] = (ns, ok); }
        }
        round += 1;
    }
    best
}

fn row(name: &str, inputs: &[Input], named: Vec<(&str, Call)>) { row_of(name, inputs, named.into_iter().map(|(n, c)| (n, c, 1)).collect()) }

fn row_of(name: &str, inputs: &[Input], named: Vec<(&str, Call, usize)>) {
    let only = std::env::args().nth(2).unwrap_or_default();
    if !name.contains(&only) { return; }
    let (mut names, mut calls, mut per) = (vec![], vec![], vec![]);
    for (n, c, p) in named { names.push(n); calls.push(c); per.push(p); }
    let ms = std::env::var("BUDGET_MS").ok().and_then(|s| s.parse().ok()).unwrap_or(1500);
    let found = measure(inputs, &calls, Duration::from_millis(ms), &per);
    let least = names.iter().zip(&found).filter(|(n, _)| !n.starts_with("soq")).map(|(_, f)| f.0).fold(f64::MAX, f64::min);
    print!("{name:<34} n={:<4}", inputs.len());
    for (n, f) in names.iter().zip(&found) {
        print!(" {n}={:.1}", f.0);
        if f.1 != inputs.len() { print!("(took {})", f.1); }
        if n.starts_with("soq") { print!("[x{:.2}]", f.0 / least); }
    }
    println!();
}

fn soq(f: unsafe extern "C" fn(*const u8, usize) -> usize) -> Call<'static> { Box::new(move |i| unsafe { f(i.octets.as_ptr(), i.octets.len()) }) }
fn soq_times(f: unsafe extern "C" fn(*const u8, usize, usize) -> usize, times: usize) -> Call<'static> { Box::new(move |i| unsafe { f(i.octets.as_ptr(), i.octets.len(), times) }) }
fn peer<'a>(f: impl Fn(&Input) -> usize + 'a) -> Call<'a> { Box::new(f) }

fn input(octets: Vec<u8>) -> Input { Input { bytes: bytes::Bytes::from(octets.clone()), octets } }

fn tlv(tag: u8, contents: &[u8]) -> Vec<u8> {
    let mut out = vec![tag];
    let n = contents.len();
    if n < 128 { out.push(n as u8) } else {
        let b: Vec<u8> = n.to_be_bytes().iter().copied().skip_while(|b| *b == 0).collect();
        out.push(128 + b.len() as u8); out.extend(b);
    }
    out.extend_from_slice(contents);
    out
}

/// A SEQUENCE in a SEQUENCE and so on around octets.
struct Nest<'a> { depth: usize, octets: &'a [u8] }
impl asn1::SimpleAsn1Writable for Nest<'_> {
    const TAG: asn1::Tag = <asn1::SequenceWriter as asn1::SimpleAsn1Writable>::TAG;
    fn write_data(&self, dest: &mut asn1::WriteBuf) -> asn1::WriteResult {
        let mut w = asn1::Writer::new(dest);
        if self.depth == 1 { w.write_element(&self.octets) } else { w.write_element(&Nest { depth: self.depth - 1, octets: self.octets }) }
    }
}
impl Values for Nest<'_> {
    fn encoded_len(&self, mode: Mode) -> usize {
        if self.depth == 0 { return bcder::OctetString::encode_slice(self.octets).encoded_len(mode); }
        encode::sequence(Nest { depth: self.depth - 1, octets: self.octets }.len_only()).encoded_len(mode)
    }
    fn write_encoded<W: io::Write>(&self, mode: Mode, target: &mut W) -> Result<(), io::Error> {
        if self.depth == 0 { return bcder::OctetString::encode_slice(self.octets).write_encoded(mode, target); }
        let inner = Nest { depth: self.depth - 1, octets: self.octets };
        encode::write_header(target, Tag::SEQUENCE, true, inner.encoded_len(mode))?;
        inner.write_encoded(mode, &mut (target as &mut dyn io::Write))
    }
}
/// The same, without the type growing at each level.
struct LenOnly<'a>(Nest<'a>);
impl<'a> Nest<'a> { fn len_only(self) -> LenOnly<'a> { LenOnly(self) } }
impl Values for LenOnly<'_> {
    fn encoded_len(&self, mode: Mode) -> usize { self.0.encoded_len(mode) }
    fn write_encoded<W: io::Write>(&self, _: Mode, _: &mut W) -> Result<(), io::Error> { unreachable!() }
}

fn b_vec(v: impl Values) -> usize { let mut out = Vec::new(); v.write_encoded(Mode::Der, &mut out).unwrap(); black_box(out).len() }

/// The peak of resident memory above the input's, in octets of output, of one write of 100 MB.
fn peak(name: &str) {
    let input = vec![7u8; 100_000_000];
    let kb = |key: &str| -> f64 { std::fs::read_to_string("/proc/self/status").unwrap().lines().find(|l| l.starts_with(key)).unwrap().split_whitespace().nth(1).unwrap().parse().unwrap() };
    let before = kb("VmRSS:");
    let n = match name {
        "soq" => unsafe { soq_octets_put(input.as_ptr(), input.len()) },
        "soq-in-3" => unsafe { soq_nest_write_3(input.as_ptr(), input.len(), 1) },
        "soq-in-10" => unsafe { soq_nest_write_10(input.as_ptr(), input.len(), 1) },
        "asn1" => black_box(asn1::write_single(&input.as_slice())).unwrap().len(),
        "asn1-in-1" => black_box(asn1::write_single(&Nest { depth: 1, octets: &input })).unwrap().len(),
        "asn1-in-10" => black_box(asn1::write_single(&Nest { depth: 10, octets: &input })).unwrap().len(),
        "bcder" => b_vec(bcder::OctetString::encode_slice(&input)),
        "bcder-in-10" => b_vec(Nest { depth: 10, octets: &input }),
        _ => panic!("no such peak"),
    };
    println!("peak of {name:<12} {:.2} x output", (kb("VmHWM:") - before) * 1024.0 / n as f64);
}

fn main() {
    if std::env::args().nth(1).as_deref() == Some("--peak") { return peak(&std::env::args().nth(2).unwrap()); }
    let text = std::fs::read_to_string(std::env::args().nth(1).expect("a file of lines 'rule type hex'")).unwrap();
    let of = |kind: &str| -> Vec<Input> {
        text.lines().filter_map(|l| {
            let mut w = l.split('\t').next()?.split(' ');
            let (r, t, h) = (w.next()?, w.next()?, w.next()?);
            ((r == "der" || r == "ber") && t == kind).then(|| input(hex(h)))
        }).collect()
    };
    use asn1::parse_single as p;
    const W: usize = 64; // writes for each read
    row("a call that does nothing", &of("oid"), vec![("soq", soq(soq_nothing)), ("rust", peer(|i| i.octets.len()))]);
    let v = of("validity");
    row("1 Validity read", &v, vec![("soq", soq(soq_validity_read)),
        ("asn1", peer(|i| black_box(p::<Validity>(&i.octets)).is_ok() as usize)),
        ("der-parser", peer(|i| black_box(der_parser::parse_der(&i.octets)).is_ok() as usize))]);
    row("1 Validity read+written", &v, vec![("soq", soq(soq_validity_read_written)),
        ("asn1", peer(|i| p::<Validity>(&i.octets).map_or(0, |v| black_box(asn1::write_single(&v)).unwrap().len())))]);
    row_of("1 Validity written", &v, vec![("soq", soq_times(soq_validity_write, W), W),
        ("asn1", peer(|i| { let v = p::<Validity>(&i.octets).unwrap(); (0..W).map(|_| black_box(asn1::write_single(black_box(&v))).unwrap().len()).sum() }), W)]);
    let o = of("oid");
    row("2 OID read", &o, vec![("soq", soq(soq_oid_read)),
        ("asn1", peer(|i| black_box(p::<asn1::ObjectIdentifier>(&i.octets)).is_ok() as usize)),
        ("bcder", peer(|i| black_box(Mode::Der.decode(i.bytes.clone(), |c| Oid::<bytes::Bytes>::take_from(c))).is_ok() as usize)),
        ("der-parser", peer(|i| black_box(der_parser::der::parse_der_oid(&i.octets)).is_ok() as usize))]);
    row_of("2 OID written", &o, vec![("soq", soq_times(soq_oid_write, W), W),
        ("asn1", peer(|i| { let v = p::<asn1::ObjectIdentifier>(&i.octets).unwrap(); (0..W).map(|_| black_box(asn1::write_single(black_box(&v))).unwrap().len()).sum() }), W)]);
    let mut signature = vec![0];
    signature.extend(0..=255u8);
    let signature = vec![input(tlv(3, &signature))];
    row_of("2 BIT STRING of 2048 bits written", &signature, vec![("soq", soq_times(soq_bits_write, W), W),
        ("asn1", peer(|i| { let v = p::<asn1::BitString>(&i.octets).unwrap(); (0..W).map(|_| black_box(asn1::write_single(black_box(&v))).unwrap().len()).sum() }), W)]);
    let octets = |name: &str, inputs: &[Input]| {
        row(&format!("3 OCTET STRING {name} read"), inputs, vec![("soq-copied", soq(soq_octets_read)), ("soq-borrowed", soq(soq_octets_borrow)),
            ("asn1-borrowed", peer(|i| black_box(p::<&[u8]>(&i.octets)).is_ok() as usize)),
            ("bcder-shared", peer(|i| black_box(Mode::Der.decode(i.bytes.clone(), |c| bcder::OctetString::take_from(c))).is_ok() as usize)),
            ("der-parser-borrowed", peer(|i| black_box(der_parser::der::parse_der_octetstring(&i.octets)).is_ok() as usize))]);
        row(&format!("3 OCTET STRING {name} read, copied"), inputs, vec![("soq", soq(soq_octets_read)),
            ("asn1+to_vec", peer(|i| p::<&[u8]>(&i.octets).map_or(0, |v| black_box(v.to_vec()).len() | 1))),
            ])
    };
    octets("small", &of("octets"));
    let mega = vec![input(tlv(4, &vec![7u8; 1_000_000]))];
    octets("1 MB", &mega);
    row("3 1 MB copied: memcpy to new memory", &mega, vec![("soq", soq(soq_octets_read)), ("memcpy", peer(|i| black_box(i.octets[5..].to_vec()).len()))]);
    let plain = vec![input(vec![7u8; 1_000_000])];
    row("3 1 MB written", &plain, vec![("soq", soq(soq_octets_put)), ("memcpy", peer(|i| black_box(i.octets.to_vec()).len())),]);
    row("3 1 MB written, peers", &plain, vec![("soq", soq(soq_octets_put)),
        ("asn1", peer(|i| black_box(asn1::write_single(&i.octets.as_slice())).unwrap().len())),
        ("bcder", peer(|i| b_vec(bcder::OctetString::encode_slice(&i.octets))))]);
    let small_plain: Vec<Input> = of("octets").into_iter().map(|i| input(p::<&[u8]>(&i.octets).unwrap().to_vec())).collect();
    row("3 OCTET STRING small written", &small_plain, vec![("soq", soq(soq_octets_put)),
        ("asn1", peer(|i| black_box(asn1::write_single(&i.octets.as_slice())).unwrap().len())),
        ("bcder", peer(|i| b_vec(bcder::OctetString::encode_slice(&i.octets))))]);
    let int = of("integer");
    row("4 INTEGER of any length read", &int, vec![("soq", soq(soq_integer_read)),
        ("asn1-borrowed", peer(|i| black_box(p::<asn1::BigInt>(&i.octets)).is_ok() as usize)),
        ("bcder-shared", peer(|i| black_box(Mode::Der.decode(i.bytes.clone(), |c| bcder::Integer::take_from(c))).is_ok() as usize)),
        ("der-parser-borrowed", peer(|i| black_box(der_parser::der::parse_der_integer(&i.octets)).is_ok() as usize))]);
    row("4 INTEGER of any length read, copied", &int, vec![("soq", soq(soq_integer_read)),
        ("asn1+to_vec", peer(|i| p::<asn1::BigInt>(&i.octets).map_or(0, |v| black_box(v.as_bytes().to_vec()).len())))]);
    let numbers: Vec<i64> = (0..64u32).map(|k| { let x = 0x9E37_79B9_7F4A_7C15u64.wrapping_mul(k as u64 + 1); (x as i64) >> (k % 8 * 8) }).collect();
    let i64s: Vec<Input> = numbers.iter().map(|n| input(asn1::write_single(n).unwrap())).collect();
    row("4 i64 read", &i64s, vec![("soq", soq(soq_i64_read)),
        ("asn1", peer(|i| black_box(p::<i64>(&i.octets)).is_ok() as usize)),
        ("bcder", peer(|i| black_box(Mode::Der.decode(i.octets.as_slice(), |c| c.take_primitive_if(Tag::INTEGER, |p| bcder::Integer::i64_from_primitive(p)))).is_ok() as usize)),
        ("der-parser", peer(|i| black_box(der_parser::der::parse_der_i64(&i.octets)).is_ok() as usize))]);
    row("4 BOOLEAN read", &[input(vec![1, 1, 255])], vec![("soq", soq(soq_bool_read)),
        ("asn1", peer(|i| black_box(p::<bool>(&i.octets)).is_ok() as usize)),
        ("bcder", peer(|i| black_box(Mode::Der.decode(i.octets.as_slice(), |c| c.take_bool())).is_ok() as usize)),
        ("der-parser", peer(|i| black_box(der_parser::der::parse_der_bool(&i.octets)).is_ok() as usize))]);
    let pairs: Vec<Input> = numbers.iter().map(|n| input(asn1::write_single(&Pair { a: *n as i32 as i64, b: n & 1 == 0 }).unwrap())).collect();
    row("5 SEQUENCE{INTEGER,BOOLEAN} read", &pairs, vec![("soq", soq(soq_pair_read)),
        ("asn1", peer(|i| black_box(p::<Pair>(&i.octets)).is_ok() as usize)),
        ("bcder", peer(|i| black_box(Mode::Der.decode(i.octets.as_slice(), |c| c.take_sequence(|c| Ok((c.take_primitive_if(Tag::INTEGER, |p| bcder::Integer::i64_from_primitive(p))?, c.take_bool()?))))).is_ok() as usize)),
        ("der-parser", peer(|i| black_box(der_parser::parse_der(&i.octets)).is_ok() as usize))]);
    row_of("5 SEQUENCE{INTEGER,BOOLEAN} written", &pairs, vec![("soq", soq_times(soq_pair_write, W), W),
        ("asn1", peer(|i| { let v = p::<Pair>(&i.octets).unwrap(); (0..W).map(|_| black_box(asn1::write_single(black_box(&v))).unwrap().len()).sum() }), W),
        ("bcder", peer(|i| { let v = p::<Pair>(&i.octets).unwrap(); (0..W).map(|_| { let v = black_box(&v); b_vec(encode::sequence((v.a.encode(), v.b.encode()))) }).sum() }), W)]);
    for n in [10usize, 1000, 100_000] {
        let list: Vec<i64> = (0..n).map(|k| numbers[k % 64]).collect();
        let l = vec![input(asn1::write_single(&asn1::SequenceOfWriter::new(list.as_slice())).unwrap())];
        let w = (1000 / n).max(32);
        row_of(&format!("6 SEQUENCE OF i64, {n}, read (each)"), &l, vec![("soq", soq(soq_list_i64_read), n),
            ("asn1", peer(|i| black_box(p::<asn1::SequenceOf<i64>>(&i.octets).unwrap().collect::<Vec<_>>()).len()), n),
            ("bcder", peer(|i| black_box(Mode::Der.decode(i.octets.as_slice(), |c| c.take_sequence(|c| { let mut v = vec![];
                while let Some(x) = c.take_opt_primitive_if(Tag::INTEGER, |p| bcder::Integer::i64_from_primitive(p))? { v.push(x) } Ok(v) })).unwrap()).len()), n),
            ("der-parser", peer(|i| black_box(der_parser::der::parse_der_sequence_of_v(der_parser::der::parse_der_i64)(&i.octets).unwrap().1).len()), n)]);
        row_of(&format!("6 SEQUENCE OF i64, {n}, written (each)"), &l, vec![("soq", soq_times(soq_list_i64_write, w), n * w),
            ("asn1", peer(|_| (0..w).map(|_| black_box(asn1::write_single(&asn1::SequenceOfWriter::new(black_box(list.as_slice())))).unwrap().len()).sum()), n * w),
            ("bcder", peer(|_| (0..w).map(|_| b_vec(encode::sequence(encode::iter(black_box(list.as_slice()).iter().map(|x| x.encode()))))).sum()), n * w)]);
        row_of(&format!("6 SEQUENCE OF Integer, {n}, read (each)"), &l, vec![("soq", soq(soq_list_integer_read), n),
            ("asn1-borrowed", peer(|i| black_box(p::<asn1::SequenceOf<asn1::BigInt>>(&i.octets).unwrap().collect::<Vec<_>>()).len()), n),
            ("asn1+to_vec", peer(|i| black_box(p::<asn1::SequenceOf<asn1::BigInt>>(&i.octets).unwrap().map(|x| x.as_bytes().to_vec()).collect::<Vec<_>>()).len()), n)]);
    }
    let around = vec![input(vec![7u8; 100_000])];
    for d in [10usize, 20] {
        row_of(&format!("7 {d} lists around 100 KB written"), &around, vec![
            ("soq-types", soq_times(if d == 10 { soq_nest_write_10 } else { soq_nest_write_20 }, 16), 16),
            ("asn1", peer(move |i| black_box(asn1::write_single(&Nest { depth: d, octets: &i.octets })).unwrap().len()), 1)]);
    }
    row_of("7 1 MB in three lists written", &plain, vec![("soq", soq_times(soq_nest_write_3, 4), 4),
        ("memcpy", peer(|i| black_box(i.octets.to_vec()).len()), 1)]);
    row("8 UTF8String read", &of("utf8"), vec![("soq-copied", soq(soq_utf8_read)),
        ("asn1-borrowed", peer(|i| black_box(p::<asn1::Utf8String>(&i.octets)).is_ok() as usize)),
        ("bcder-shared", peer(|i| black_box(Mode::Der.decode(i.bytes.clone(), |c| bcder::Utf8String::take_from(c))).is_ok() as usize)),
        ("der-parser-borrowed", peer(|i| black_box(der_parser::der::parse_der_utf8string(&i.octets)).is_ok() as usize))]);
    row("8 UTF8String read, copied", &of("utf8"), vec![("soq", soq(soq_utf8_read)),
        ("asn1+to_string", peer(|i| p::<asn1::Utf8String>(&i.octets).map_or(0, |v| black_box(v.as_str().to_string()).len() | 1)))]);
    row("8 PrintableString read", &of("printable"), vec![("soq-copied", soq(soq_printable_read)),
        ("asn1-borrowed", peer(|i| black_box(p::<asn1::PrintableString>(&i.octets)).is_ok() as usize)),
        ("bcder-shared", peer(|i| black_box(Mode::Der.decode(i.bytes.clone(), |c| bcder::PrintableString::take_from(c))).is_ok() as usize)),
        ("der-parser-borrowed", peer(|i| black_box(der_parser::der::parse_der_printablestring(&i.octets)).is_ok() as usize))]);
    row("8 PrintableString read, copied", &of("printable"), vec![("soq", soq(soq_printable_read)),
        ("asn1+to_string", peer(|i| p::<asn1::PrintableString>(&i.octets).map_or(0, |v| black_box(v.as_str().to_string()).len() | 1)))]);
    row_of("4 i64 written", &i64s, vec![("soq", soq_times(soq_i64_write, W), W),
        ("asn1", peer(|i| { let v = p::<i64>(&i.octets).unwrap(); (0..W).map(|_| black_box(asn1::write_single(black_box(&v))).unwrap().len()).sum() }), W),
        ("bcder", peer(|i| { let v = p::<i64>(&i.octets).unwrap(); (0..W).map(|_| b_vec(black_box(v).encode())).sum() }), W)]);
    row_of("4 BOOLEAN written", &[input(vec![1, 1, 255])], vec![("soq", soq_times(soq_bool_write, W), W),
        ("asn1", peer(|i| { let v = p::<bool>(&i.octets).unwrap(); (0..W).map(|_| black_box(asn1::write_single(black_box(&v))).unwrap().len()).sum() }), W),
        ("bcder", peer(|i| { let v = p::<bool>(&i.octets).unwrap(); (0..W).map(|_| b_vec(black_box(v).encode())).sum() }), W)]);
    row("5 SEQUENCE by closures, read", &pairs, vec![("soq", soq(soq_both_read)), ("soq-by-parts", soq(soq_pair_read)),
        ("asn1", peer(|i| black_box(p::<Pair>(&i.octets)).is_ok() as usize))]);
    row_of("5 SEQUENCE by closures, written", &pairs, vec![("soq", soq_times(soq_both_write, W), W), ("soq-by-parts", soq_times(soq_pair_write, W), W),
        ("asn1", peer(|i| { let v = p::<Pair>(&i.octets).unwrap(); (0..W).map(|_| black_box(asn1::write_single(black_box(&v))).unwrap().len()).sum() }), W)]);
    let messages = of("ldap");
    row("10 LDAP message read", &messages, vec![("soq", soq(soq_ldap_read)),
        ("bcder-shared", peer(|i| black_box(Mode::Ber.decode(i.bytes.clone(), |c| ldap(c))).unwrap_or(0)))]);
    row_of("10 LDAP bind request written", &messages[..1], vec![("soq", soq_times(soq_ldap_write, W), W),
        ("bcder", peer(|_| (0..W).map(|_| b_vec(encode::sequence((black_box(2u32).encode(), encode::sequence_as(Tag::application(0),
            (3u8.encode(), bcder::OctetString::encode_slice(black_box("cn=admin,dc=example")), bcder::OctetString::encode_slice_as(black_box("secret"), Tag::CTX_0))))))).sum()), W)]);
    let snmp = of("snmp");
    row("10 SNMP message read", &snmp, vec![("soq", soq(soq_snmp_read)),
        ("asn1-borrowed", peer(|i| black_box(p::<Message>(&i.octets)).is_ok() as usize))]);
    row_of("10 SNMP message written", &snmp, vec![("soq", soq_times(soq_snmp_write, W), W),
        ("asn1", peer(|i| { let v = p::<Message>(&i.octets).unwrap(); (0..W).map(|_| black_box(asn1::write_single(black_box(&v))).unwrap().len()).sum() }), W)]);
    let file = std::env::var("CERTIFICATES").unwrap_or("/etc/ssl/certs/ca-certificates.crt".into());
    let certs = certificates(&file);
    if !certs.is_empty() {
        row("9 certificate read", &certs, vec![("soq", soq(soq_certificate_read)),
            ("asn1-borrowed", peer(|i| black_box(p::<Certificate>(&i.octets)).is_ok() as usize)),
            ("der-parser-tree", peer(|i| black_box(der_parser::parse_der(&i.octets)).is_ok() as usize))]);
        row_of("9 certificate checked by schema", &certs, vec![("soq", soq_times(soq_certificate_check, W), W),
            ("asn1-borrowed", peer(|i| (0..W).map(|_| black_box(p::<Certificate>(black_box(&i.octets))).is_ok() as usize).sum()), W)]);
        row("9 certificate passed", &certs, vec![("soq", soq(soq_skip)),
            ("asn1", peer(|i| black_box(p::<asn1::Tlv>(&i.octets)).is_ok() as usize)),
            ("bcder", peer(|i| black_box(Mode::Der.decode(i.bytes.clone(), |c| c.skip_one())).is_ok() as usize))]);
        row_of("9 certificate written", &certs, vec![("soq", soq_times(soq_certificate_write, 8), 8),
            ("asn1", peer(|i| p::<Certificate>(&i.octets).map_or(0, |v| (0..8).map(|_| black_box(asn1::write_single(black_box(&v))).unwrap().len()).sum())), 8)]);
        row("9 certificate read+written", &certs, vec![("soq", soq(soq_certificate_read_written)),
            ("asn1", peer(|i| p::<Certificate>(&i.octets).map_or(0, |v| black_box(asn1::write_single(&v)).unwrap().len())))]);
        row("9 certificate normalised", &certs, vec![("soq", soq(soq_certificate_normalise)),
            ("asn1-read+written", peer(|i| p::<Certificate>(&i.octets).map_or(0, |v| black_box(asn1::write_single(&v)).unwrap().len())))]);
    }
    growth();
}

/// Time against size, of OCTET STRINGs and of SEQUENCEs in one another.
fn growth() {
    for n in [100usize, 1000, 10_000, 100_000, 1_000_000, 10_000_000] {
        let read = vec![input(tlv(4, &vec![7u8; n]))];
        let plain = vec![input(vec![7u8; n])];
        row(&format!("11 octets, {n}"), &read, vec![("soq-read", soq(soq_octets_read)), ("soq-skipped", soq(soq_skip)), ("memcpy", peer(|i| black_box(i.octets.to_vec()).len()))]);
        row(&format!("11 octets, {n}, written"), &plain, vec![("soq-written", soq(soq_octets_put)), ("memcpy", peer(|i| black_box(i.octets.to_vec()).len()))]);
    }
    for d in [1usize, 10, 100, 1000, 10_000, 100_000, 1_000_000] {
        let mut octets = vec![];
        for _ in 0..d { octets.extend([0x30, 0x80]); }
        for _ in 0..d { octets.extend([0, 0]); }
        let nested = vec![input(octets)];
        row(&format!("12 depth {d}"), &nested, vec![("soq-skipped", soq(soq_skip)), ("memcpy", peer(|i| black_box(i.octets.to_vec()).len()))]);
    }
    let around = vec![input(vec![7u8; 1000])];
    row_of("12 depth 10, 20, written", &around, vec![("soq-10", soq_times(soq_nest_write_10, 64), 64), ("soq-20", soq_times(soq_nest_write_20, 64), 64),
        ("memcpy", peer(|i| black_box(i.octets.to_vec()).len()), 1)]);
}
