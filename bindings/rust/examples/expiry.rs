//! Prints the subject of each certificate of a PEM file, the time at which its validity ends, and its
//! other names, which are in the extension subjectAltName (RFC 5280 4.2.1.6):
//! `cargo run --example expiry certificates.pem`. With the package cargo needs
//! `--manifest-path share/soqavise/rust/Cargo.toml`, too.
use soqavise::{name_text, pem, Rules, Schema};

fn main() -> Result<(), Box<dyn std::error::Error>> {
    let file = std::env::args().nth(1).ok_or("usage: expiry CERTIFICATES")?;
    let (schema, names) = (Schema::named("Certificate")?, Schema::named("SubjectAltName")?);
    for block in pem(&std::fs::read_to_string(file)?) {
        let octets = block.octets?;
        let certificate = schema.read(Rules::Der, &octets)?;
        let body = &certificate["tbsCertificate"];
        println!("{}", name_text(Rules::Der, body["subject"].octets())?);
        println!("valid until {}", body["validity"]["notAfter"].as_time().ok_or("no time")?);
        for extension in body["extensions"].iter().filter(|it| it["extnID"].as_identifier().as_deref() == Some("2.5.29.17")) {
            for name in names.read(Rules::Der, extension["extnValue"].contents())?.iter().flat_map(|it| it.parts()) {
                println!("{} {}", name.name(), name.as_text().unwrap_or_else(|| format!("{:02X?}", name.contents())));
            }
        }
    }
    Ok(())
}
