//! Checks that a file is one certificate in PEM or DER, as `examples/c/check.c` does.
use soqavise::{check, pem, Error, Type};
use std::process::ExitCode;

/// Returns the octets of the first block of PEM, or those of the file if it has none.
fn octets_of(file: Vec<u8>) -> Vec<u8> {
    let text = std::str::from_utf8(&file).ok();
    let block = text.and_then(|text| pem(text).next()?.octets.ok());
    block.unwrap_or(file)
}

fn main() -> ExitCode {
    let Some(name) = std::env::args().nth(1) else {
        eprintln!("usage: check FILE");
        return ExitCode::from(2);
    };
    let octets = match std::fs::read(&name) {
        Ok(file) => octets_of(file),
        Err(error) => {
            eprintln!("{name}: {error}");
            return ExitCode::from(2);
        }
    };
    match check(Type::Certificate, &octets) {
        Ok(()) => {
            println!("{name}: a certificate of {} octets", octets.len());
            ExitCode::SUCCESS
        }
        Err(error @ Error::Refused { .. }) => {
            println!("{name}: no certificate: {error}");
            ExitCode::FAILURE
        }
        Err(error) => {
            eprintln!("{name}: {error}");
            ExitCode::from(2)
        }
    }
}
