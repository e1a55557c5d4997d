//! Extensions of certificates (RFC 5280 4.1).

use crate::{answer, Error, Rules, ABSENT};

unsafe extern "C" {
    fn soq_proved_extension(
        rules: u32,
        octets: *const u8,
        length: usize,
        identifier: *const u8,
        identifier_length: usize,
        buffer: *mut u8,
        capacity: usize,
        needed: &mut usize,
    ) -> u32;
}

/// Returns the octets of `extnValue` of the first extension with this identifier, `2.5.29.17`, of
/// the Extensions that all of the octets are; `None` if no extension has it.
///
/// # Errors
/// `Refused` if they aren't Extensions.
pub fn extension(rules: Rules, octets: &[u8], identifier: &str) -> Result<Option<Vec<u8>>, Error> {
    let (mut buffer, mut needed) = (vec![0; octets.len()], 0);
    let (at, length) = (octets.as_ptr(), octets.len());
    let (named, name_length) = (identifier.as_ptr(), identifier.len());
    let status = unsafe {
        let (to, capacity) = (buffer.as_mut_ptr(), buffer.len());
        soq_proved_extension(rules as u32, at, length, named, name_length, to, capacity, &mut needed)
    };
    if status == ABSENT {
        return Ok(None);
    }
    answer(status, "the octets aren't Extensions")?;
    buffer.truncate(needed);
    Ok(Some(buffer))
}
