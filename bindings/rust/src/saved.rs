//! The form in which all languages save a state: a head of four octets, then the fields in the order of um.h, without padding, each number
//! least significant octet first.

use crate::NotSaved;

const HEAD: usize = 4;

/// The octets of the fields of an endpoint.
pub(crate) const FIELDS: usize = 2581;

/// The octets of a saved [`End`](crate::End).
pub const END_OCTETS: usize = HEAD + FIELDS;

/// The octets of a saved [`Side`](crate::Side).
pub const SIDE_OCTETS: usize = HEAD + 2 * FIELDS;

/// Tests the head and the length; a head of um's comes first, so that another form is refused by its name. Returns the fields.
pub(crate) fn fields<'a>(octets: &'a [u8], expected: &'static [u8; HEAD], length: usize) -> Result<&'a [u8], NotSaved> {
    let is_named = octets.len() > HEAD && octets.starts_with(b"um");
    if octets.len() != length && !is_named {
        return Err(NotSaved::Length { found: octets.len(), expected: length });
    }
    let (head, fields) = octets.split_at(HEAD);
    if head != expected {
        return Err(NotSaved::Head { found: [head[0], head[1], head[2], head[3]], expected });
    }
    if octets.len() != length {
        return Err(NotSaved::Length { found: octets.len(), expected: length });
    }
    Ok(fields)
}

/// Writes octets one after the other.
pub(crate) struct Writer<'a>(pub &'a mut [u8]);

impl Writer<'_> {
    pub(crate) fn put(&mut self, octets: &[u8]) {
        let (now, later) = core::mem::take(&mut self.0).split_at_mut(octets.len());
        now.copy_from_slice(octets);
        self.0 = later;
    }
}

/// Reads octets one after the other.
pub(crate) struct Reader<'a>(pub &'a [u8]);

impl Reader<'_> {
    pub(crate) fn take<const N: usize>(&mut self) -> [u8; N] {
        let (now, later) = self.0.split_at(N);
        self.0 = later;
        let mut octets = [0; N];
        octets.copy_from_slice(now);
        octets
    }
}
