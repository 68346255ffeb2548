//! Strings (RFC 4251, section 5): four bytes of length, and that many bytes.

use std::iter::FusedIterator;

use crate::raw;
use crate::status::Status;

/// The strings, one after the other, that some bytes are; lent of these.
#[derive(Clone, Debug)]
#[must_use = "an iterator asks nothing until it is asked"]
pub struct Strings<'a> {
    bytes: &'a [u8],
    place: usize,
}

/// The strings that the bytes of a question's key or of an ECDSA signature are. Where they are
/// none, the last item is [`Status::LENGTH`]. Do not `flatten()` the items: that passes over it.
pub fn strings(bytes: &[u8]) -> Strings<'_> {
    Strings { bytes, place: 0 }
}

impl<'a> Iterator for Strings<'a> {
    type Item = Result<&'a [u8], Status>;

    fn next(&mut self) -> Option<Self::Item> {
        let mut part = raw::Part::default();
        match Status::of(raw::raf_next_string(self.bytes, self.place, &mut part)) {
            Ok(()) => {
                self.place = part.end();
                Some(Ok(part.of(self.bytes)))
            }
            Err(Status::END) => None,
            Err(status) => {
                self.place = self.bytes.len();
                Some(Err(status))
            }
        }
    }
}

impl FusedIterator for Strings<'_> {}

/// The bytes as a string: four bytes of length before them. Fails with [`Status::LENGTH`] where
/// they are 2^32 or more.
pub fn string(content: impl AsRef<[u8]>) -> Result<Vec<u8>, Status> {
    let content = content.as_ref();
    let length = u32::try_from(content.len()).map_err(|_| Status::LENGTH)?;
    Ok([&length.to_be_bytes(), content].concat())
}
