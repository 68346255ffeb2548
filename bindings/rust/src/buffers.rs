//! How a call is given a buffer, and lists of bytes.

use crate::raw;
use crate::status::Status;

/// What a call answers beside a buffer.
pub(crate) trait Answer: Default {
    /// How many bytes of the buffer are written, or are needed.
    fn length(&self) -> usize;
}

impl Answer for usize {
    fn length(&self) -> usize {
        *self
    }
}

/// The field `length` of the structs that have one.
macro_rules! answers {
    ($($name:ident)*) => {
        $(impl Answer for raw::$name {
            fn length(&self) -> usize {
                self.length
            }
        })*
    };
}

answers! { Question Line Entry LineOptionParts LoginQuestions Grant }

/// The byte strings of a list, as a call takes them.
pub(crate) fn spans<'a>(list: &[&'a [u8]]) -> Vec<raw::Span<'a>> {
    list.iter().map(|it| raw::Span::from(*it)).collect()
}

/// A buffer of that length. Fails with [`Status::MEMORY`].
fn buffer_of(length: usize) -> Result<Vec<u8>, Status> {
    let mut buffer = Vec::new();
    buffer.try_reserve_exact(length).map_err(|_| Status::MEMORY)?;
    buffer.resize(length, 0);
    Ok(buffer)
}

/// The buffer that a call has written, and its answer. The call is given a buffer of that length,
/// or of the one that it says is needed. Fails with what the call answers, and with
/// [`Status::MEMORY`].
pub(crate) fn ask<A: Answer>(
    length: usize,
    mut call: impl FnMut(&mut [u8], &mut A) -> u32,
) -> Result<(Vec<u8>, A), Status> {
    let mut buffer = buffer_of(length)?;
    loop {
        let mut answer = A::default();
        match Status::of(call(&mut buffer, &mut answer)) {
            Ok(()) => return Ok((buffer, answer)),
            Err(Status::SHORT_BUFFER) if answer.length() > buffer.len() => {
                buffer = buffer_of(answer.length())?
            }
            Err(status) => return Err(status),
        }
    }
}

/// The bytes that a call writes to the front of a buffer. Fails as [`ask`] does.
pub(crate) fn written(
    length: usize,
    call: impl FnMut(&mut [u8], &mut usize) -> u32,
) -> Result<Vec<u8>, Status> {
    let (mut buffer, length) = ask(length, call)?;
    buffer.truncate(length);
    Ok(buffer)
}
