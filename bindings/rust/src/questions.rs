//! What has to be verified.

use crate::buffers::ask;
use crate::raw;
use crate::status::Status;

/// How a signature is made. The key's blob is strings ([`strings`](crate::strings()) goes over
/// them), and the first is the name of its type; numbers in them are mpints. A key that
/// [`may_verify`](crate::may_verify) does not take has to be refused.
#[derive(Clone, Copy, Debug, PartialEq, Eq, Hash)]
#[non_exhaustive]
#[repr(u32)]
pub enum Algorithm {
    /// With SHA-1. After the name p, q, g, y; signature: r and s, unsigned, 20 bytes each.
    Dsa = raw::ASK_DSA,
    /// ECDSA with SHA-256. After the name the curve's name, and the point as in SEC 1; signature:
    /// two strings, r and s.
    P256 = raw::ASK_P256,
    /// The same with SHA-384.
    P384 = raw::ASK_P384,
    /// The same with SHA-512.
    P521 = raw::ASK_P521,
    /// After the name the key, 32 bytes; signature: 64 bytes.
    Ed25519 = raw::ASK_ED25519,
    /// PKCS#1 v1.5 with SHA-256. After the name e and n; signature: an unsigned number.
    RsaSha256 = raw::ASK_RSA_SHA256,
    /// The same with SHA-512.
    RsaSha512 = raw::ASK_RSA_SHA512,
}

impl Algorithm {
    /// The algorithm of that number of rafendilo.h, if there is one.
    pub(crate) fn of(number: u32) -> Option<Algorithm> {
        use Algorithm::{Dsa, Ed25519, RsaSha256, RsaSha512, P256, P384, P521};
        let all = [Dsa, P256, P384, P521, Ed25519, RsaSha256, RsaSha512];
        all.iter().copied().find(|it| *it as u32 == number)
    }
}

/// What has to be verified: that the signature is one of the message under the key, made as the
/// algorithm says. For a security key the key is the plain one within.
#[derive(Clone, Debug)]
pub struct Question {
    algorithm: Algorithm,
    buffer: Vec<u8>,
    answer: raw::Question,
}

impl Question {
    /// The question that a call writes, which is given a buffer of that length. Fails as [`ask`]
    /// does, and with [`Status::UNSUPPORTED`] for an algorithm that has no name here.
    pub(crate) fn of_call(
        length: usize,
        call: impl FnMut(&mut [u8], &mut raw::Question) -> u32,
    ) -> Result<Question, Status> {
        let (buffer, answer) = ask(length, call)?;
        Question::of(buffer, answer)
    }

    /// The question that a call has written to that buffer. Fails with [`Status::UNSUPPORTED`] for
    /// an algorithm that has no name here.
    pub(crate) fn of(buffer: Vec<u8>, answer: raw::Question) -> Result<Question, Status> {
        let algorithm = Algorithm::of(answer.algorithm).ok_or(Status::UNSUPPORTED)?;
        Ok(Question { algorithm, buffer, answer })
    }

    /// How the signature is made.
    #[must_use]
    pub fn algorithm(&self) -> Algorithm {
        self.algorithm
    }

    /// The key's blob.
    #[must_use]
    pub fn key(&self) -> &[u8] {
        self.answer.key.of(&self.buffer)
    }

    /// What is signed.
    #[must_use]
    pub fn message(&self) -> &[u8] {
        self.answer.message.of(&self.buffer)
    }

    /// The signature.
    #[must_use]
    pub fn signature(&self) -> &[u8] {
        self.answer.signature.of(&self.buffer)
    }
}

/// What the library says once it is told whether a verification says yes. It is asked first as if
/// that said no, and the verification is made only where nothing else is wrong.
pub(crate) fn decide<T>(
    verdict: impl Fn(bool) -> Result<T, Status>,
    is_verified: impl FnOnce() -> Result<bool, Status>,
) -> Result<T, Status> {
    match verdict(false) {
        Err(Status::NOT_SIGNED) => verdict(is_verified()?),
        said => said,
    }
}
