//! Answers questions with OpenSSL's libcrypto (1.1.1 or newer).

use std::os::raw::{c_int, c_long, c_void};
use std::ptr::{null, null_mut};

use crate::keys::may_verify;
use crate::questions::{Algorithm, Question};
use crate::strings::strings;

/// `EVP_PKEY`
#[repr(C)]
struct Key([u8; 0]);

/// `EVP_MD`
#[repr(C)]
struct Digest([u8; 0]);

/// `EVP_MD_CTX`
#[repr(C)]
struct Context([u8; 0]);

/// A call that gives a digest, which lasts.
type DigestCall = unsafe extern "C" fn() -> *const Digest;

// d2i_X509(3), EVP_PKEY_new(3), EVP_DigestInit(3), EVP_DigestVerifyInit(3)
#[link(name = "crypto")]
extern "C" {
    fn d2i_PUBKEY(key: *mut *mut Key, der: *mut *const u8, length: c_long) -> *mut Key;
    fn EVP_PKEY_free(key: *mut Key);
    fn EVP_sha256() -> *const Digest;
    fn EVP_sha384() -> *const Digest;
    fn EVP_sha512() -> *const Digest;
    fn EVP_MD_CTX_new() -> *mut Context;
    fn EVP_MD_CTX_free(context: *mut Context);
    fn EVP_DigestVerifyInit(
        context: *mut Context,
        key_context: *mut *mut c_void,
        digest: *const Digest,
        engine: *mut c_void,
        key: *mut Key,
    ) -> c_int;
    fn EVP_DigestVerify(
        context: *mut Context,
        signature: *const u8,
        signature_length: usize,
        message: *const u8,
        message_length: usize,
    ) -> c_int;
}

// the algorithms of public keys in DER (RFC 3279, section 2.3; RFC 5480, section 2.1; RFC 8410,
// section 3)
const RSA: &[u8] = b"\x30\x0d\x06\x09\x2a\x86\x48\x86\xf7\x0d\x01\x01\x01\x05\x00";
const P256: &[u8] =
    b"\x30\x13\x06\x07\x2a\x86\x48\xce\x3d\x02\x01\x06\x08\x2a\x86\x48\xce\x3d\x03\x01\x07";
const P384: &[u8] = b"\x30\x10\x06\x07\x2a\x86\x48\xce\x3d\x02\x01\x06\x05\x2b\x81\x04\x00\x22";
const P521: &[u8] = b"\x30\x10\x06\x07\x2a\x86\x48\xce\x3d\x02\x01\x06\x05\x2b\x81\x04\x00\x23";
const ED25519: &[u8] = b"\x30\x05\x06\x03\x2b\x65\x70";

/// Whether the signature is one of the message under the key, by OpenSSL's libcrypto. The answer is
/// no also where libcrypto fails, and under a key that [`may_verify`] does not take.
///
/// The feature `libcrypto` has it, and links that library.
#[must_use]
pub fn is_signature(question: &Question) -> bool {
    if may_verify(question.key()) != Ok(true) {
        return false;
    }
    match question.algorithm() {
        // of which it takes no key
        Algorithm::Dsa => false,
        Algorithm::P256 => is_ecdsa(question, P256, EVP_sha256),
        Algorithm::P384 => is_ecdsa(question, P384, EVP_sha384),
        Algorithm::P521 => is_ecdsa(question, P521, EVP_sha512),
        Algorithm::Ed25519 => is_ed25519(question),
        Algorithm::RsaSha256 => is_rsa(question, EVP_sha256),
        Algorithm::RsaSha512 => is_rsa(question, EVP_sha512),
    }
}

fn is_ed25519(question: &Question) -> bool {
    match parts(question.key())[..] {
        [_, key] => verifies(question, None, &public_key(ED25519, key), question.signature()),
        _ => false,
    }
}

/// SSH writes r and s as two strings, and libcrypto reads them in DER.
fn is_ecdsa(question: &Question, curve: &[u8], digest: DigestCall) -> bool {
    let (key, signature) = (parts(question.key()), parts(question.signature()));
    match key[..] {
        [_, _, point] => {
            verifies(question, Some(digest), &public_key(curve, point), &integers(&signature))
        }
        _ => false,
    }
}

fn is_rsa(question: &Question, digest: DigestCall) -> bool {
    match parts(question.key())[..] {
        [_, exponent, modulus] => {
            let key = public_key(RSA, &integers(&[modulus, exponent]));
            verifies(question, Some(digest), &key, question.signature())
        }
        _ => false,
    }
}

/// The strings that the bytes are; none where they are no strings.
fn parts(bytes: &[u8]) -> Vec<&[u8]> {
    strings(bytes).collect::<Result<_, _>>().unwrap_or_default()
}

// ---- DER (X.690)

const INTEGER: u8 = 0x02;
const BIT_STRING: u8 = 0x03;
const SEQUENCE: u8 = 0x30;

/// The value of that tag, with these parts in its content.
fn der(tag: u8, parts: &[&[u8]]) -> Vec<u8> {
    let content = parts.concat();
    let length = content.len().to_be_bytes();
    let first = length.iter().position(|it| *it != 0).unwrap_or(length.len() - 1);
    let mut made = vec![tag];
    if content.len() > 0x7f {
        made.push(0x80 | (length.len() - first) as u8);
    }
    made.extend(&length[first..]);
    made.extend(content);
    made
}

/// The sequence of the numbers, which are mpints: so are integers in DER written.
fn integers(mpints: &[&[u8]]) -> Vec<u8> {
    let written: Vec<u8> = mpints.iter().flat_map(|it| der(INTEGER, &[it])).collect();
    der(SEQUENCE, &[&written])
}

/// The public key of that algorithm (RFC 5280, section 4.1).
fn public_key(algorithm: &[u8], key: &[u8]) -> Vec<u8> {
    der(SEQUENCE, &[algorithm, &der(BIT_STRING, &[&[0], key])])
}

// ---- libcrypto

/// What libcrypto has made, or null.
struct Made<T> {
    it: *mut T,
    free: unsafe extern "C" fn(*mut T),
}

impl<T> Drop for Made<T> {
    fn drop(&mut self) {
        // SAFETY: libcrypto has made it to be freed so, null may be freed too, and nobody else has
        // it
        unsafe { (self.free)(self.it) }
    }
}

/// Whether the signature is one of the question's message under the key in DER, by the digest if
/// there is one.
fn verifies(question: &Question, digest: Option<DigestCall>, key: &[u8], signature: &[u8]) -> bool {
    let (mut der, message) = (key.as_ptr(), question.message());
    // SAFETY: the bytes stand there, and only `der` is written
    let key = unsafe { d2i_PUBKEY(null_mut(), &mut der, key.len() as c_long) };
    let key = Made { it: key, free: EVP_PKEY_free };
    // SAFETY: it takes nothing
    let context = Made { it: unsafe { EVP_MD_CTX_new() }, free: EVP_MD_CTX_free };
    if key.it.is_null() || context.it.is_null() {
        return false;
    }
    // SAFETY: it takes nothing
    let digest = digest.map_or(null(), |call| unsafe { call() });
    // SAFETY: key and context are there, and the others may be null
    let begun = unsafe { EVP_DigestVerifyInit(context.it, null_mut(), digest, null_mut(), key.it) };
    if begun != 1 {
        return false;
    }
    let (start, length) = (signature.as_ptr(), signature.len());
    // SAFETY: the context is there, and so are the bytes, which are not written
    unsafe { EVP_DigestVerify(context.it, start, length, message.as_ptr(), message.len()) == 1 }
}
