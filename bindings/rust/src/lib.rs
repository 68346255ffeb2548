//! Certificates, signatures, keys, revocation lists, authorized_keys and known_hosts of OpenSSH, by
//! the proved library that include/rafendilo.h declares. This crate is tested, and not proved.
//!
//! Cryptography is yours: a call tells the question that has to be verified, and a function of
//! yours answers it. With the feature `libcrypto` the crate has one that asks OpenSSL's library,
//! `rafendilo::is_signature`.
//!
//! ```
//! use rafendilo::{Grant, Offer, Place, Principals, Question, Refused, Sha256, Signed, Text, Trusted};
//!
//! /// Whether the signature is one of the message under the key, by your library.
//! fn is_signature(question: &Question) -> bool {
//! #   let _ = question;
//!     false
//! }
//!
//! /// Logs in who offers this, and has signed this session with it.
//! fn log_in(
//!     offer: &Offer, signature: &[u8], session_id: &[u8], text: &[u8], authorities: &[Sha256],
//!     place: &Place,
//! ) -> Result<Grant, Refused> {
//!     let signed = Signed::Request {
//!         session_id,     // your server's own
//!         host_key: None, // or your server's own, if the request has one
//!         signature,
//!     };
//!     let trusted = Trusted {
//!         authorized_keys: &[Text::Read(text)],
//!         authorities,
//!         principals: Principals::InCertificate,
//!         command_keys: &[],
//!         revoked: rafendilo::NO_REVOCATIONS, // or what the files of sshd's RevokedKeys have
//!         least_rsa_bits: 0,
//!         requires_touch: false,
//!         requires_verification: false,
//!     };
//!     rafendilo::log_in(offer, &signed, &trusted, place, is_signature)
//! }
//! # let offer = Offer { user: b"alice", algorithm: Some(b"ssh-ed25519"), blob: &[] };
//! # let place = Place { client: None, host: None, unix_timestamp: 0 };
//! # let refused = log_in(&offer, &[], &[], &[], &[], &place).unwrap_err();
//! # assert_eq!(refused.status, rafendilo::Status::LENGTH);
//! ```
//!
//! The library lies in this crate as text, for Linux on x86-64 and aarch64. With the feature
//! `installed` librafendilo.a is linked instead, which the linker has to find.
//!
//! Each function says what it fails with: a [`Status`]; [`Status::MEMORY`] says nothing of
//! the input; where Rust itself gets no memory for a copy, the process ends. What is lent of the
//! input stands in it, and nothing is kept of it. Calls from several threads at once are fine; make
//! none from a signal handler, or from the forked child of a process with threads. What no call
//! answers, as is proved, would be a panic: a part that lies outside its bytes, and an error of
//! [`entry_lines`]. So is the first call of a library that has another ABI.
#![deny(missing_docs)]

mod addresses;
mod authorities;
mod buffers;
mod calling;
mod certificates;
mod digests;
mod drafts;
mod files;
mod grants;
mod hosts;
mod keys;
#[cfg(feature = "libcrypto")]
mod libcrypto;
mod library;
mod logins;
mod permits;
mod questions;
mod raw;
mod revocations;
mod signers;
mod sshsigs;
mod status;
mod strings;
mod times;

pub use addresses::{check_from, check_source_address};
pub use authorities::{
    authorities, is_later_key_line, names_later_kind, user_authorities, Authorities, NoKey,
};
pub use certificates::{
    certificate_contents, certificate_fields, certificate_key, certificate_options,
    certificate_question, check_certificate, check_certificate_with_answer, CertificateContents,
    CertificateFields, CertificateOption, CertificateOptions, CertificatePrincipals,
    CertificateType, Principal,
};
pub use digests::{fingerprint, fingerprint_sha512, Sha256, Sha512};
pub use drafts::{certificate_to_be_signed, join_certificate, make_certificate, Draft, Listed};
pub use files::{
    authorized_entry, entry_lines, is_safe_mode, known_host, line_may_name_authority,
    line_may_name_key, line_options, AuthorizedEntry, EntryLines, KnownHost, LineOption, Marker,
};
pub use grants::{Grant, HostPort, Refused, Source};
pub use hosts::{
    check_host_certificate, check_host_key, host_and_port, unreadable_host_line, HeldHosts,
    HostLogin, KnownBy,
};
pub use keys::{
    may_verify, normal_certificate, normal_key, normal_signature, normal_sshsig, read_line,
    signature_question, Line,
};
#[cfg(feature = "libcrypto")]
pub use libcrypto::is_signature;
pub use logins::{log_in, may_offer, Offer, Place, Principals, Signed, Text, Trusted};
pub use permits::Permits;
pub use questions::{Algorithm, Question};
pub use raw::FOREVER;
pub use revocations::{
    check_unrevoked_certificate, check_unrevoked_certificate_by_krl, check_unrevoked_key,
    check_unrevoked_key_by_krl, NO_REVOCATIONS,
};
pub use signers::{check_signer_of_digest, check_signer_with_answer, Signers};
pub use sshsigs::{
    check_sshsig, check_sshsig_of_digest, check_sshsig_with_answer, read_armour, sshsig_hash,
    sshsig_question, sshsig_question_of_digest, sshsig_reserved, HashAlgorithm,
};
pub use status::Status;
pub use strings::{string, strings, Strings};
pub use times::read_time;
