//! Certificates: whether they are valid, and what they say.

use std::collections::BTreeMap;
use std::iter::FusedIterator;
use std::str;

use crate::digests::Sha256;
use crate::keys::written_of;
use crate::questions::Question;
use crate::raw;
use crate::status::Status;
use crate::strings::{strings, Strings};

/// Whom a certificate is for.
#[derive(Clone, Copy, Debug, PartialEq, Eq, Hash)]
#[repr(u32)]
pub enum CertificateType {
    /// For users.
    User = raw::USER,
    /// For hosts.
    Host = raw::HOST,
}

impl TryFrom<u32> for CertificateType {
    type Error = Status;

    /// The type of that number. Fails with [`Status::FORMAT`] where it is none.
    fn try_from(number: u32) -> Result<CertificateType, Status> {
        match number {
            raw::USER => Ok(CertificateType::User),
            raw::HOST => Ok(CertificateType::Host),
            _ => Err(Status::FORMAT),
        }
    }
}

/// The principal that a validation asks about.
#[derive(Clone, Copy, Debug, PartialEq, Eq)]
pub enum Principal<'a> {
    /// No principal is asked about: a valid certificate may be for anybody.
    Any,
    /// The one of that name. A certificate that lists nobody is valid for each.
    Named(&'a [u8]),
}

impl<'a> From<&'a str> for Principal<'a> {
    fn from(name: &'a str) -> Principal<'a> {
        Principal::Named(name.as_bytes())
    }
}

/// What has to be verified of a certificate, given as its blob. Fails with a status from 10 to 29
/// where the bytes are none, with [`Status::UNSUPPORTED`] where key and signature do not go
/// together, and with [`Status::MEMORY`].
pub fn certificate_question(certificate: &[u8]) -> Result<Question, Status> {
    let enough = certificate.len().saturating_mul(2).saturating_add(256);
    Question::of_call(enough, |buffer, answer| {
        raw::raf_certificate_question(certificate, buffer, answer)
    })
}

/// Whether a certificate, given as its blob, is valid at that second since 1970 for one of the
/// authorities, which are fingerprints of their keys, and for the principal. `is_verified` is what
/// your verification said of the question of this very certificate, and false where it raised none.
/// [`check_certificate`] asks both at once.
///
/// Fails with a status from 10 to 29 where the bytes are no certificate, with what is wrong first,
/// from [`Status::NOT_SIGNED`] to [`Status::UNLISTED_PRINCIPAL`], with [`Status::TEXT`] for a
/// principal that is not UTF-8, and with [`Status::MEMORY`]. Whether it is one for users, lists
/// anybody at all, what its options ask, and whether it is revoked is not asked here.
pub fn check_certificate_with_answer(
    certificate: &[u8],
    unix_timestamp: u64,
    principal: Principal<'_>,
    authorities: &[Sha256],
    is_verified: bool,
) -> Result<(), Status> {
    let (given, second, by) = (certificate, unix_timestamp, authorities);
    let is_verified = u32::from(is_verified);
    Status::of(match principal {
        Principal::Any => raw::raf_check_certificate(given, second, by, is_verified),
        Principal::Named(name) => {
            raw::raf_check_certificate_for(given, second, name, by, is_verified)
        }
    })
}

/// The two calls in one: [`certificate_question`], which `verify` answers with your cryptography,
/// and [`check_certificate_with_answer`] of the same bytes, which are lent meanwhile, so that
/// nobody changes them. Fails as the latter does, but first with [`Status::UNTRUSTED_AUTHORITY`]
/// for each certificate of another authority, whose key may be one that the client made up:
/// `verify` is not asked about it.
///
/// A login asks more of a certificate, [`log_in`](crate::log_in), and so does a host,
/// [`check_host_certificate`](crate::check_host_certificate).
pub fn check_certificate(
    certificate: &[u8],
    unix_timestamp: u64,
    principal: Principal<'_>,
    authorities: &[Sha256],
    verify: impl FnOnce(&Question) -> bool,
) -> Result<(), Status> {
    let (second, by) = (unix_timestamp, authorities);
    let validate = |yes| check_certificate_with_answer(certificate, second, principal, by, yes);
    match validate(true) {
        Err(Status::UNTRUSTED_AUTHORITY) => Err(Status::UNTRUSTED_AUTHORITY),
        _ => validate(is_verified(certificate, verify)?),
    }
}

/// Whether the certificate raises a question, to which the verifier says yes. Fails with a status
/// from 10 to 29 where the bytes are none, and with [`Status::MEMORY`].
pub(crate) fn is_verified(
    certificate: &[u8],
    verify: impl FnOnce(&Question) -> bool,
) -> Result<bool, Status> {
    match certificate_question(certificate) {
        Ok(question) => Ok(verify(&question)),
        Err(Status::UNSUPPORTED) => Ok(false),
        Err(status) => Err(status),
    }
}

/// What a policy asks of a certificate.
#[derive(Clone, Copy, Debug, PartialEq, Eq)]
pub struct CertificateFields {
    /// The number that the authority gave it.
    pub serial: u64,
    /// The first second of its window.
    pub valid_after: u64,
    /// The first second after its window, or [`raw::FOREVER`].
    pub valid_before: u64,
    /// Whom it is for.
    pub certificate_type: CertificateType,
    /// Whether it lists principals. One that lists none is for everybody.
    pub lists_principals: bool,
    /// Whether it has critical options. Refuse one that has some unless you know each.
    pub has_critical_options: bool,
}

/// The fields of a certificate, valid or not. Fails with a status from 10 to 29 where the bytes
/// are none.
pub fn certificate_fields(certificate: &[u8]) -> Result<CertificateFields, Status> {
    let mut found = raw::Fields::default();
    Status::of(raw::raf_certificate_fields(certificate, &mut found))?;
    Ok(CertificateFields {
        serial: found.serial,
        valid_after: found.valid_after,
        valid_before: found.valid_before,
        certificate_type: found.certificate_type.try_into()?,
        lists_principals: found.lists_principals != 0,
        has_critical_options: found.has_critical_options != 0,
    })
}

/// What a certificate lists, lent of its bytes.
#[derive(Clone, Debug)]
pub struct CertificateContents<'a> {
    /// A text of the authority's, for logs.
    pub key_id: &'a str,
    /// The names of those whom it is for: of everybody, where it lists none.
    pub principals: CertificatePrincipals<'a>,
    /// What whoever accepts it has to know and to meet.
    pub critical_options: CertificateOptions<'a>,
    /// What it permits.
    pub extensions: CertificateOptions<'a>,
    /// The blob of the key that signed.
    pub authority: &'a [u8],
}

/// What a certificate lists, valid or not. Fails with a status from 10 to 29 where the bytes are
/// none. No item of its iterators fails.
pub fn certificate_contents(certificate: &[u8]) -> Result<CertificateContents<'_>, Status> {
    let mut found = raw::Parts::default();
    Status::of(raw::raf_certificate_parts(certificate, &mut found))?;
    Ok(CertificateContents {
        key_id: text(found.key_id.of(certificate))?,
        principals: CertificatePrincipals(strings(found.principals.of(certificate))),
        critical_options: certificate_options(found.critical_options.of(certificate)),
        extensions: certificate_options(found.extensions.of(certificate)),
        authority: found.authority.of(certificate),
    })
}

/// The blob of the key that is certified, in its normal form. Fails with a status from 10 to 29
/// where the bytes are no certificate, and with [`Status::MEMORY`].
pub fn certificate_key(certificate: &[u8]) -> Result<Vec<u8>, Status> {
    written_of(raw::raf_certificate_key, certificate)
}

/// The text of these bytes. Fails with [`Status::CHARACTER_ENCODING`] where they are not UTF-8.
pub(crate) fn text(bytes: &[u8]) -> Result<&str, Status> {
    str::from_utf8(bytes).map_err(|_| Status::CHARACTER_ENCODING)
}

/// The principals of a certificate, lent of its bytes.
#[derive(Clone, Debug)]
#[must_use = "an iterator asks nothing until it is asked"]
pub struct CertificatePrincipals<'a>(Strings<'a>);

impl<'a> Iterator for CertificatePrincipals<'a> {
    type Item = Result<&'a str, Status>;

    fn next(&mut self) -> Option<Self::Item> {
        Some(self.0.next()?.and_then(text))
    }
}

impl FusedIterator for CertificatePrincipals<'_> {}

/// A critical option or an extension, lent of the bytes of a certificate.
#[derive(Clone, Copy, Debug, PartialEq, Eq)]
pub struct CertificateOption<'a> {
    /// Its name.
    pub name: &'a str,
    /// Its value, which is empty where it has none.
    pub value: &'a str,
}

/// The critical options or the extensions that some bytes are, lent of these.
#[derive(Clone, Debug)]
#[must_use = "an iterator asks nothing until it is asked"]
pub struct CertificateOptions<'a> {
    bytes: &'a [u8],
    place: usize,
}

/// The critical options or the extensions that the bytes are. Where they are none, the last item
/// is [`Status::LENGTH`]; one that is not UTF-8 is [`Status::CHARACTER_ENCODING`]. In a
/// certificate each is UTF-8 and has a name of its own; in other bytes two may have one name. Do
/// not `flatten()` the items: that passes over what fails, and so over options.
pub fn certificate_options(bytes: &[u8]) -> CertificateOptions<'_> {
    CertificateOptions { bytes, place: 0 }
}

impl<'a> CertificateOptions<'a> {
    /// The values of those that are left by their names. Fails with [`Status::LENGTH`] and
    /// [`Status::CHARACTER_ENCODING`] where an item does, and with [`Status::FORMAT`] where two
    /// have one name: none of it for those of a certificate.
    pub fn by_name(self) -> Result<BTreeMap<&'a str, &'a str>, Status> {
        let mut found = BTreeMap::new();
        for option in self {
            let CertificateOption { name, value } = option?;
            if found.insert(name, value).is_some() {
                return Err(Status::FORMAT);
            }
        }
        Ok(found)
    }
}

impl<'a> Iterator for CertificateOptions<'a> {
    type Item = Result<CertificateOption<'a>, Status>;

    fn next(&mut self) -> Option<Self::Item> {
        let mut found = raw::CertificateOptionParts::default();
        match Status::of(raw::raf_next_certificate_option(self.bytes, self.place, &mut found)) {
            Ok(()) => self.place = found.next,
            Err(Status::END) => return None,
            Err(status) => {
                self.place = self.bytes.len();
                return Some(Err(status));
            }
        }
        let (name, value) = (text(found.name.of(self.bytes)), text(found.value.of(self.bytes)));
        Some(name.and_then(|name| Ok(CertificateOption { name, value: value? })))
    }
}

impl FusedIterator for CertificateOptions<'_> {}
