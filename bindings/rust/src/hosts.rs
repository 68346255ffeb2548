//! Whether the key or the certificate that a host shows is the host's, by known_hosts.

use std::str;

use crate::buffers::spans;
use crate::certificates::is_verified;
use crate::questions::{decide, Question};
use crate::raw;
use crate::status::Status;

/// Texts of known_hosts that are read once, to be asked again and again. A question then reads the
/// lines for its host, and those that have a pattern or a hash. The others cost it next to nothing.
#[derive(Clone, Debug)]
pub struct HeldHosts {
    text: Vec<u8>,
    places: Vec<raw::LinePlace>,
}

impl HeldHosts {
    /// Holds a copy of these texts, which are all that count.
    pub fn new(known_hosts: &[&[u8]]) -> HeldHosts {
        let text = known_hosts.join(&b'\n');
        let lines = text.iter().filter(|&&byte| byte == b'\n').count() + 1;
        let (mut places, mut count) = (vec![raw::LinePlace::default(); lines], 0);
        if raw::raf_place_hosts(&text, &mut places, &mut count) != 0 {
            // the library is another than the header's: without places each host is refused
            count = 0;
        }
        places.truncate(count);
        HeldHosts { text, places }
    }

    /// As [`check_host_key`], by these texts and those of the login.
    pub fn check_host_key(&self, login: &HostLogin<'_>, key: &[u8]) -> Result<(), Status> {
        let (text, places) = (&self.text, &self.places);
        with_raw(login, |asked| raw::raf_check_held_host_key(asked, text, places, key))
    }

    /// As [`check_host_certificate`], by these texts and those of the login.
    pub fn check_host_certificate(
        &self,
        login: &HostLogin<'_>,
        certificate: &[u8],
        verify: impl FnOnce(&Question) -> bool,
    ) -> Result<KnownBy, Status> {
        let (text, places) = (&self.text, &self.places);
        known_by(login, certificate, verify, |asked, yes, by| {
            raw::raf_check_held_host_certificate(asked, text, places, certificate, yes, by)
        })
    }
}

/// A host that shows a key or a certificate, and what is known of it.
#[derive(Clone, Copy, Debug)]
pub struct HostLogin<'a> {
    /// The texts of all the files of known_hosts that count, the user's and the machine's.
    pub known_hosts: &'a [&'a [u8]],
    /// The name or the address as the user typed it, without brackets, in UTF-8. An address is
    /// asked in the text that ssh(1) asks.
    pub host: &'a [u8],
    /// Where it was asked; not 0.
    pub port: u16,
    /// The revocation files, as `RevokedHostKeys` of ssh_config(5) names them: any of them revokes.
    /// [`NO_REVOCATIONS`](crate::NO_REVOCATIONS) where none is asked; an empty list refuses.
    pub revoked: &'a [&'a [u8]],
    /// When that is, in seconds since 1970. Of a plain key it is not asked.
    pub unix_timestamp: u64,
    /// How many bits an RSA key has at least (`RequiredRSASize`). Below 1,024, as 0, it is 1,024.
    pub least_rsa_bits: u32,
}

/// Accepts the key, given as its blob, if it is one that the host is known by, as ssh(1) does or
/// more strictly.
///
/// Fails with a status from 10 to 29 where the bytes are no key, and else with what is wrong first:
/// [`Status::NO_PORT`], [`Status::NO_HOST`], [`Status::NO_ADDRESS`],
/// [`Status::UNREADABLE_REVOCATIONS`], [`Status::HOST_REVOKED`], [`Status::HOST_UNREADABLE`],
/// [`Status::HOST_CHANGED`], [`Status::HOST_UNKNOWN`] or [`Status::KEY_NOT_ACCEPTED`]; with
/// [`Status::TEXT`] where the host is not UTF-8, and with [`Status::MEMORY`].
///
/// That the host has signed this session under the key is yours to ask.
pub fn check_host_key(login: &HostLogin<'_>, key: &[u8]) -> Result<(), Status> {
    with_raw(login, |asked| raw::raf_check_host_key(asked, key))
}

/// By what a host that shows a certificate is known.
#[derive(Clone, Copy, Debug, PartialEq, Eq, Hash)]
#[repr(u32)]
pub enum KnownBy {
    /// By an authority of the host, which made the certificate.
    Authority = raw::BY_AUTHORITY,
    /// By the key in the certificate, as if nobody had signed it.
    CertifiedKey = raw::BY_CERTIFIED_KEY,
}

/// Says by what a host that shows a certificate, given as its blob, is known, as ssh(1) does or more
/// strictly: by an authority that known_hosts names for the host, of a certificate for hosts that
/// lists the host's name in small letters, valid then, and not revoked; else by the certified key,
/// as [`check_host_key`] says, where nothing is revoked or may be. `verify` is your cryptography; it
/// is asked once, and only where nothing else is wrong with one of both.
///
/// Fails with a status from 10 to 29 where the bytes are no certificate, and else with what is
/// wrong first: [`Status::NOT_NORMAL_FORM`]; as [`check_host_key`] does; with
/// [`Status::OTHER_TYPE`], [`Status::CRITICAL_OPTIONS`], [`Status::KEY_ID`] or
/// [`Status::VALID_PRINCIPALS`]; with 32 to 34, and with [`Status::NOT_SIGNED`] where `verify` says
/// no.
///
/// That the host has signed this session under the certified key
/// ([`certificate_key`](crate::certificate_key)) is yours to ask.
pub fn check_host_certificate(
    login: &HostLogin<'_>,
    certificate: &[u8],
    verify: impl FnOnce(&Question) -> bool,
) -> Result<KnownBy, Status> {
    known_by(login, certificate, verify, |asked, yes, by| {
        raw::raf_check_host_certificate(asked, certificate, yes, by)
    })
}

/// What a call says of the login and the certificate, by what the verification said.
fn known_by(
    login: &HostLogin<'_>,
    certificate: &[u8],
    verify: impl FnOnce(&Question) -> bool,
    call: impl Fn(&raw::HostLogin<'_>, u32, &mut u32) -> u32,
) -> Result<KnownBy, Status> {
    let verdict = |yes| {
        let mut known_by = 0;
        with_raw(login, |asked| call(asked, u32::from(yes), &mut known_by))?;
        let mut ways = [KnownBy::Authority, KnownBy::CertifiedKey].into_iter();
        ways.find(|it| *it as u32 == known_by).ok_or(Status::OTHER_ERROR)
    };
    decide(verdict, || is_verified(certificate, verify))
}

/// What a call says of the login.
fn with_raw(
    login: &HostLogin<'_>,
    call: impl FnOnce(&raw::HostLogin<'_>) -> u32,
) -> Result<(), Status> {
    let (known_hosts, revoked) = (spans(login.known_hosts), spans(login.revoked));
    Status::of(call(&raw::HostLogin {
        known_hosts: known_hosts.as_slice().into(),
        host: login.host.into(),
        revoked: revoked.as_slice().into(),
        unix_timestamp: login.unix_timestamp,
        least_rsa_bits: login.least_rsa_bits,
        port: login.port,
    }))
}

/// The host and the port that a user types: `host:port`, `[host]:port`, `[host]` or a host alone.
/// Without brackets a text with several colons is a host alone, as an address of IPv6. Fails with
/// [`Status::FORMAT`] where something else follows a bracket or the one colon, and with
/// [`Status::TEXT`] where the text is not UTF-8.
pub fn host_and_port<T: AsRef<[u8]> + ?Sized>(text: &T) -> Result<(&str, Option<u16>), Status> {
    let mut found = raw::Destination::default();
    let text = text.as_ref();
    Status::of(raw::raf_host_and_port(text, &mut found))?;
    let host = &text[found.host.start..][..found.host.length];
    let host = str::from_utf8(host).map_err(|_| Status::TEXT)?;
    Ok((host, (found.port != 0).then_some(found.port)))
}

/// The number, from 1 on, of the first line of a text of known_hosts for which a host is answered
/// with [`Status::HOST_UNREADABLE`]; none if there is no such line. Fails with [`Status::TEXT`]
/// where the host is not UTF-8.
pub fn unreadable_host_line(
    known_hosts: &[u8],
    host: impl AsRef<[u8]>,
    port: u16,
) -> Result<Option<usize>, Status> {
    let mut number = 0;
    let host = host.as_ref();
    match Status::of(raw::raf_unreadable_host_line(known_hosts, host, port, &mut number)) {
        Ok(()) => Ok(Some(number)),
        Err(Status::END) => Ok(None),
        Err(status) => Err(status),
    }
}
