//! What a login is bound to, or why it is refused.

use std::fmt;
use std::ops::RangeInclusive;

use crate::buffers::written;
use crate::certificates::text;
use crate::digests::Sha256;
use crate::permits::Permits;
use crate::raw;
use crate::status::Status;
use crate::strings::{string, strings};

/// By what a login is let in.
#[derive(Clone, Copy, Debug, PartialEq, Eq, Hash)]
#[non_exhaustive]
#[repr(u32)]
pub enum Source {
    /// A text of authorized_keys.
    AuthorizedKeys = raw::SOURCE_AUTHORIZED_KEYS,
    /// An authority, by a certificate that lists the user.
    Authority = raw::SOURCE_AUTHORITY,
    /// An authority, by a text of principals.
    Principals = raw::SOURCE_PRINCIPALS,
    /// What `AuthorizedKeysCommand` wrote.
    Command = raw::SOURCE_COMMAND,
}

impl Source {
    /// The source of that number of rafendilo.h, if there is one.
    fn of(number: u32) -> Option<Source> {
        use Source::{Authority, AuthorizedKeys, Command, Principals};
        let all = [AuthorizedKeys, Authority, Principals, Command];
        all.iter().copied().find(|it| *it as u32 == number)
    }
}

/// A host and a port.
#[derive(Clone, Debug, PartialEq, Eq)]
pub struct HostPort {
    /// The host, without brackets; `*` is any. What else stands for a host, [`Grant::may_open`] and
    /// [`Grant::may_listen`] say.
    pub host: String,
    /// The port, or any.
    pub port: Option<u16>,
}

/// What a login is let in by, and what it may do.
#[derive(Clone, Debug, PartialEq, Eq)]
#[must_use = "a login is bound to what its grant says"]
pub struct Grant {
    /// To be shown: the one command that runs, which may be empty, or none
    /// ([`Permits::ANY_COMMAND`]). What runs is said by [`Grant::runs`].
    pub shown_command: Option<String>,
    /// The certificate's, a text of the authority's for logs, where its line ends have to be
    /// escaped; of a plain key it is empty.
    pub key_id: String,
    /// To be shown: where ports may be forwarded to, `*` at any port where it is anywhere, and
    /// nothing where it is nowhere. [`Grant::may_open`] reads them.
    pub permit_open: Vec<HostPort>,
    /// Likewise where may be listened, which [`Grant::may_listen`] reads.
    pub permit_listen: Vec<HostPort>,
    /// `NAME=VALUE` each. By its defaults sshd sets none.
    pub environment: Vec<String>,
    /// The number of the line that lets in, from 1; 0 where the certificate alone does.
    pub line: usize,
    /// The number of its text among its like, from 0.
    pub text: usize,
    /// The certificate's serial number, by which it can be revoked; 0 is none, as of a plain key.
    pub serial: u64,
    /// The seconds since 1970 that may be the last at which the line counts, if it has one.
    pub expires: Option<RangeInclusive<u64>>,
    /// The fingerprint of the key that signed the certificate; of a plain key zeros.
    pub authority: Sha256,
    /// The fingerprint of the plain key, also of one in a certificate: a server that wants two
    /// methods in a row refuses a key that was taken before.
    pub key: Sha256,
    /// What the login may do, and what its signature by a security key may lack.
    pub permits: Permits,
    /// The only device of tun(4); none with [`Permits::ANY_TUNNEL`], or without
    /// [`Permits::TUNNELS`].
    pub tunnel: Option<u32>,
    /// By what the login is let in.
    pub source: Source,
}

impl Grant {
    /// What runs where the client asks for that command, or for a shell (none): the grant's
    /// command, which may be empty, and else what the client asks for. Where that is none, it is a
    /// shell.
    #[must_use]
    pub fn runs(&self, asked: Option<&str>) -> Option<String> {
        let forced = self.shown_command.as_deref().unwrap_or_default().as_bytes();
        let mut grant = raw::Grant { permits: self.permits.bits(), ..raw::Grant::default() };
        grant.force_command.length = forced.len();
        let (asks_command, asked) = (asked.is_some(), asked.unwrap_or_default().as_bytes());
        let found = written(forced.len() + asked.len(), |buffer, length| {
            raw::raf_runs(&grant, forced, asked, asks_command.into(), buffer, length)
        });
        if found == Err(Status::END) {
            return None;
        }
        // with another error nothing runs
        Some(String::from_utf8(found.unwrap_or_default()).unwrap_or_default())
    }

    /// Whether the client may have a port forwarded to that host and port, as its request names
    /// them (`direct-tcpip`).
    #[must_use]
    pub fn may_open(&self, host: impl AsRef<[u8]>, port: u32) -> bool {
        let buffer = bytes_of(&self.permit_open);
        let mut grant = raw::Grant::default();
        grant.permit_open.length = buffer.len();
        Status::of(raw::raf_may_open(&grant, &buffer, host.as_ref(), port)).is_ok()
    }

    /// Whether the client may have the server listen at that host and port, likewise
    /// (`tcpip-forward`). As the request has them, the empty host, `localhost` and `127.0.0.1` are
    /// three. Port 0, by which the server chooses one, is permitted where any port is.
    #[must_use]
    pub fn may_listen(&self, host: impl AsRef<[u8]>, port: u32) -> bool {
        let buffer = bytes_of(&self.permit_listen);
        let mut grant = raw::Grant::default();
        grant.permit_listen.length = buffer.len();
        Status::of(raw::raf_may_listen(&grant, &buffer, host.as_ref(), port)).is_ok()
    }
}

/// The places as strings, one after the other.
fn bytes_of(places: &[HostPort]) -> Vec<u8> {
    let mut bytes = Vec::new();
    for place in places {
        let port = place.port.map(u16::to_be_bytes);
        for content in [place.host.as_bytes(), port.as_ref().map_or(&[][..], |it| &it[..])] {
            bytes.extend(string(content).unwrap_or_default());
        }
    }
    bytes
}

/// Why a login is refused.
#[derive(Clone, Copy, Debug, PartialEq, Eq)]
pub struct Refused {
    /// What is wrong first.
    pub status: Status,
    /// Whose text is the reason, where one is.
    pub source: Option<Source>,
    /// The number of that text among its like, from 0.
    pub text: usize,
    /// The number, from 1, of its line that refuses; 0 where none does.
    pub line: usize,
}

impl Refused {
    /// The refusal of which the library tells the reason so.
    pub(crate) fn at(status: Status, reason: &raw::Grant) -> Refused {
        let (text, line) = (reason.text, reason.line);
        Refused { status, source: Source::of(reason.source), text, line }
    }
}

/// The meaning and the number, and the line and the text, by the names of
/// [`Trusted`](crate::Trusted).
impl fmt::Display for Refused {
    fn fmt(&self, formatter: &mut fmt::Formatter<'_>) -> fmt::Result {
        let texts = match self.source {
            Some(Source::AuthorizedKeys) => "authorized_keys",
            Some(Source::Principals) => "principals",
            Some(Source::Command) => "command_keys",
            Some(Source::Authority) | None => return write!(formatter, "{}", self.status),
        };
        match self.line {
            0 => write!(formatter, "{} in {texts}[{}]", self.status, self.text),
            line => write!(formatter, "{} in line {line} of {texts}[{}]", self.status, self.text),
        }
    }
}

impl std::error::Error for Refused {}

impl From<Status> for Refused {
    fn from(status: Status) -> Refused {
        Refused { status, source: None, text: 0, line: 0 }
    }
}

impl From<Refused> for Status {
    fn from(refused: Refused) -> Status {
        refused.status
    }
}

/// The grant that the library has written to that buffer.
pub(crate) fn grant_in(buffer: &[u8], found: &raw::Grant) -> Result<Grant, Status> {
    let permits = Permits::from_bits(found.permits);
    let command = text(found.force_command.of(buffer))?;
    let is_bound = permits.contains(Permits::TUNNELS) && !permits.contains(Permits::ANY_TUNNEL);
    let (first, last) = (found.expires.first, found.expires.last);
    let environment = strings(found.environment.of(buffer)).map(|it| Ok(text(it?)?.into()));
    Ok(Grant {
        shown_command: (!permits.contains(Permits::ANY_COMMAND)).then(|| command.into()),
        key_id: text(found.key_id.of(buffer))?.into(),
        permit_open: places(found.permit_open.of(buffer))?,
        permit_listen: places(found.permit_listen.of(buffer))?,
        environment: environment.collect::<Result<_, Status>>()?,
        line: found.line,
        text: found.text,
        serial: found.serial,
        expires: (first != u64::MAX).then_some(first..=last),
        authority: found.authority,
        key: found.key,
        permits,
        tunnel: is_bound.then_some(found.tunnel),
        source: Source::of(found.source).ok_or(Status::OTHER_ERROR)?,
    })
}

/// The hosts and ports that are strings, one after the other. A port of no bytes is any.
fn places(bytes: &[u8]) -> Result<Vec<HostPort>, Status> {
    let mut found = Vec::new();
    let mut rest = strings(bytes);
    while let Some(host) = rest.next() {
        let port = rest.next().unwrap_or(Ok(&[]))?;
        found.push(HostPort {
            host: text(host?)?.into(),
            port: <[u8; 2]>::try_from(port).ok().map(u16::from_be_bytes),
        });
    }
    Ok(found)
}
