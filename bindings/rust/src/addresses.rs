//! Where a client may come from: `source-address` of certificates and `from` of authorized_keys.

use std::net::IpAddr;

use crate::raw;
use crate::status::Status;

/// Whether the list, the value of a certificate's critical option `source-address`, lets a client
/// in from the address of its socket. `::ffff:10.1.2.3` is 10.1.2.3, and an address of `fe80::/10`
/// is in no network, as to sshd.
///
/// Fails with [`Status::ELSEWHERE`] if it does not, with [`Status::FORMAT`] for a malformed list,
/// which sshd refuses too, and with [`Status::TEXT`] for one that is not UTF-8.
pub fn check_source_address(list: impl AsRef<[u8]>, address: IpAddr) -> Result<(), Status> {
    Status::of(raw::raf_check_source_address(list.as_ref(), &octets(Some(address))))
}

/// Whether the list, the value of the option `from` of a line of authorized_keys, lets a client in
/// from the address of its socket. The host is its name in the DNS, if it was looked up and looked
/// up back, and else empty.
///
/// Fails with [`Status::ELSEWHERE`] if it does not: then go on to the next line. After any other
/// error refuse the login, since sshd may let in by this line: [`Status::FORMAT`] for a malformed
/// list; [`Status::TEXT`] where the text of the address may be another to sshd (`fe80::/10`, and
/// `::/96` beyond `::` and `::1`), the host's name is like an address or a text is not UTF-8; and
/// [`Status::MEMORY`].
pub fn check_from(
    list: impl AsRef<[u8]>,
    host: impl AsRef<[u8]>,
    address: IpAddr,
) -> Result<(), Status> {
    let (list, host) = (list.as_ref(), host.as_ref());
    Status::of(raw::raf_check_from(list, host, &octets(Some(address))))
}

/// The bytes of the address, 4 or 16; none if there is none.
pub(crate) fn octets(address: Option<IpAddr>) -> Vec<u8> {
    match address {
        Some(IpAddr::V4(it)) => it.octets().to_vec(),
        Some(IpAddr::V6(it)) => it.octets().to_vec(),
        None => Vec::new(),
    }
}
