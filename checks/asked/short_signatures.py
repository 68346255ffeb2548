"""Certificates whose RSA signature begins with a zero byte, which a signer may leave out (RFC 8332, section 3), for checks/callers: as
it was made, without the zero and with one more. A real sshd says whom they let in."""
import base64
import os
import time

from lib.harness import blob_of, line_of, string, take
from lib.signatures import signed, told

from .login_options import certified_name


def forms(private, line, message_of):
    """A message whose signature by the RSA key begins with a zero byte, the blob of the signature, and names and blobs of it in
    each form. `message_of` gives another message each time."""
    while True:
        message = message_of()
        algorithm, rest = take(signed(private, line, message))
        value = take(rest)[0]
        if value[0] == 0:
            shown = {"as it was made": value, "without its zeros": value.lstrip(b"\0"), "with a zero more": b"\0" + value}
            blobs = {name: string(algorithm) + string(it) for name, it in shown.items()}
            return message, blobs["as it was made"], blobs


def short_logins(maker, me, lets_in, to_be_signed):
    """Names, lines, and whether sshd lets the user of this process in."""
    authority, key, now = "authority4", maker.read("user.pub"), int(time.time())
    signer = maker.read(f"{authority}.pub")
    names = [me], ["permit-pty"]
    message, whole, blobs = forms(
        maker.path(authority), signer, lambda: to_be_signed(os.urandom(16), blob_of(key), 0, "id", *names, now - 300, now + 300, blob_of(signer))
    )
    verified = told(line_of(blob_of(signer)), whole, message)
    front = certified_name(take(blob_of(key))[0]).decode()
    for name, blob in blobs.items():
        line = f"{front} {base64.b64encode(message + string(blob)).decode()}"
        with open(maker.path("user-cert.pub"), "w", encoding="ascii") as file:
            file.write(f"{line}\n")
        asked = "\t".join(["login", me, str(now), line, maker.fingerprint(authority)])
        yield f"login of sshd: a signature by RSA {name}", [verified], asked, lets_in(maker, me)
