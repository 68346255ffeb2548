"""What the checks verify by the Python package `cryptography`: signatures as keys, certificates and agents hold them; and SSH
signatures of files (PROTOCOL.sshsig)."""
import base64
import hashlib
import sys

from lib.harness import blob_of, line_of, string, take

try:
    from cryptography.exceptions import InvalidSignature
    from cryptography.hazmat.primitives import hashes, serialization
    from cryptography.hazmat.primitives.asymmetric import ec, padding, utils
except ImportError:
    sys.exit("the Python package cryptography is missing (Debian: python3-cryptography)\n0 passed, 1 failed")

HASHES = {
    "ssh-rsa": hashes.SHA1, "rsa-sha2-256": hashes.SHA256, "rsa-sha2-512": hashes.SHA512, "ecdsa-sha2-nistp256": hashes.SHA256,
    "ecdsa-sha2-nistp384": hashes.SHA384, "ecdsa-sha2-nistp521": hashes.SHA512,
}  # fmt: skip
# the types of key that ssh-keygen makes, as it is told of them
TYPES = ["ed25519", "ecdsa -b 256", "ecdsa -b 384", "ecdsa -b 521", "rsa -b 2048"]


def is_signed(key, algorithm, message, signature):
    """Whether the bytes are a signature of the message under the key in that line by that algorithm."""
    public = serialization.load_ssh_public_key(key.encode())
    try:
        if algorithm == "ssh-ed25519":
            public.verify(signature, message)
        elif algorithm in ("ssh-rsa", "rsa-sha2-256", "rsa-sha2-512"):
            public.verify(signature, message, padding.PKCS1v15(), HASHES[algorithm]())
        else:
            r, rest = take(signature)
            r, s = int.from_bytes(r, "big"), int.from_bytes(take(rest)[0], "big")
            public.verify(utils.encode_dss_signature(r, s), message, ec.ECDSA(HASHES[algorithm]()))
    except InvalidSignature:
        return False
    return True


def told(key, signature, message):
    """The line that tells the program of the signature in that blob, if it is one."""
    algorithm, rest = take(signature)
    algorithm, signature = algorithm.decode(), take(rest)[0]
    if not is_signed(key, algorithm, message, signature):
        return None
    return "\t".join(["verified", algorithm, key, message.hex(), signature.hex()])


def mpint(number):
    return string(number.to_bytes(number.bit_length() // 8 + 1, "big"))


def signed(private, key, message):
    """The blob of a signature of the message by the private key that stands in that file, whose public line is `key`."""
    with open(private, "rb") as file:
        private = serialization.load_ssh_private_key(file.read(), None)
    algorithm = key.split(" ")[0]
    if algorithm == "ssh-ed25519":
        return string(algorithm.encode()) + string(private.sign(message))
    if algorithm == "ssh-rsa":
        return string(b"rsa-sha2-512") + string(private.sign(message, padding.PKCS1v15(), hashes.SHA512()))
    r, s = utils.decode_dss_signature(private.sign(message, ec.ECDSA(HASHES[algorithm]())))
    return string(algorithm.encode()) + string(mpint(r) + mpint(s))


# ---- certificates

# the names that an authority's key begins with
AUTHORITIES = [b"ssh-ed25519", b"ssh-rsa", *(f"ecdsa-sha2-nistp{it}".encode() for it in (256, 384, 521))]


def told_of_certificate(line):
    """The line that tells of a certificate's signature: it stands last, over all that stands before it, after the key that
    made it (PROTOCOL.certkeys)."""
    blob = blob_of(line)
    # the signature's own length tells where it begins
    for start in range(len(blob) - 4):
        if int.from_bytes(blob[start : start + 4], "big") == len(blob) - start - 4:
            signature, message = blob[start + 4 :], blob[:start]
            # a key has a name, and a number of eight bytes may look like no key and a length
            for before in range(start - 8):
                key = message[before + 4 :]
                # a time may look like a length
                if int.from_bytes(message[before : before + 4], "big") == len(key) and take(key)[0] in AUTHORITIES:
                    return told(line_of(key), signature, message)
    return None


# ---- SSH signatures


def armoured(blob):
    """The bytes as `ssh-keygen -Y sign` writes them."""
    text = base64.b64encode(blob).decode()
    rows = [text[at : at + 70] for at in range(0, len(text), 70)]
    return "".join(f"{row}\n" for row in ["-----BEGIN SSH SIGNATURE-----", *rows, "-----END SSH SIGNATURE-----"])


def unarmoured(text):
    """The bytes that stand in such a text."""
    return base64.b64decode("".join(text.splitlines()[1:-1]))


def signed_data(namespace, reserved, name, content):
    """What is signed in place of the content, by the hash of that name."""
    digest = hashlib.new(name.decode(), content).digest()
    return b"SSHSIG" + b"".join(map(string, (namespace, reserved, name, digest)))


def ssh_signature(key, signature, namespace=b"file", reserved=b"", name=b"sha512"):
    """An SSH signature by that key, both as their blobs."""
    return b"SSHSIG" + (1).to_bytes(4, "big") + b"".join(map(string, (key, namespace, reserved, name, signature)))


def ssh_signature_over(reserved, private, key, content):
    """One of the content and of its reserved bytes, by the private key in that file, whose public line is `key`."""
    made = signed(private, key, signed_data(b"file", reserved, b"sha512", content))
    return ssh_signature(blob_of(key), made, reserved=reserved)


def told_of_file(blob, content):
    """The line that tells the program of an SSH signature of the content, if it is one."""
    key, rest = take(blob[len(b"SSHSIG") + 4 :])
    namespace, rest = take(rest)
    reserved, rest = take(rest)
    name, rest = take(rest)
    line = f"{take(key)[0].decode()} {base64.b64encode(key).decode()}"
    return told(line, take(rest)[0], signed_data(namespace, reserved, name, content))
