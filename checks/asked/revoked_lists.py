"""Lists of what is revoked, as ssh-keygen makes them and says what they revoke."""


def list_of(maker, text, signer="none"):
    """The bytes of ssh-keygen's list of what the text revokes (ssh-keygen(1), "KEY REVOCATION LISTS"), among the certificates of
    that signer, or of all."""
    path = maker.path("revoked")
    words = ["-s", signer if signer == "none" else maker.path(f"{signer}.pub")]
    maker.run("-k", "-f", path, *words, "-", text=True, input=text + "\n")
    with open(path, "rb") as file:
        return file.read()


def saved(maker, data):
    """The path of a file with the list."""
    path = maker.path("revoked")
    with open(path, "wb") as file:
        file.write(data)
    return path


def is_revoked(maker, data, name):
    """Whether ssh-keygen says that the list revokes the key or the certificate in that file, or does not read the list."""
    return maker.run("-Q", "-f", saved(maker, data), maker.path(name), check=False).returncode != 0
