"""The packages for Debian in a place without the toolchain, for checks/dist."""
import glob
import gzip
import os
import platform
import re

from .packages import PYTHON, Wrong, files_below


def packages(place):
    found = sorted(glob.glob(f"{place.release}/*.deb"))
    if len(found) != 4:
        raise Wrong(*found)
    return found


def dpkg_below(place, root):
    """The words that run dpkg below that folder, which has no other package, and names for its environment."""
    for it in ("info", "updates", "triggers"):
        os.makedirs(f"{root}/var/lib/dpkg/{it}")
    for it in ("status", "available"):
        with open(f"{root}/var/lib/dpkg/{it}", "x", encoding="ascii"):
            pass
    # where systemd-sysusers makes the user of the helpers
    os.mkdir(f"{root}/etc")
    # Debian's scripts for packages of Python know no other root
    scripts = place.path("scripts")
    os.mkdir(scripts)
    for it in ("py3compile", "py3clean"):
        os.symlink("/bin/true", f"{scripts}/{it}")
    words = ["dpkg", f"--root={root}", "--force-depends", "--force-script-chrootless", f"--log={place.path('dpkg.log')}"]
    return words, {"PATH": f"{scripts}:{place.environment['PATH']}"}


def check_debian(place):
    """The packages are installed below a folder, judge, and are removed without rest."""
    root = place.path("debian")
    words, names = dpkg_below(place, root)
    if os.getuid():
        # dpkg asks for root
        for it in packages(place):
            place.run(["dpkg-deb", "-x", it, root])
        hold_debian(place, root)
        return
    place.run([*words, "-i", *packages(place)], **names)
    hold_debian(place, root)
    with open(f"{root}/etc/passwd", encoding="ascii") as file:
        if not any(it.startswith("sshkey:") for it in file):
            raise Wrong("the helpers have no user")
    installed = place.run(["dpkg-query", f"--admindir={root}/var/lib/dpkg", "-W", "-f", "${Package} "]).split()
    place.run([*words, "--purge", *installed], **names)
    # a user stays, as Debian's policy has it
    accounts = r"etc/(\.pwd\.lock|(passwd|group|shadow|gshadow)-?)"
    left = {it for it in files_below(root) if not it.startswith("var/lib/dpkg/") and not re.fullmatch(accounts, it)}
    if left:
        raise Wrong("is left", *sorted(left))


def hold_debian(place, root):
    (library,) = glob.glob(f"{root}/usr/lib/*-linux-gnu")
    flags = [f"-I{root}/usr/include", f"-L{library}", "-lrafendilo"]
    place.hold_fingerprint([place.first_in_c("cc", place.path("first-debian"), *flags)], LD_LIBRARY_PATH=library)
    place.hold_helper(f"{root}/usr/bin/sshkey-check", LD_LIBRARY_PATH=library)
    place.hold_python(PYTHON, PYTHONPATH=f"{root}/usr/lib/python3/dist-packages", LD_LIBRARY_PATH=library)
    left = {
        "share/bash-completion/completions/sshkey-check", "share/zsh/vendor-completions/_sshkey-check", "include/rafendilo/verdict.h",
        "share/doc/rafendilo-helpers/examples/sshkey.conf", "lib/systemd/system/sshkey-revoked.timer", "bin/sshkey-revoked",
    } - files_below(f"{root}/usr")  # fmt: skip
    if left:
        raise Wrong("lacks", *sorted(left))
    hold_helpers(place, root)


def hold_helpers(place, root):
    """The manual pages name the folder of the programs, nothing starts by itself, and the package says for which release it is."""
    pages = {it: gzip.open(it, "rt", encoding="utf-8").read() for it in glob.glob(f"{root}/usr/share/man/man[18]/sshkey-*.gz")}
    if len(pages) != 4 or any("/usr/local/" in it for it in pages.values()) or not any("/usr/bin/sshkey-principals" in it for it in pages.values()):
        raise Wrong("the manual pages name other folders", *pages)
    (package,) = glob.glob(f"{place.release}/rafendilo-helpers_*.deb")
    description = " ".join(place.run(["dpkg-deb", "-f", package, "Description"]).split())
    if f"Built on {platform.freedesktop_os_release()['PRETTY_NAME']}, for it and later releases." not in description:
        raise Wrong(description)
    if os.path.exists(f"{root}/etc/systemd"):
        raise Wrong("a unit is enabled")


def check_lintian(place):
    said = place.run(["lintian", "--fail-on", "error,warning,info", "--display-info", *packages(place)])
    if said:
        raise Wrong(said)
