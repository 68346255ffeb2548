"""Where packages of Debian are fetched from that are not installed, and their sources."""
import glob
import os
import platform
import subprocess
import sys


def line(kind, suite=None):
    """A line of apt's sources.list for a suite, or that of this machine: main, from where the machine gets it."""
    own = platform.freedesktop_os_release()["VERSION_CODENAME"]
    words = ["apt-get", "indextargets", "--format", "$(REPO_URI)", "Created-By: Packages", f"Release: {own}", "Component: main"]
    places = subprocess.run(words, capture_output=True, encoding="utf-8", check=True).stdout.split()
    if not places:
        sys.exit("No list of packages was fetched on this machine: run apt-get update.")
    return f"{kind} {places[0]} {suite or own} main\n"


def sources(folder, package, suite=None):
    """The folder of the package's sources in a suite, or in that of this machine, and their version. apt-get reads a list of its own
    and keeps what it fetches below the folder."""
    places = {"Dir::Etc::sourcelist": "sources.list", "Dir::State": "state", "Dir::State::lists": "lists", "Dir::Cache": "cache"}
    for name in ("state", "lists/partial", "cache/archives/partial"):
        os.makedirs(f"{folder}/{name}")
    with open(f"{folder}/sources.list", "w", encoding="ascii") as file:
        file.write(line("deb-src", suite))
    words = [it for name, place in places.items() for it in ("-o", f"{name}={folder}/{place}")]
    words += ["-o", "Dir::Etc::sourceparts=-", "-o", "APT::Sandbox::User="]
    for command in (["update"], ["source", package]):
        subprocess.run(["apt-get", "-q", *words, *command], cwd=folder, stdout=subprocess.DEVNULL, check=True)
    (description,) = glob.glob(f"{folder}/{package}_*.dsc")
    (unpacked,) = glob.glob(f"{folder}/{package}-*/")
    return unpacked, os.path.basename(description).removeprefix(f"{package}_").removesuffix(".dsc")
