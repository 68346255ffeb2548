"""What a release says of itself: whom to write to, what was proved by what, and what is inside."""
import json
import os
import re
import time

from .archives import sum_of
from .sources import DATE

# by Go's name of a processor, where a release names it otherwise: the machine, as `uname -m` calls it
MACHINES = {"amd64": "x86_64", "arm64": "aarch64"}
# where the texts stand
PACKAGE = "bindings/go/rafendilo"
NOT_PUBLISHED = "It is not published yet"


class Release:
    """The tree at a commit: its version, the second of the commit, and what CONTACT and NOTICE say."""

    def __init__(self, sources):
        self.root, self.sources = sources.root, sources
        self.version = self.read("VERSION").strip()
        self.commit, self.second = sources.commit()
        self.contact = dict(re.findall(r"^(\w+): *(.*)$", self.read("CONTACT"), re.M))
        self.parts = self.read_parts()

    def read(self, path):
        with open(f"{self.root}/{path}", encoding="utf-8") as file:
            return file.read()

    def date(self, form):
        return time.strftime(form, time.gmtime(self.second))

    def inside(self):
        """The paragraphs of NOTICE on what of the toolchain is inside."""
        return "The compiled library" + self.read("NOTICE").partition("\nThe compiled library")[2]

    def read_parts(self):
        """The names of these parts, and the licence of each."""
        found = re.findall(r"^  (\w+(?:, \w+)*)  +(MIT or Apache-2\.0|MIT|NOASSERTION)\b", self.inside(), re.M)
        assert found, "NOTICE"
        return {name: licence.replace(" or ", " OR ") for names, licence in found for name in names.split(", ")}

    def publisher(self):
        """Whom a package names: an address that nobody has, until there is one."""
        return self.contact["publisher"] or "Rafendilo is not published yet <unpublished@rafendilo.example>"

    def where(self):
        """What a page says of where it is published."""
        told = {"homepage": "Published at", "source": "source:", "security": "report security faults to"}
        known = [f"{words} {self.contact[it]}" for it, words in told.items() if self.contact[it]]
        return ("; ".join(known) or NOT_PUBLISHED) + "."


# ---- placeholders


def indented(text):
    """As the fields of Debian's files have several lines."""
    return "\n".join(f" {it or '.'}" for it in text.strip().splitlines())


def filled(text, values):
    """The text with the value of each @name@ in its place. A line goes whose value there is none of."""
    lines = []
    for line in text.splitlines():
        names = re.findall(r"@(\w+)@", line)
        if all(values[it] for it in names):
            lines.append(re.sub(r"@(\w+)@", lambda it: values[it[1]], line))
    return "\n".join(lines) + "\n"


# ---- PROVED-BY


def proved_by(release):
    """The paper that stands beside the texts, and of which release it is here."""
    if release.sources.is_package:
        return release.read("PROVED-BY")
    title, rest = release.read(f"{PACKAGE}/PROVED-BY").split("\n\n", 1)
    named = f"rafendilo {release.version} of {release.date(DATE)}"
    told = f"release    {named}, whose sources are the commit\n           {release.commit}\n"
    return f"{title}\n\n{told}{rest}\n{release.where()}\n"


# ---- SBOM


def package(name, version, licence, **more):
    return {
        "SPDXID": "SPDXRef-" + re.sub(r"[^A-Za-z0-9.]", "-", name), "name": name, "versionInfo": version, "downloadLocation": "NOASSERTION",
        "filesAnalyzed": False, "licenseConcluded": "NOASSERTION", "licenseDeclared": licence, "copyrightText": "NOASSERTION", **more,
    }  # fmt: skip


def bill_of_materials(release, artefacts):
    """The SBOM in SPDX 2.3 of the artefacts, by their paths: each holds the parts of the toolchain, and what has the helpers takes
    libcrypto."""
    kit = release.read("toolchain").split()[0]
    parts = [package(it, kit, licence) for it, licence in release.parts.items()]
    crypto = package("libcrypto", "3.0 or later", "Apache-2.0", supplier="Organization: The OpenSSL Project")
    made, relations = [], []
    for path in artefacts:
        sums = [{"algorithm": "SHA256", "checksumValue": sum_of(path)}]
        made.append(package(os.path.basename(path), release.version, "MIT OR Apache-2.0", packageFileName=os.path.basename(path), checksums=sums))
        own = made[-1]["SPDXID"]
        relations.append(("SPDXRef-DOCUMENT", "DESCRIBES", own))
        if not re.match(r"python3-", os.path.basename(path)):
            relations += [(own, "CONTAINS", it["SPDXID"]) for it in parts]
        if re.search(r"helpers|-dev_|\.tar\.", path):
            relations.append((own, "DEPENDS_ON", crypto["SPDXID"]))
    return json.dumps({
        "spdxVersion": "SPDX-2.3", "dataLicense": "CC0-1.0", "SPDXID": "SPDXRef-DOCUMENT", "name": f"rafendilo-{release.version}",
        "documentNamespace": f"https://spdx.org/spdxdocs/rafendilo-{release.version}-{release.commit[:40]}",
        "creationInfo": {"created": release.date(DATE), "creators": ["Tool: bindings/dist"]},
        "packages": [*made, *parts, crypto],
        "relationships": [{"spdxElementId": it, "relationshipType": what, "relatedSpdxElement": to} for it, what, to in relations],
    }, indent=1) + "\n"  # fmt: skip
