"""Archives that have the same bytes wherever and whenever they are packed of the same files."""
import gzip
import hashlib
import os
import tarfile
import time
import zipfile


def files_below(folder):
    """The paths of all files and links below the folder, sorted."""
    found = []
    for at, folders, names in os.walk(folder):
        links = [it for it in folders if os.path.islink(f"{at}/{it}")]
        found += [os.path.relpath(f"{at}/{it}", folder) for it in names + links]
    return sorted(found)


def mode_of(path):
    """That of a program or of another file, whatever the user's umask has left."""
    return 0o755 if os.stat(path).st_mode & 0o100 else 0o644


def sum_of(path):
    with open(path, "rb") as file:
        return hashlib.sha256(file.read()).hexdigest()


def write_sums(folder, path, but=()):
    """The file that `sha256sum -c` takes, of all files below the folder."""
    lines = [f"{sum_of(f'{folder}/{it}')}  {it}\n" for it in files_below(folder) if it not in but and os.path.isfile(f"{folder}/{it}")]
    with open(path, "w", encoding="ascii") as file:
        file.write("".join(lines))


def pack_tar(folder, path, second):
    """All that is below the folder, under its name, as of that second."""
    name = os.path.basename(folder)
    with open(path, "wb") as file, gzip.GzipFile("", "wb", 9, file, second) as packed:
        with tarfile.open(fileobj=packed, mode="w", format=tarfile.GNU_FORMAT) as archive:
            for it in files_below(folder):
                entry = archive.gettarinfo(f"{folder}/{it}", f"{name}/{it}")
                entry.uid = entry.gid = 0
                entry.uname = entry.gname = "root"
                entry.mtime = second
                if entry.issym():
                    entry.mode = 0o777
                    archive.addfile(entry)
                    continue
                # never a hard link, which another tar may have made of two files
                entry.type, entry.size, entry.mode = tarfile.REGTYPE, os.path.getsize(f"{folder}/{it}"), mode_of(f"{folder}/{it}")
                with open(f"{folder}/{it}", "rb") as given:
                    archive.addfile(entry, given)


def pack_zip(folder, path, second, below):
    """The files below the folder, with that in front of their names; what a link leads to in its place."""
    date = time.gmtime(second)[:6]
    with zipfile.ZipFile(path, "w", zipfile.ZIP_DEFLATED, compresslevel=9) as archive:
        for it in files_below(folder):
            entry = zipfile.ZipInfo(f"{below}/{it}", date)
            entry.compress_type = zipfile.ZIP_DEFLATED
            entry.create_system, entry.external_attr = 3, (0o100000 | mode_of(f"{folder}/{it}")) << 16
            with open(f"{folder}/{it}", "rb") as given:
                archive.writestr(entry, given.read())
