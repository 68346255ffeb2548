"""What the program has to print of a certificate, from what ssh-keygen -L shows of it."""
import re
from datetime import datetime, timezone


def seconds_of(text):
    """The seconds since 1970 of a time that ssh-keygen prints under UTC."""
    return int(datetime.fromisoformat(text).replace(tzinfo=timezone.utc).timestamp())


def lines_of_window(words):
    """The lines of the words that ssh-keygen shows of a window: forever, or from, after and before times."""
    given = dict(zip(words[::2], words[1::2]))
    after, before = given.get("from", given.get("after")), given.get("to", given.get("before"))
    return [
        f"valid after {seconds_of(after) if after else 0}",
        f"valid before {seconds_of(before) if before else 'forever'}",
    ]


def line_of_item(part, text):
    """The line of what ssh-keygen shows below the headings of principals, critical options and extensions."""
    if part == "principal":
        return f"principal {text}"
    unknown = re.fullmatch(r"(\S+) UNKNOWN OPTION: (\w+) \(len \d+\)", text)
    if unknown:
        # the string in the option's string, after the four bytes of its length
        return f"{part} {unknown[1]}={bytes.fromhex(unknown[2][8:]).decode()}"
    name, _, value = text.partition(" ")
    return f"{part} {name}={value}"


def lines_of_certificate(shown, authority):
    """The lines that the program has to write for a certificate, from what ssh-keygen -L shows of it."""
    lines, part, key_id, has_principals = [], "", "", False
    for line in shown.decode().splitlines():
        if line.startswith(" " * 16):
            has_principals |= part == "principal"
            lines.append(line_of_item(part, line[16:]))
            continue
        if part == "principal" and not has_principals:
            lines.append("principals any")
        heading, _, text = line.strip().partition(": ")
        headings = {"Principals": "principal", "Critical Options": "critical option", "Extensions": "extension"}
        part = headings.get(heading.rstrip(":"), "")
        if heading == "Type":
            name, kind = text.split()[:2]
            name = name.replace("-cert-v01", "") if name.startswith("sk-") else name.removesuffix("-cert-v01@openssh.com")
            lines += [f"algorithm {name}", f"type {kind}"]
        elif heading == "Key ID":
            key_id = text[1:-1]
        elif heading == "Serial":
            lines += [f"serial {text}", f"key id {key_id}"]
        elif heading == "Valid":
            lines += lines_of_window(text.split())
    return "\n".join([*lines, f"ca {authority}", ""]).encode()
