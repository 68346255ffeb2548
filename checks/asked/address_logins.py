"""Logins at a real sshd by lists of addresses, from 127.0.0.1 and ::1, for checks/addresses."""
import os
import types
from concurrent.futures import ThreadPoolExecutor

from lib.harness import SSHD, string

from .address_questions import CERTIFICATE, LINE, is_for_sshd
from .login_options import certificate
from .option_lists import Logins, has_ipv6

# a shell that another one has started reads no file of the user's, which may take long
CONFIGURATION = """\
SetEnv SHLVL=2
HostKey {0}/host
AuthorizedKeysFile {0}/keys
StrictModes no
PidFile none
UsePAM no
PasswordAuthentication no
KbdInteractiveAuthentication no
PermitRootLogin yes
LogLevel VERBOSE
"""


def answers(folder, rows, most):
    """The first questions of each kind, so many, and whether sshd lets in who asks."""
    if not os.path.exists(SSHD):
        print(f"there is no {SSHD}, so no login is compared with it")
        return []
    chosen, addresses = [], ["127.0.0.1", *(["::1"] if has_ipv6() else [])]
    for kind in (CERTIFICATE, LINE):
        chosen += [it for it in rows if it[0] == kind and it[2] in addresses and is_for_sshd(it)][:most]
    lacking = "" if "::1" in addresses else " alone, since this machine has no ::1"
    print(f"{len(chosen)} logins at sshd, from {' and '.join(addresses)}{lacking}", flush=True)
    logins = Logins(folder, CONFIGURATION)
    with ThreadPoolExecutor(len(os.sched_getaffinity(0))) as pool:
        found = pool.map(lambda number, row: openssh_accepts_key(logins, number, *row[:3]), range(len(chosen)), chosen)
        return list(zip(chosen, found, strict=True))


def openssh_accepts_key(logins, number, kind, items, address):
    """Whether sshd lets in a client at the address, by the list of a line or of a certificate."""
    if kind == LINE:
        return logins.log_in(address, f'from="{items}" {logins.fields["own"]}')[0]
    name = f"bound{number}"
    key = logins.new(name)
    maker = types.SimpleNamespace(path=logins.path, read=lambda file: read(logins.path(file)))
    line = certificate(maker, "authority", key, string(b"a"), {"source-address": string(items.encode())}, {})
    with open(logins.path(f"{name}-cert.pub"), "w", encoding="ascii") as file:
        file.write(line + "\n")
    return logins.log_in(address, f'cert-authority,principals="a" {logins.fields["authority"]}', name)[0]


def read(path):
    with open(path, encoding="ascii") as file:
        return file.read()
