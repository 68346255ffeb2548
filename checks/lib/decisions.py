"""The public decisions about a login: who is let in, and what the login may do. Whoever adds one adds it here, and asks first whether it
has to stand beside these."""
import re

from lib.harness import ROOT

# by the file: what declares one there, and which there are
LOGINS = {
    "crates/publickey_login/src/lib.rt": (r"^pub use login::\{(.*)\};", {"log_in", "may_offer", "pending"}),
    # which ask about no client's signature, so that none is a login
    "crates/login_policy/src/lib.rt": (r"^pub use login::\{(.*)\};", {"log_in", "pending", "pending_of"}),
    "crates/user_keys/src/lib.rt": (
        r"^pub use (?:certificate|key|principal)::\{(.*)\};",
        {"log_in_by_certificate", "log_in_by_key", "log_in_by_principal", "find_authority_line", "find_key_line", "find_principal_line"},
    ),
    # of what is granted
    "crates/login_terms/src/questions.rt": (r"^    pub fn (\w+)", {"may_open", "may_listen", "runs", "shown_command"}),
    "crates/sshkey_c/src/verdict.rt": (r'^pub extern "C" fn raf_(\w+)', {"log_in", "log_in_questions", "may_offer", "may_offer_questions"}),
    "crates/sshkey_c/src/forwarding.rt": (r'^pub extern "C" fn raf_(\w+)', {"may_listen", "may_open"}),
    "crates/sshkey_c/src/running.rt": (r'^pub extern "C" fn raf_(\w+)', {"runs"}),
    "include/rafendilo.h": (
        r"^uint32_t (\w+)\(const raf_(?:login|grant|offer|signed|trusted|place) \*",
        {"raf_log_in", "raf_log_in_questions", "raf_may_offer", "raf_may_offer_questions", "raf_may_open", "raf_may_listen", "raf_runs"},
    ),
    "helpers/verdict.h": (r"^uint32_t (\w+)\(const raf_(?:login|grant) \*", {"raf_verify_login", "raf_verify_offer"}),
    "bindings/python/rafendilo/_logins.py": (r"^def ([a-z]\w*)\(", {"log_in", "may_offer"}),
    "bindings/go/rafendilo/logins.go": (r"^func ([A-Z]\w*)\(", {"LogIn", "MayOffer"}),
    "bindings/rust/src/logins.rs": (r"^pub fn (\w+)", {"log_in", "may_offer"}),
    # over libraries for SSH
    "bindings/python/rafendilo/asyncssh/__init__.py": (r"^class ([A-Z]\w*)\(", {"Server", "KnownHosts"}),
    "bindings/python/rafendilo/paramiko/__init__.py": (r"^class ([A-Z]\w*)\(", {"Server", "KnownHosts"}),
    "bindings/go/xssh/xssh.go": (r"^func ([A-Z]\w*)\(", {"PublicKeyCallback", "GrantOf", "ReadText", "HostKeyCallback", "KnownHosts"}),
}  # fmt: skip


def check_decisions(count):
    for path, (declares, wanted) in LOGINS.items():
        with open(f"{ROOT}/{path}", encoding="utf-8") as file:
            found = {name for names in re.findall(declares, file.read(), re.M) for name in names.split(", ")}
        # a crate's types stand beside them
        found -= {it for it in found if it[0].isupper() and path.endswith(".rt")}
        count.check(f"{path} has the decisions about a login, and no other", found == wanted, found ^ wanted)
