"""Questions about lists of addresses, for checks/addresses: pieces written by hand, each alone, in lists and after marks, and lists
that are drawn near the client's address with a fixed seed. A question is its kind, the list, the client's address, and the name of
its host or None."""
import ipaddress
import random

SEED = 4291
CERTIFICATE, LINE = "source-address", "from"
HOST = "host.example.org"
# names that are like numbers, or almost
NAMES = ["9f.be", "face.b00c"]
# of each kind: those that a real sshd is asked too, whose clients are at a loopback address, and all others
AT_LOOPBACK, OTHERS = 200, 800
CLIENTS = [
    "10.1.2.3", "8.1.2.3", "1.0.0.2", "0.0.0.0", "0.0.0.10", "255.255.255.255", "::", "::2", "::1.2.3.4", "2001:db8::1", "fe80::1",
    "febf::1", "fec0::1", "fd00::ab", "1:2:3:4:5:6:7:8", "64:ff9b::a01:203", "ffff:ffff:ffff:ffff:ffff:ffff:ffff:ffff",
]  # fmt: skip
LOOPBACK = ["127.0.0.1", "127.0.0.1", "127.0.0.1", "::1"]
PIECES = """
10.0.0.0/8 10.0.0.1/8 10.1.2.3 10.1.2.3/32 10.1.2.3/31 10.1.2.2/31 10.1.2.3/33 10.1.2.3/128 10.1.2.3/129 10.1.2.3/0 0.0.0.0/0 0.0.0.0
0.0.0.0/1 128.0.0.0/1 10.0.0.0/9 10.128.0.0/9 10.0.0.0/7 8.0.0.0/7 8.0.0.0/8 10.1.2.0/24 ::/0 ::/1 8000::/1 ::/96 ::/128 ::/129 ::1 ::1/128
::1/127 ::/127 ::1/0 2001:db8::/32 2001:db8::1 2001:DB8::1 2001:DB8::/32 2001:db8::/31 2001:db8::/33 2001:db8::/3 2001:db8:0:0:0:0:0:1
2001:0db8:0000:0000:0000:0000:0000:0001 02001:db8::1 2001:db8:::1 2001:db8::1:: :: ::: : :1 1: 1:: ::1: 1:2:3:4:5:6:7:8 1:2:3:4:5:6:7::
::2:3:4:5:6:7:8 1:2:3:4:5:6:7:8:9 1:2:3:4:5:6:7 1::2:3:4:5:6:7:8 1:2:3:4:5:6:1.2.3.4 ::1.2.3.4 ::ffff:1.2.3.4 ::ffff:10.1.2.3
::ffff:10.1.2.3/128 ::ffff:10.0.0.0/104 ::ffff:0:0/96 ::ffff:0a01:0203 1.2.3.4:: ::1.2.3 ::1.2.3.256 ::1.2.3.04 1::1.2.3.4 12345::1 ::g
::/a fe80::1 fe80::/10 fe80::1%lo fe80::1%1 fe80::/10%1 fe80::%1/10 010.0.0.0/8 010.1.2.3 10.01.2.3 10.1.2.03 0x0a.1.2.3 0xa.0.0.0/8
0XA.0.0.0/8 0xa010203 167837955 167772160/8 10/8 10.0/8 10.0.0/8 10.1 10.1.515 1.2 1 0 0/0 0x0/0 00 08 0x 1.2.3.4.5 1.2.3. .1.2.3 1..2.3
256.1.2.3 10.1.2.256 10.1.2. 4294967295 4294967296 +10.1.2.3 -1 10.1.2.3x 10.1.2.3/ 10.1.2.3/32/ /32 / 10.0.0.0/08 10.0.0.0/008
10.0.0.0/0008 10.0.0.0/+8 10.0.0.0/-8 10.0.0.0/8x 10.0.0.0/0x8 10.0.0.0/1e0 10.0.0.0/18446744073709551624 10.0.0.0/4294967304
10.0.0.0/255.0.0.0 10.0.0.0/256 * ? 10.* 10.1.2.? 10.1.?.3 10.1.2.3* *.3 1*3 ** *? 2001:* 2001:DB8:* 2001:db8::* FD00::* fd00::* ::1.2.*
*:* *.* fe80::* host.example.org *.example.org HOST.example.org *.EXAMPLE.org h?st.example.org localhost 3com.com a.b face.b00c cafe.be
9f.be 1.de 0xdead.beef x1 x.1 [::1] [::1]:22 host:22 a!b ! 127.0.0.1 127.0.0.0/8 127.0.0.1/8 127.0.0.0/129 127.0.0.0/33 0177.0.0.1 127.1
0177.0.0.0/8 0x7f.0.0.1 2130706433 127.* 127.0.0.? ::ffff:127.0.0.1 ::/64 ::1/64 ::? 0:0:0:0:0:0:0:1 0::0001 127.0.0.0/0008 127.0.0.1/32
""".split()
PIECES += ["", " ", " 10.1.2.3", "10.1.2.3 ", "10.1.2.3\t", "10. 1.2.3", "10.0.0.0 /8", "10.0.0.0/ 8", "10.0.0.0/8 ", "127.0.0.0/8 "]
PIECES += ["10.1.2.3\n", "é", "*é", "１０.1.2.3", "x" * 63, "x" * 1022, "x" * 1023, "*" * 1022, "*" * 1023, "0" * 40 + "1.2.3.4"]
PIECES += [f"10.1.2.3/{'0' * it}32" for it in (1, 2, 38, 39, 60)]
AROUND = ["{}", "{},", ",{}", "{},{own}", "{own},{}", "!{}", "!{},*", "*,!{}", "!!{},*", "{},!{own}"]
CHARACTERS = "0123456789abcdefABCDEFxX.:://,,!%*? -+g[]"


class Draw:
    """Draws questions about clients at these addresses."""

    def __init__(self, clients):
        self.draw, self.clients = random.Random(SEED), clients

    def of_piece(self, kind, piece):
        """A question about that piece, somewhere in a list."""
        client = self.draw.choice(self.clients)
        return kind, self.draw.choice(AROUND).format(piece, own=client), client, self.host(kind)

    def drawn(self, kind):
        """A question about a list of pieces near the client's address, which may be broken."""
        client = self.draw.choice(self.clients)
        pieces = [self.piece(kind, ipaddress.ip_address(client)) for _ in range(self.draw.choice([1, 1, 2, 2, 3, 4]))]
        if kind == LINE:
            pieces = [("!" if self.draw.random() < 0.3 else "") + it for it in pieces] + ["*"] * (self.draw.random() < 0.4)
        listed = ",".join(pieces)
        return kind, self.broken(listed) if self.draw.random() < 0.15 else listed, client, self.host(kind)

    def host(self, kind):
        return self.draw.choice([None, None, HOST, HOST, *NAMES]) if kind == LINE else None

    def piece(self, kind, address):
        near = type(address)(int(address) ^ (self.draw.random() < 0.6 and 1 << self.draw.randrange(address.max_prefixlen)))
        form = self.draw.random()
        if form < 0.25:
            return self.spelled(near)
        if form < 0.5 and kind == LINE:
            text = list(self.draw.choice([str(address), HOST]))
            text[self.draw.randrange(len(text))] = self.draw.choice(["?", "*", "x"])
            return "".join(text)
        bits = self.draw.choice([0, 1, 8, 9, 24, 31, 32, 33, 64, 127, 128, self.draw.randrange(address.max_prefixlen)])
        rest = max(address.max_prefixlen - bits, 0)
        kept = int(near) >> rest << rest if self.draw.random() < 0.85 else int(near)
        digits = self.draw.choice(["%d"] * 20 + ["%02d", "%03d", "%04d", "+%d", " %d", "%d "]) % bits
        return f"{self.spelled(type(address)(kept))}/{digits}"

    def spelled(self, address):
        """The address as RFC 5952 has it, mostly, or in a form that getaddrinfo(3) reads too."""
        forms = [str(address)] * 12
        if address.version == 4:
            parts = list(address.packed)
            forms += [".".join(f"0{it:o}" for it in parts), ".".join(map(hex, parts)), str(int(address)), f"{parts[0]}.{int(address) % 2**24}"]
        else:
            forms += [address.exploded, str(address).upper(), f"{address}%lo"]
        return self.draw.choice(forms)

    def broken(self, text):
        """The text with a character too many, another or none in one place."""
        place = self.draw.randrange(len(text) + 1)
        return text[:place] + self.draw.choice(["", self.draw.choice(CHARACTERS)]) + text[place + self.draw.randrange(2) :]


def is_for_sshd(question):
    """Whether its list can stand in a line between quotes, and its client has no name."""
    return question[3] is None and question[1].isprintable() and question[1].isascii() and '"' not in question[1]


def questions():
    """All questions, those for a real sshd first."""
    found = {}
    for clients, most, is_asked in ((LOOPBACK, AT_LOOPBACK, is_for_sshd), (CLIENTS, OTHERS, lambda _: True)):
        for kind in (CERTIFICATE, LINE):
            draw, rows = Draw(clients), {}
            pieces = draw.draw.sample(PIECES, len(PIECES))
            while len(rows) < most:
                row = draw.of_piece(kind, pieces.pop()) if pieces and len(rows) % 2 else draw.drawn(kind)
                if is_asked(row) and row not in found:
                    rows[row] = None
            found |= rows
    return list(found)
