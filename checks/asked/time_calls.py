"""Times by the calls of each language: which seconds a text may mean, by Python's calendar, and what is no time to ssh-keygen(1)."""
from datetime import datetime, timedelta, timezone

from .linked import word

# how far the zones are ahead of UTC in which a time is first and last: the easternmost, and the westernmost with an hour of summer
FIRST, LAST = timedelta(hours=14), timedelta(hours=-13)
# strptime(3) takes each month for one of 31 days and each minute for one of 62 seconds
IN_UTC = [
    ("20270101Z", (2027, 1, 1)), ("20270101z", (2027, 1, 1)), ("202701012359UTC", (2027, 1, 1, 23, 59)), ("20270101123059uTc", (2027, 1, 1, 12, 30, 59)),
    ("20240229Z", (2024, 2, 29)), ("20230229Z", (2023, 3, 1)), ("20230230Z", (2023, 3, 2)), ("20230431235961Z", (2023, 5, 2, 0, 0, 1)),
    ("21000301Z", (2100, 3, 1)), ("20000301Z", (2000, 3, 1)), ("19700101000001Z", (1970, 1, 1, 0, 0, 1)), ("99991230Z", (9999, 12, 30)),
]  # fmt: skip
WITHOUT_ZONE = [
    ("20270101", (2027, 1, 1)), ("202701011230", (2027, 1, 1, 12, 30)), ("20270101123059", (2027, 1, 1, 12, 30, 59)),
    ("19700101140001", (1970, 1, 1, 14, 0, 1)), ("20240229", (2024, 2, 29)),
]  # fmt: skip
NONE = [
    "", "Z", "2027", "2027010Z", "202701011Z", "2027010112Z", "2027010112305Z", "202701011230590Z", "20270101 ", " 20270101Z", "20270101ZZ", "20270101GMT",
    "20270101+0000", "20270101Z\0", "20271301Z", "20270001Z", "20270132Z", "20270100Z", "202701012400Z", "202701011260Z", "20270101125962Z", "19700101Z",
    "19691231235959Z", "19700101140000", "always", "forever", "+1d", "0x66f3a180", "２０２７０１０１Z",
]  # fmt: skip


def second(parts, ahead=timedelta(0)):
    """The second since 1970 in a zone that is so far ahead of UTC."""
    return int(datetime(*parts, tzinfo=timezone(ahead)).timestamp())


def check_times(judge):
    rows = [(text, f"0 {second(parts)} {second(parts)}") for text, parts in IN_UTC]
    rows += [(text, f"0 {second(parts, FIRST)} {second(parts, LAST)}") for text, parts in WITHOUT_ZONE]
    rows += [(text, str(judge.number("FORMAT"))) for text in NONE]
    asked = [f"time {word(text.encode())}" for text, _ in rows]
    judge.ask("times", [*asked, f"time {word(bytes([0xff]))}"], [*(wanted for _, wanted in rows), str(judge.number("TEXT"))])
