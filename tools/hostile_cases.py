"""The cases of tools/hostile, each by its number: good inputs, ways to break them, and what each command may answer then."""
import contextlib
import functools
import gzip
import hashlib
import json
import os
import pickle
import random
import re
import sqlite3
import struct
import subprocess

TOP = os.path.dirname(os.path.dirname(os.path.abspath(__file__)))
LONGEST = 1 << 26
TABLE = "CREATE TABLE journal(place INTEGER PRIMARY KEY, body BLOB NOT NULL)"
MOMENT, DEVICE = "2024-11-06T08:00:00Z", "00000000-0000-4000-8000-000000000001"
SEED = hashlib.sha256(b"31415926535897932384").hexdigest()

# The words of each command behind the journal's, over files of one letter: an election, bitmaps, readings, a script, grayscale
# scans, a report, a file of hands, and a file of ranked contests.
WORDS = {
    "cards": ["E"],
    "print": ["E", "0", "precinct"],
    "read": ["E", "A"],
    "check": ["E", "A", "R"],
    "try": ["E", "A"],
    "count": ["E", "b1", "2", "A"],
    "queue": ["E"],
    "desk": ["E", "b1", "A"],
    "decide": ["E", "S"],
    "export": ["E", MOMENT, DEVICE],
    "results": ["E"],
    "summary": ["E"],
    "sample": ["E", SEED, "20", "H"],
    "board": ["E", SEED, "20"],
    "risk": ["E", SEED, "20", "H", "50"],
    "center": ["E", MOMENT, DEVICE, "script:S", "scan:b2:A"],
    "ranked": ["E", "K"],
    "gray": ["G"],
    "totals": ["P"],
    "audit": ["P", SEED, "20", "H"],
    "demo": ["7", "1"],
}
# What each may answer that gets good inputs which don't belong to each other, beside 0.
OTHERWISE = {"check": {7}, "try": {19}, "decide": {8}, "sample": {15}, "risk": {15}, "audit": {15}, "ranked": {16}}
FILES = "EARSGPHK"
OF_JOURNAL = ("queue", "export", "decide", "count", "desk", "results", "summary", "sample", "board", "risk", "ranked", "center")
OF_ELECTION = [name for name, words in WORDS.items() if "E" in words]


def unpacked(name):
    """The bytes of an example, unpacked where it is packed."""
    path = os.path.join(TOP, "examples", name)
    with gzip.open(path) if name.endswith(".gz") else open(path, "rb") as file:
        return file.read()


def found(folder, begin):
    """The names of an example's files that begin so."""
    return [f"{folder}/{name}" for name in sorted(os.listdir(os.path.join(TOP, "examples", folder))) if name.startswith(begin)]


def put(room, name, text):
    with open(f"{room}/{name}", "wb", buffering=0) as file:
        file.write(text)


def header_of(election):
    """The first record of the journal of an election."""
    return b"1 election " + hashlib.sha256(election).hexdigest().encode()


def journal_of(path, records):
    """A new journal in a file, with these records, which is still open."""
    journal = sqlite3.connect(path)
    journal.execute("PRAGMA journal_mode=WAL")
    journal.execute("PRAGMA synchronous=OFF")
    journal.execute("PRAGMA wal_autocheckpoint=0")
    journal.execute(TABLE)
    journal.executemany("INSERT INTO journal VALUES (?, ?)", enumerate(records))
    journal.commit()
    return journal


@functools.lru_cache(64)
def journal_file(room, records):
    """The bytes of a journal's file, without a log, which is made in a folder; those that come again are kept."""
    path = os.path.join(room, "J")
    journal_of(path, records).close()
    with open(path, "rb") as file:
        return file.read()


def put_journal(room, records):
    """A journal in a file, without a log."""
    put(room, "J", journal_file(room, tuple(records)))


def log_sum(sums, text):
    """The two sums of a log that SQLite has made on this machine, after some more bytes: over words of 32 bits, each with the other."""
    one, other = sums
    for even, odd in struct.iter_unpack("=II", text):
        one = one + even + other & 0xFFFFFFFF
        other = other + odd + one & 0xFFFFFFFF
    return one, other


def without_salt(log):
    """A good log whose two salts are zero: SQLite draws them, and the cases of a number have to be the same ones."""
    made = log[:16] + bytes(8)
    sums = log_sum((0, 0), made)
    made += struct.pack(">II", *sums)
    frame = 24 + struct.unpack(">I", log[8:12])[0]
    for at in range(32, len(log), frame):
        head, page = log[at : at + 8], log[at + 24 : at + frame]
        sums = log_sum(sums, head + page)
        made += head + bytes(8) + struct.pack(">II", *sums) + page
    return made


def records_in(room):
    """The records that a journal's file holds; None where SQLite can't read it."""
    try:
        journal = sqlite3.connect(os.path.join(room, "J"))
        try:
            return [bytes(body) for body, in journal.execute("SELECT body FROM journal ORDER BY place")]
        finally:
            journal.close()
    except (sqlite3.Error, TypeError, ValueError):
        return None


class Good:
    """What the cases are made from: good inputs, which stand in a folder of their own, and the records of a good journal."""

    def __init__(self, vx, room, source):
        self.vx, self.room, self.broken = vx, room, SOURCES[source]
        names = ["town.json", "town-legal.json", "county.json", "long.json", "village.json", "ranked.json"]
        self.elections = [unpacked(name) for name in names + found("outside", "election")]
        self.town, self.ranked = self.elections[0], self.elections[5]
        put(room, "E", self.town)
        self.prints = self.run("-", "print", "E", "0", "precinct")
        self.readings = unpacked("scans/town.txt")
        self.script = b"claim 1 b1 1\nselect 1 b1 1 mayor 0\n\naccept 1 b1 1 mayor\novervote 1 b1 1 mayor\nrelease 1 b1 1\n"
        self.records = [
            header_of(self.town),
            b"1 add b1 1 0 1 precinct 0:cc",
            b"1 add b1 2 0 1 test-absentee 0:mg",
            b"1 claim 1 b1 1",
            b"1 select 1 b1 1 0 0",
            b"1 overvote 1 b1 1 0",
            b"1 accept 1 b1 1 0",
            b"1 release 1 b1 1",
            b"1 add b1 3 0 1 provisional 0:mm",
        ]
        put_journal(room, self.records)
        self.reports = [self.run("J", "export", "E", MOMENT, DEVICE)]
        self.forget()
        self.hands = b"hand b1-1 contest-mayor -\nhand b1-2 contest-mayor selection-mayor-0\n"
        self.groups = unpacked("ranked-contests.json")
        for name, text in (("A", self.prints), ("R", self.readings), ("S", self.script), ("H", self.hands), ("P", self.reports[0])):
            put(room, name, text)
        self.grays = [unpacked(name) for number in (1, 2, 3) for name in found(f"days/gray-{number}", "G")]
        put(room, "G", self.grays[0])
        put(room, "K", b'{"ranked":[{"id":"office","contests":["mayor"]}]}')
        self.reports += [unpacked(name) for number in (1, 2, 3) for name in found(f"days/totals-{number}", "R")]
        self.scans = self.all_scans()
        self.file = journal_file(room, tuple(self.records))
        self.log_file, self.log = self.with_log()

    def run(self, *words):
        """What the program writes of words that it takes."""
        return subprocess.run([self.vx, *words], cwd=self.room, check=True, stdout=subprocess.PIPE).stdout

    def forget(self):
        """Takes the journal's file away."""
        for end in ("", "-wal", "-shm"):
            if os.path.exists(os.path.join(self.room, "J" + end)):
                os.remove(os.path.join(self.room, "J" + end))

    def all_scans(self):
        """Scans with their elections, what is read of them, and the records of a journal that has counted them."""
        found = [(self.town, self.prints, self.readings), (self.town, self.prints[: len(self.prints) // 2], self.readings)]
        for number in range(1, 8):
            parts = ("scans/scan-%d.json", "scans/scan-%d.pbm.gz", "scans/scan-%d.txt")
            found.append(tuple(unpacked(part % number) for part in parts))
        put(self.room, "E", self.ranked)
        found.append((self.ranked, self.run("-", "print", "E", "0", "precinct"), self.readings))
        all_ = []
        for election, scan, readings in found:
            put(self.room, "E", election)
            put(self.room, "A", scan)
            self.run("J", "count", "E", "b1", "2", "A")
            all_.append((election, scan, readings, records_in(self.room)))
            self.forget()
        put(self.room, "E", self.town)
        put(self.room, "A", self.prints)
        return all_

    def with_log(self):
        """The bytes of a journal's file whose later records are still in its log, and the log's."""
        path = os.path.join(self.room, "journal")
        journal = journal_of(path, self.records[:2])
        journal.execute("PRAGMA wal_checkpoint(TRUNCATE)")
        journal.executemany("INSERT INTO journal VALUES (?, ?)", list(enumerate(self.records))[2:])
        journal.commit()
        with open(path, "rb") as file, open(path + "-wal", "rb") as log:
            parts = file.read(), without_salt(log.read())
        journal.close()
        return parts


NUMBERS = [b"0", b"-0", b"00", b"1", b"-1", b"65", b"1000000", b"4294967295", b"4294967296", b"18446744073709551616", b"9" * 200]
PIECES = [
    b"\x00", b"\xff", b"\n", b"\r\n", b" ", b"\t", b"#", b"\"", b"{", b"[", b"]", b"}", b",", b":", b"\\u0000", b"\\ud800", b"null",
    b"<", b">", b"&", b"</script>", b"<!--", b"]]>", b"\\u003c", b"\xe2\x80\xa8", b"\x1b[2J", b"\xe2\x80\xae", b"\xc0\xaf", b"\xed\xa0\x80",
]


def change(pick, text):
    """One change of a text: a cut, a byte, a piece, a number, a line or a part of it."""
    at = pick.randrange(len(text) + 1)
    kind = pick.randrange(11)
    if kind == 0:
        return text[:at]
    if kind == 1:
        return text[at:]
    if kind == 2 and text:
        at = pick.randrange(len(text))
        return text[:at] + bytes([pick.randrange(256)]) + text[at + 1 :]
    if kind == 3 and text:
        at = pick.randrange(len(text))
        return text[:at] + bytes([text[at] ^ (1 << pick.randrange(8))]) + text[at + 1 :]
    if kind == 4:
        return text[:at] + pick.choice(PIECES) + text[at:]
    if kind == 5:
        # a number among the first bytes, as those of a bitmap aren't numbers further on
        found = [it.span() for it in re.finditer(rb"\d+", text[:20000])]
        if found:
            first, last = pick.choice(found)
            return text[:first] + pick.choice(NUMBERS) + text[last:]
    if kind in (6, 7):
        lines = text.split(b"\n", 400)
        one, other = pick.randrange(len(lines)), pick.randrange(len(lines))
        if kind == 6:
            lines[one], lines[other] = lines[other], lines[one]
        else:
            lines.insert(one, lines[other])
        return b"\n".join(lines)
    if kind == 8:
        end = min(len(text), at + pick.randrange(1, 64))
        return text[:at] + text[end:]
    if kind == 9:
        end = min(len(text), at + pick.randrange(1, 64))
        return text[:end] + text[at:end] * pick.randrange(1, 5) + text[end:]
    return text[:at] + bytes(pick.randrange(256) for _ in range(pick.randrange(1, 9))) + text[at:]


def changed(pick, text):
    """A text after one to four changes."""
    for _ in range(pick.choice((1, 1, 1, 2, 3, 4))):
        text = change(pick, text)
    return text


def zzuf(pick, text):
    """A text after zzuf has turned over some of its bits, mostly few of them: another program than this one chooses which."""
    share = min(0.2, max(1.5 / (8 * len(text) + 1), 10 ** pick.uniform(-5, -1)))
    words = ["zzuf", "-q", "-s", str(pick.randrange(1 << 31)), "-r", "%.9f" % share]
    return subprocess.run(words, input=text, check=True, stdout=subprocess.PIPE).stdout


TEXTS = ["", " ", "a", "</script><b>", "&amp;", "\u2028", "\u202e", "\u0000", "\x1b[2J", "\u00e9" * 40, "x" * 255, "x" * 256, "x" * 5000, "a b", "-", "a/b"]
VALUES = [None, True, False, 0, 1, -1, 7, 65, 1000, 4294967295, 18446744073709551615, 1.5, 1e300, [], {}, [[]], {"id": "a"}]


def places_in(value):
    """The places of all members and elements of a JSON value: what they stand in, and under which name."""
    found, left = [], [value]
    while left:
        at = left.pop()
        inner = list(at.items()) if isinstance(at, dict) else list(enumerate(at)) if isinstance(at, list) else []
        found += [(at, key) for key, _ in inner]
        left += [one for _, one in inner]
    return found


def alter(pick, places):
    """One change of a value somewhere: left out, another one, one from elsewhere, or repeated. Its form stays JSON."""
    (at, key), (other, name) = pick.choice(places), pick.choice(places)
    kind = pick.randrange(6)
    try:
        if kind == 0:
            del at[key]
        elif kind == 1:
            at[key] = pick.choice(TEXTS)
        elif kind == 2:
            at[key] = pick.choice(VALUES)
        elif kind == 3:
            at[key] = other[name]
        elif kind == 4 and isinstance(at[key], list):
            at[key] = at[key] * pick.choice((0, 2, 2, 3, 30))
        elif isinstance(at[key], str):
            at[key] += pick.choice(TEXTS)
        elif isinstance(at[key], int):
            at[key] += pick.choice((-1, 1))
    except (KeyError, IndexError):
        # (an earlier change has taken the place away)
        pass


@functools.lru_cache
def taken_apart(text):
    """A JSON text's value and its places, packed: so they are made anew for each case without reading the text again."""
    value = json.loads(text)
    return pickle.dumps((value, places_in(value)), pickle.HIGHEST_PROTOCOL)


def altered(pick, text):
    """A JSON text that says something else; another change where it has grown round itself."""
    value, places = pickle.loads(taken_apart(text))
    for _ in range(pick.choice((1, 1, 2, 3))):
        alter(pick, places)
    try:
        return json.dumps(value, ensure_ascii=pick.random() < 0.5).encode("utf-8", "surrogatepass")
    except (ValueError, RecursionError):
        return changed(pick, text)


def bit(pick):
    """One of the eight bits of a byte: what `1 << pick.randrange(8)` gives, in a third of the time."""
    drawn = pick.getrandbits(4)
    while drawn > 7:
        drawn = pick.getrandbits(4)
    return 1 << drawn


def stained(pick, text):
    """A raw bitmap or grayscale image with stains: bytes of its rows that are light, dark, or turned over, in some columns."""
    head = re.match(rb"P[45][^0-9]+(\d+)\s+(\d+)\s", text)
    if not head:
        return changed(pick, text)
    stride = (int(head[1]) + 7) // 8 if text[1:2] == b"4" else int(head[1])
    made = bytearray(text)
    for _ in range(pick.choice((1, 3, 30, 300))):
        wide, high = pick.choice(((1, 1), (1, 20), (4, 20), (30, 3), (2, 400)))
        at, how = pick.randrange(len(made)), pick.randrange(3)
        for first in range(at, min(len(made), at + high * stride), stride):
            last = min(len(made), first + wide)
            if how == 2:
                for place in range(first, last):
                    made[place] ^= bit(pick)
            else:
                made[first:last] = (b"\x00", b"\xff")[how] * (last - first)
    made[: head.end()] = text[: head.end()]
    return bytes(made)


@functools.lru_cache(256)
def numbers_in(text):
    """Where the numbers of a text stand."""
    return [it.span() for it in re.finditer(rb"\d+", text)]


def nudged(pick, text):
    """A text of lines in which some numbers are one more or less, or stand elsewhere."""
    if not numbers_in(text):
        return changed(pick, text)
    for _ in range(pick.choice((1, 1, 2))):
        first, last = pick.choice(numbers_in(text))
        number = int(text[first:last]) + pick.choice((-1, 1, 1, 7))
        text = text[:first] + b"%d" % max(0, number) + text[last:]
    return text


def nested(pick):
    """Brackets in brackets, as deep as they come."""
    depth = pick.choice((100, 127, 128, 129, 200, 1000, 100000))
    opening, closing = pick.choice(((b"[", b"]"), (b'{"title":', b"}"), (b'{"contests":[', b"]}"), (b'{"CVR":[', b"]}")))
    return opening * depth + pick.choice((b"", b"1", b"1" + closing * depth))


def filled(pick):
    """64 MB of one byte, or a byte more than an input may have."""
    return bytes([pick.choice(b" \n\x00[{\"0P1#\xff")]) * pick.choice((LONGEST, LONGEST + 1))


def own(pick, text):
    """A broken text in the place of a good one: half of them are the good one changed, half have its form and say something else."""
    kind = pick.randrange(400)
    if kind == 0:
        return filled(pick)
    if kind < 6:
        return nested(pick)
    if kind < 10:
        return bytes(pick.randrange(256) for _ in range(pick.randrange(200)))
    if kind < 200:
        return changed(pick, text)
    # a text of the same form, which goes further
    if text.lstrip()[:1] == b"{":
        return altered(pick, text)
    return stained(pick, text) if text[:2] in (b"P4", b"P5") else nudged(pick, text)


# Where broken texts come from: this program, or one that isn't ours.
SOURCES = {"own": own, "zzuf": zzuf}


# What may stand in the place of a file; of a journal's nothing that a database could be made of.
ODD = ("nothing", "folder", "pipe", "loop", "link", "zeros", "full")


def put_odd(what, path):
    """Something that is no file that can be read, or nothing at all."""
    if what == "folder":
        os.mkdir(path)
    elif what == "pipe":
        os.mkfifo(path)
    elif what != "nothing":
        os.symlink({"loop": path, "link": "none", "zeros": "/dev/zero", "full": "/dev/full"}[what], path)


class Case:
    """A case: its kind, the command, its words, and the statuses that it may have. `front` are the records that have to stand
    in its journal afterwards, in front; `whole` says that they were all that it had. Under the name `odd` no good file stands.
    `first` are commands that have to be run before, with the files that take what they write; one of them may be refused."""

    def __init__(self, kind, words, may, front=None, whole=True, odd=None, first=()):
        self.kind, self.words, self.may, self.front, self.whole, self.odd, self.first = kind, words, may, front, whole, odd, first
        self.command = words[1]


def words_for(command, journal):
    return [journal, command, *WORDS[command]]


def case_of(kind, command, journal, may, **more):
    """A case of a command's usual words, which may answer 0 too."""
    return Case(kind, words_for(command, journal), {0} | may, **more)


def of_election(pick, room, good):
    """A broken definition, over an empty journal or over its own, whose records are those of the town."""
    text = good.broken(pick, pick.choice(good.elections))
    put(room, "E", text)
    command = pick.choice(OF_ELECTION)
    # (a script may name what the definition hasn't any more)
    may = {3, 4, 5} | OTHERWISE.get(command, set()) | ({8} if command == "center" else set())
    if command not in OF_JOURNAL or pick.randrange(2):
        return case_of("election", command, "-", may)
    records = [header_of(text), *good.records[1:]]
    # (the same file but for the header)
    put(room, "J", good.file.replace(good.records[0], records[0]))
    return case_of("election", command, "J", may | {9}, front=records)


# What is done with a printed card: each has to end well, `check` with what `read` wrote of it.
WITH_PRINTS = ("read", "try", "check", "count", "desk", "center")


def of_printed(pick, room, good):
    """A broken definition whose first card is printed, where it is taken: what was printed is read, tried, counted."""
    put(room, "E", good.broken(pick, pick.choice(good.elections)))
    command = pick.choice(WITH_PRINTS)
    kind = pick.choice(("precinct", "absentee", "test-provisional"))
    first = [(["-", "print", "E", "0", kind], "A", {0, 3, 4, 5})]
    if command == "check":
        first.append((["-", "read", "E", "A"], "R", {0}))
    put(room, "S", b"")
    return case_of("printed", command, "-", set(), first=first)


def of_bitmap(pick, room, good):
    command = pick.choice(("read", "check", "try", "count", "desk", "center"))
    election, scan, readings, records = pick.choice(good.scans)
    if pick.randrange(3) == 0:
        put(room, "A", good.broken(pick, pick.choice(BITMAPS)))
    else:
        put(room, "A", good.broken(pick, scan))
    put(room, "E", election)
    put(room, "R", readings)
    may = {3, 6} | {"check": {7}, "try": {19}, "center": {18}}.get(command, set())
    if command not in OF_JOURNAL:
        return case_of("bitmap", command, "-", may)
    put_journal(room, records)
    put(room, "S", good.script if election == good.town else b"")
    words = [it.replace("b1", pick.choice(("b1", "b2"))) for it in words_for(command, "J")] if command == "count" else words_for(command, "J")
    return Case("bitmap", words, {0} | may, front=records)


BITMAPS = [b"P1\n# a small one\n7 3\n1 0 1 0 1 0 1\n1111111 0000000\n", b"P4\n9 2\n\xff\x80\x00\x00" * 5, b"P4 8 1\n\xa5P1 3 1 101"]


def of_gray(pick, room, good):
    put(room, "G", good.broken(pick, pick.choice(good.grays)))
    return case_of("gray", "gray", "-", {3, 17})


def of_readings(pick, room, good):
    election, scan, readings, _ = pick.choice(good.scans)
    put(room, "E", election)
    put(room, "A", scan)
    put(room, "R", good.broken(pick, readings))
    return case_of("readings", "check", "-", {3, 7})


def of_script(pick, room, good):
    put_journal(room, good.records[:3])
    put(room, "S", good.broken(pick, good.script))
    command = pick.choice(("decide", "decide", "center"))
    return case_of("script", command, "J", {3, 8}, front=good.records[:3])


def over_journal(kind, pick, may, **more):
    """A case of a command that reads the journal."""
    command = pick.choice(OF_JOURNAL)
    return case_of(kind, command, "J", may | OTHERWISE.get(command, set()), **more)


def of_records(pick, room, good):
    records = list(good.records[: pick.randrange(1, len(good.records) + 1)])
    at = pick.randrange(len(records))
    records[at] = good.broken(pick, records[at])[: 1 << 20]
    put_journal(room, records)
    return over_journal("records", pick, {9}, front=records)


def of_file(pick, room, good):
    put(room, "J", good.broken(pick, good.file))
    return over_journal("file", pick, {9, 12})


def of_log(pick, room, good):
    put(room, "J", good.log_file)
    put(room, "J-wal", good.broken(pick, good.log))
    return over_journal("log", pick, {9, 12}, front=good.records[:2], whole=False)


def of_report(pick, room, good):
    put(room, "P", good.broken(pick, pick.choice(good.reports)))
    command = pick.choice(("totals", "audit"))
    return case_of("report", command, "-", {3, 14} | OTHERWISE.get(command, set()))


def of_hands(pick, room, good):
    put(room, "H", good.broken(pick, good.hands))
    command = pick.choice(("audit", "sample", "risk"))
    if command == "audit":
        return case_of("hands", command, "-", {3, 15})
    put_journal(room, good.records)
    return case_of("hands", command, "J", {3, 15}, front=good.records)


def of_groups(pick, room, good):
    election, _, _, records = good.scans[-1]
    put(room, "E", election)
    put(room, "K", good.broken(pick, good.groups))
    put_journal(room, records)
    return case_of("ranked contests", "ranked", "J", {3, 16}, front=records)


ODD_WORDS = [
    "", "-", "--", "-x", "--help", "help", "0", "00", "01", "1", "65", "1024", "10001", "4294967296", "18446744073709551615",
    "18446744073709551616", "9" * 300, "E", "none", "J", "A", "S", "b-1", "b" * 32, "b" * 33, "b 1", "test-absentee", "Precinct",
    "2024-02-29T23:59:60Z", "2023-02-29T08:00:00Z", "9999-12-31T23:59:59Z", "0000-01-01T00:00:00Z", SEED.upper(), SEED[:-1],
    DEVICE.upper(), DEVICE[:-1], "script:", "script:S", "scan:b1:A", "scan::A", "scan:b1:", "scan:A", ":", "x" * 100000, "\u00e9",
    "\udcff", "print", "count", "center",
]


def of_words(pick, room, good):
    """Words of a command that are left out, repeated, changed or moved, over good files."""
    put_journal(room, good.records)
    words = words_for(pick.choice([*WORDS, "demo", "cards", "print"]), pick.choice("J-"))
    named = words[1]
    for _ in range(pick.choice((1, 1, 2, 3))):
        at, kind = pick.randrange(len(words)), pick.randrange(5)
        if kind == 0 and len(words) > 1:
            del words[at]
        elif kind == 1:
            words[at:at] = [words[at]] * pick.choice((1, 1, 2, 70))
        elif kind == 2:
            other = pick.randrange(len(words))
            words[at], words[other] = words[other], words[at]
        else:
            words[at] = pick.choice(ODD_WORDS)
    case = Case("words", [words[0], named], {0, *range(1, 11), 12, *range(14, 20)}, front=good.records)
    case.words = words
    return case


def of_no_file(pick, room, good):
    name = pick.choice(FILES + "J")
    what = pick.choice(ODD[:4] if name == "J" else ODD)
    put_odd(what, os.path.join(room, name))
    if name == "J":
        case = over_journal("no file", pick, {12} if what != "nothing" else set())
        if what != "nothing":
            case.may = {12}
        return case
    command = pick.choice([it for it, words in WORDS.items() if any(word == name or word.endswith(":" + name) for word in words)])
    return Case("no file", words_for(command, "-"), {2 if what in ("nothing", "link") else 10}, odd=name)


# Each kind of cases, and how many of them there are beside the others.
KINDS = {
    of_election: 16, of_printed: 5, of_bitmap: 14, of_gray: 6, of_readings: 10, of_script: 10, of_records: 14, of_file: 8, of_log: 8,
    of_report: 12, of_hands: 8, of_groups: 8, of_words: 10, of_no_file: 2,
}


def laid_out(seed, number, room, good):
    """Makes a case in a folder: the files that it breaks, and good ones under the other names."""
    pick = random.Random("%d %d" % (seed, number))
    case = pick.choices(list(KINDS), KINDS.values())[0](pick, room, good)
    made = [name for _, name, _ in case.first]
    for name in FILES:
        if name != case.odd and name not in made:
            # (the case's own file stays)
            with contextlib.suppress(FileExistsError):
                os.link(f"{good.room}/{name}", f"{room}/{name}")
    return case
