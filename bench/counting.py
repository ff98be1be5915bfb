"""What the measurements share: programs of this folder compiled, instructions and seconds counted."""

import hashlib
import json
import os
import sqlite3
import subprocess
import time

HERE = os.path.dirname(os.path.abspath(__file__))
RUNS = 5
CONTESTS, OPTIONS = 24, 5
TABLE = "CREATE TABLE journal(place INTEGER PRIMARY KEY, body BLOB NOT NULL)"

# callgrind counts a repeated string instruction once for each byte, so the C library is told not to
# use them.
WITHOUT_REPEATS = "glibc.cpu.x86_rep_stosb_threshold=1073741824:glibc.cpu.x86_rep_movsb_threshold=1073741824"


def compiled(source, room, *libraries):
    """The path of a C program of this folder, compiled into a room and linked with these libraries."""
    program = os.path.join(room, source[: -len(".c")])
    compiler = os.environ.get("CC", "cc")
    linked = ["-l" + name for name in libraries]
    subprocess.run([compiler, "-std=c11", "-O2", "-Wall", "-o", program, os.path.join(HERE, source)] + linked, check=True)
    return program


def page_election(room, pages):
    """The path of the election whose first card has so many pages of 60 bubbles."""
    path = os.path.join(room, "pages-%d.json" % pages)
    subprocess.run([os.path.join(HERE, "page_election"), path, str(pages)], check=True)
    return path


def record_of(number, batch="b1"):
    """The record that adds a sheet of 24 contests of five options to the count of such an election. Each contest has one
    marked candidate, never the write-in slot, which is the last option."""
    contests = []
    for contest in range(CONTESTS):
        marked = (number + contest) % (OPTIONS - 1)
        states = "".join("m" if option == marked else "c" for option in range(OPTIONS))
        contests.append("%d:%s" % (contest, states))
    return "1 add %s %d 0 1 precinct %s" % (batch, number, " ".join(contests))


def made_journal(room, name, election, records):
    """The path of a journal of an election that has these records behind its header."""
    path = os.path.join(room, name)
    with open(election, "rb") as file:
        header = "1 election " + hashlib.sha256(file.read()).hexdigest()
    journal = sqlite3.connect(path)
    journal.execute("PRAGMA journal_mode=WAL")
    journal.execute(TABLE)
    journal.execute("INSERT INTO journal VALUES (0, ?)", (header.encode(),))
    rows = ((place, body.encode()) for place, body in enumerate(records, 1))
    journal.executemany("INSERT INTO journal VALUES (?, ?)", rows)
    journal.commit()
    journal.close()
    return path


def sheets_journal(room, election, sheets):
    """The path of a journal of an election that has so many such sheets."""
    return made_journal(room, "journal-%d" % sheets, election, map(record_of, range(1, sheets + 1)))


def written(room, name, value):
    """The path of a JSON file."""
    path = os.path.join(room, name)
    with open(path, "w", encoding="utf-8") as file:
        json.dump(value, file)
    return path


def ten_ranks(room):
    """An election with one ranked contest of ten ranks over ten candidates, and its file of groups."""
    candidates = [{"id": "c%d" % number, "name": "C%d" % number} for number in range(10)]
    ranks = ["mayor-%d" % rank for rank in range(1, 11)]
    about = {"type": "candidate", "districtId": "d", "seats": 1, "candidates": candidates}
    election = {
        "title": "City",
        "date": "2026-11-03",
        "districts": [{"id": "d", "name": "D"}],
        "precincts": [{"id": "p", "name": "P"}],
        "contests": [dict(about, id=rank, title=rank) for rank in ranks],
        "ballotStyles": [{"id": "s", "precincts": ["p"], "districts": ["d"]}],
        "vxReasons": [],
    }
    ranked = {"ranked": [{"id": "mayor", "contests": ranks}]}
    return written(room, "city.json", election), written(room, "city-ranked.json", ranked)


def drawn_ranks(draw, ranks, options):
    """The states of the ranks of one contest: some of the candidates in some order, and sometimes a rank left out."""
    order = draw.sample(range(options), min(options, draw.randint(1, ranks)))
    marks = [order[rank] if rank < len(order) and draw.random() < 0.95 else None for rank in range(ranks)]
    return ["".join("m" if option == mark else "c" for option in range(options)) for mark in marks]


def added(number, states):
    """The record that adds a sheet with these states of its contests."""
    return "1 add b1 %d 0 1 precinct %s" % (number, " ".join("%d:%s" % one for one in enumerate(states)))


def output(command):
    """What a command writes."""
    return subprocess.run(command, check=True, stdout=subprocess.PIPE).stdout


def instructions(command, room, within=None, status=0):
    """How many instructions a command takes that ends so, its output thrown away; or those within the calls of one function alone."""
    counts = os.path.join(room, "counts")
    toggle = [] if within is None else ["--toggle-collect=" + within]
    ran = subprocess.run(
        ["valgrind", "--tool=callgrind", "--callgrind-out-file=" + counts] + toggle + command,
        stdout=subprocess.DEVNULL,
        stderr=subprocess.DEVNULL,
        env=dict(os.environ, GLIBC_TUNABLES=WITHOUT_REPEATS),
    )
    if ran.returncode != status:
        raise SystemExit("%s ends with %d" % (" ".join(command), ran.returncode))
    with open(counts) as lines:
        for line in lines:
            if line.startswith("totals:"):
                return int(line.split()[1])
    raise SystemExit("callgrind counts nothing: is %s the built program itself?" % command[0])


def peak_megabytes(command):
    """The peak memory of a command, its output thrown away."""
    said = subprocess.run(
        ["/usr/bin/time", "-f", "%M"] + command,
        check=True,
        stdout=subprocess.DEVNULL,
        stderr=subprocess.PIPE,
    )
    return int(said.stderr.split()[-1]) / 1024


def seconds(command):
    """The least time of some runs by the wall clock, output thrown away."""
    least = float("inf")
    for _ in range(RUNS):
        start = time.monotonic()
        subprocess.run(command, check=True, stdout=subprocess.DEVNULL)
        least = min(least, time.monotonic() - start)
    return least


def spent(command):
    """The seconds that a command takes by the clock and of the processor, its output thrown away."""
    start = time.monotonic()
    process = subprocess.Popen(command, stdout=subprocess.DEVNULL)
    _, status, usage = os.wait4(process.pid, 0)
    took = time.monotonic() - start
    process.returncode = os.waitstatus_to_exitcode(status)
    if process.returncode != 0:
        raise SystemExit("%s ends with %d" % (" ".join(command), process.returncode))
    return took, usage.ru_utime + usage.ru_stime


def least_spent(commands, rounds):
    """The same of commands that are run in turns, so many times each: the least of each."""
    least = [(float("inf"), float("inf"))] * len(commands)
    for _ in range(rounds):
        for place, command in enumerate(commands):
            least[place] = tuple(map(min, least[place], spent(command)))
    return least


def pages_a_second(runs):
    """How many pages a program does in a second by the wall clock, from two pairs of a number of pages
    and a command: what both do once, the start included, doesn't count."""
    (few, short), (many, long) = runs
    return (many - few) / max(seconds(long) - seconds(short), 1e-9)


def compare(name, runs, room, clocked=None, most=None):
    """Prints what a page takes in two programs, VX first, and gives the ratio of the instructions.

    `runs` has two pairs of a number of pages and a command for each program, the fewer pages first.
    The instructions are those of the pages that the second has more; the time is that of the second
    run, its start included. `clocked` are such pairs for the time alone, which then is that of the
    pages that the second has more. Where VX takes more than `most` instructions a page, that is said
    and ends the measurement.
    """
    (few, short), (many, long) = runs
    counts = []
    for who, first, second in zip((name, "plain C"), short, long):
        counts.append((instructions(second, room) - instructions(first, room)) / (many - few))
        if clocked is None:
            speed = many / seconds(second)
        else:
            speed = pages_a_second([(pages, commands[len(counts) - 1]) for pages, commands in clocked])
        print("%s: %d instructions a page, %.0f pages a second" % (who, counts[-1], speed))
    ratio = counts[0] / counts[1]
    print("%.2f times the instructions" % ratio)
    if most is not None and counts[0] > most:
        raise SystemExit("more than %d instructions a page" % most)
    return ratio
