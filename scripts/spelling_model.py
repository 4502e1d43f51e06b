"""How the lines of saa-run's languages are spelled, for `scripts/check_rows`: which line of an input is the first bad one.

Written apart from the program and from the specification's files, from what docs/LANGUAGES.md says. A field in a table is one of the words between its
bars, or a name that docs/LANGUAGES.md gives a number.
"""
import re

PAGERS = ["try_poll|poll_sync|poll_async|registered|drop|leave P"]
OF_A_SEMAPHORE = [*PAGERS, "available|is_open|is_closed|is_shut|shut", "try|release N", "reg P N sync|async"]
OF_A_LOCK = [*PAGERS, "try_lock|try_share|release_lock|release_share|downgrade|poison_lock|clear_poison", "is_free|is_locked|is_shared|is_poisoned",
    "reg P exclusive|shared|wait_exclusive|wait_shared sync|async"]
OF_A_GATE = [*PAGERS, "state|permit|reject|open|seal|reset", "permit_many N", "reg P sync|async"]
OF_A_BARRIER = [*PAGERS, "count|arrive|join|leave_barrier|round", "reg P sync|async"]
OF_PLACES = ["word", "go|end P", "until P ask|prepare|join|release|walk|publish|show|take|flag|unlink|tail|poison|clear", "start P try_poll|poll|cancel"]
OF_PERMITS = [*OF_PLACES, "start P available|shut|is_shut", "start P try|reg|release N"]
OF_MODES = [*OF_PLACES, "start P try_lock|try_share|release_lock|release_share|downgrade|poison_lock|clear_poison",
    "start P is_free|is_locked|is_shared|is_poisoned", "start P reg exclusive|shared|wait_exclusive|wait_shared"]

# The first lines, and the lines that may follow each.
FIRST = {
    "script": {"semaphore N ROOM": OF_A_SEMAPHORE, "bounded 1|1000|65535 N ROOM": OF_A_SEMAPHORE, "lock ROOM": OF_A_LOCK, "gate ROOM": OF_A_GATE,
        "barrier N ROOM": OF_A_BARRIER},
    "machine": {"semaphore N PLACES": OF_PERMITS, "bounded MAX N PLACES": OF_PERMITS, "lock PLACES": OF_MODES},
}
# The least number that each name stands for, and the first above the greatest; `P` is below what the first line says.
NUMBERS = {"N": (0, 1_000_000), "ROOM": (0, 65_536), "MAX": (1, 65_536), "PLACES": (1, 101)}


def number(field):
    """A number of up to six digits, without a sign or a leading zero; -1 where it is none."""
    return int(field) if re.fullmatch("0|[1-9][0-9]{0,5}", field) else -1


def is_spelled(spelling, names, line):
    """Whether a line is spelled so, where so many pagers or places can be named."""
    def is_word(word, field):
        least, end = (0, names) if word == "P" else NUMBERS.get(word, (0, 0))
        return least <= number(field) < end if end or word == "P" else word == field

    wanted, fields = spelling.split(" "), line.split(" ")
    return len(line) <= 80 and len(wanted) == len(fields) and all(
        any(is_word(word, field) for word in words.split("|")) for words, field in zip(wanted, fields))


def first_bad_line(language, text):
    """How many good lines stand in front, and the number of the bad line after them, or None."""
    lines = text.removesuffix("\n").split("\n")
    names = 100 if language == "script" else max(number(lines[0].split(" ")[-1]), 0)
    after = next((after for first, after in FIRST[language].items() if is_spelled(first, names, lines[0])), None)
    if after is None:
        return 0, 1
    for at, line in enumerate(lines[1:], 2):
        if not any(is_spelled(spelling, names, line) for spelling in after):
            return at - 1, at
    return len(lines), None


# Good inputs, which have lines of each kind.
EXAMPLES = {
    "script": [
        "semaphore 63 1\ntry 63\nreg 1 1 sync\nreg 2 1 async\nrelease 1\navailable\npoll_sync 1\npoll_async 2\ntry_poll 99\nis_open\n"
        "is_closed\nregistered 1\ndrop 2\n",
        "bounded 1000 20 65535\ntry 999999\nreg 10 12 sync\nregistered 10\ndrop 10\nrelease 100\navailable\n",
        "lock 4\ntry_lock\ntry_share\nreg 1 shared sync\nreg 2 wait_exclusive async\nreg 3 exclusive sync\ndowngrade\nrelease_share\n"
        "release_lock\npoison_lock\nclear_poison\nis_free\nis_locked\nis_shared\nis_poisoned\nreg 4 wait_shared sync\npoll_sync 1\n",
        "gate 8\nstate\nreg 1 sync\nreg 2 async\nreg 3 sync\nleave 3\npermit_many 1\npermit\nreject\nseal\nopen\nreset\npoll_sync 1\n"
        "poll_async 2\nregistered 2\ndrop 1\n",
        "barrier 2 4\ncount\narrive\njoin\nleave_barrier\nround\nreg 1 sync\nreg 2 async\npoll_sync 1\ntry_poll 2\ndrop 3\ncount\n",
    ],
    "machine": [
        "semaphore 0 3\nstart 1 try 63\nend 1\nstart 0 reg 10\nend 0\nstart 1 release 5\nuntil 1 publish\nword\ngo 2\n"
        "start 2 available\nend 2\nend 1\nstart 0 try_poll\ngo 0\nstart 0 poll\nstart 0 cancel\n",
        "bounded 1000 7 100\nstart 99 try 9\nuntil 99 ask\nend 99\nword\nstart 12 reg 1000\nuntil 12 prepare\nuntil 12 join\ngo 12\n"
        "start 1 release 0\n",
        "lock 10\nstart 0 try_lock\nend 0\nstart 1 reg wait_shared\nend 1\nstart 2 reg exclusive\nend 2\nstart 0 downgrade\n"
        "until 0 walk\nend 0\nstart 0 release_share\nuntil 0 show\nend 0\nstart 9 is_poisoned\nend 9\nstart 2 poison_lock\n"
        "until 2 poison\nstart 3 clear_poison\nuntil 3 clear\nstart 4 cancel\n",
    ],
}
