"""Files that come to PLAN in pieces with pauses between them, and what PLAN says to arguments.

A piece is written into the pipe, and the next one waits until the reader has taken all of it. So PLAN's reads end where
the pieces do. The answer due is the independent program's for the same bytes at once.

usage: pieces.py PLAN INDEPENDENT COUNTS     COUNTS gets the numbers of right and wrong cases"""
import array
import fcntl
import functools
import os
import random
import subprocess
import tempfile
import termios
import time
from collections import namedtuple

from batches import ending_soon, joined, lines, output, words_of
from files import SMALL_02, some_batch, some_rested, some_windowed
from tally import Tally

TIME = 10  # seconds that a case may take
QUICK = 2  # that PLAN may take with arguments
HARDLY = 0.1  # that a case may take after too many without an end
MOST_ENDLESS = 8
PAUSE = 0.001
CUT = 65536  # bytes that PLAN takes
PAGE = 4096  # a small capacity of a pipe
SET_CAPACITY = getattr(fcntl, "F_SETPIPE_SZ", 1031)  # Linux's number, where Python does not name it
SMALL = b"A0010100\nA1010001\n"
SAYS = b"plan: takes no arguments; the batch file comes on standard input, as in: plan < FILE\n"

Case = namedtuple("Case", "kind pieces capacity")
Answer = namedtuple("Answer", "printed said status")  # standard output, standard error, exit status
ENDLESS = Answer(b"", b"no end in time", None)
# The answers that a kind of case is about.
ABOUT = {"bytes after the end": [b"BF08\n"], "a stop in the middle": [b"BF01\n", b"BF07\n"], "nothing": [b"BF07\n"],
         "around 65,536 bytes": [b"BF01\n", b"BF02\n"], "a batch and more up to 65,536": [b"BF08\n"],
         "windows behind the batch": [b"B00102000900000001\nB1000005\nB1010008\n"], "no further line": [b"BF01\n", b"BF02\n"],
         "rests behind the batch": [b"B00102000A0000000F\nB1000005\nB1010009\n"],
         "further lines up to 65,536": [b"BF01\n", b"BF14\n", b"BF15\n"]}


# ---- PLAN and its pipe

class Run:
    """One run of PLAN with a time limit."""
    endless = 0  # runs that had no end

    def __init__(self, command, stdin, seconds=TIME):
        self.until = time.monotonic() + (seconds if Run.endless < MOST_ENDLESS else HARDLY)
        self.process = subprocess.Popen(command, stdin=stdin, stdout=subprocess.PIPE, stderr=subprocess.PIPE)

    def waits(self):
        """Waits a moment for PLAN to read; False where it has ended, or its time has."""
        time.sleep(PAUSE / 10)
        return self.process.poll() is None and time.monotonic() < self.until

    def answer(self):
        """What it answered once it ended. It is killed where it does not end in time."""
        try:
            printed, said = self.process.communicate(timeout=max(0.01, self.until - time.monotonic()))
            return Answer(printed, said, self.process.returncode)
        except subprocess.TimeoutExpired:
            Run.endless += 1
            self.process.kill()
            self.process.wait()
            self.process.stdout.close()
            self.process.stderr.close()
            return ENDLESS


def unread(pipe):
    """The number of bytes in a pipe that its reader has not taken; Linux tells it of both ends."""
    count = array.array("i", [0])
    fcntl.ioctl(pipe, termios.FIONREAD, count)
    return count[0]


def deliver(pipe, piece, run):
    """Writes a piece and waits until all of it is taken; False where the reader takes no more."""
    while piece:
        try:
            piece = piece[os.write(pipe, piece):]
        except BlockingIOError:  # the pipe is full
            if not run.waits():
                return False
        except BrokenPipeError:
            return False
    while unread(pipe):
        if not run.waits():
            return False
    time.sleep(PAUSE)
    return True


def in_pieces(plan, case):
    """PLAN's answer to an input that comes in pieces."""
    reading, writing = os.pipe()
    os.set_blocking(writing, False)
    if case.capacity:
        fcntl.fcntl(writing, SET_CAPACITY, case.capacity)
    run = Run([plan], reading)
    os.close(reading)
    for piece in case.pieces:
        if not deliver(writing, piece, run):
            break
    os.close(writing)
    return run.answer()


# ---- the cases

def cut(data, places):
    """The pieces of a file that is cut at these places; those at or past its end do not count."""
    places = [0] + sorted(place for place in places if place < len(data)) + [len(data)]
    return [data[a:b] for a, b in zip(places, places[1:])]


def places_of(data):
    """Where a file can be cut, by kind."""
    ends = [k for k, byte in enumerate(data) if byte == 0x0A]
    begins = [0] + [end + 1 for end in ends[:-1]]
    inside = [(k, k - begin) for begin, end in zip(begins, ends) for k in range(begin + 1, end)]
    return {"between the digits of a byte": [k for k, digits in inside if digits % 2 == 1],
            "between two bytes": [k for k, digits in inside if digits % 2 == 0],
            "before a 0A": ends,
            "after a 0A": begins[1:],
            "within the header line": range(1, ends[0]),
            "within the last line": range(begins[-1] + 1, ends[-1]),
            "before the last 0A": ends[-1:]}


def small_files(rng, calls):
    """Batch files whose search ends soon: short ones, and some of many lines."""
    texts = ["A0010100 A1010001", "A0010200 A1010001 A103000100020002",
             "A0010202 A1010001 A1010001 A200010000 A201000000", "A0010202 A1010001 A1010002 A200010001 A20100FFFF"]
    made = [joined(text.split()) for text in texts]
    made += [joined(lines(*some_batch(rng, most))) for most in (3, 5, 5, 5, 9, 9, 9, 24, 24, 24, 24, 24)]
    made.append(joined(lines([[0xFFFF] * 16] * 6, [(k % 5, k % 5 + 1, 16) for k in range(128)])))
    return [data for _, data in ending_soon(calls, [("", data) for data in made])]


def further_files(rng, calls, some):
    """Files of edition 02 that open, and whose search ends soon; `some` makes their batches."""
    made = [joined(lines(*some(rng, most))) for most in (3, 3, 5, 5, 9, 9, 24, 24) for _ in range(3)]
    soon = [data for _, data in ending_soon(calls, [("", data) for data in made])]
    return [data for data in soon if not output([calls[0], "plan"], data).startswith(b"BF")][:8]


def one_cut(rng, files):
    """Each file cut at places of every kind."""
    for data in files:
        for kind, places in places_of(data).items():
            for place in rng.sample(list(places), min(3, len(places))):
                yield kind, cut(data, [place])


def more_cuts(rng, files):
    """Each file cut at random places, and short ones everywhere."""
    for data in files:
        for count, kind in ((2, "two cuts"), (2, "two cuts"), (3, "three cuts"), (3, "three cuts")):
            yield kind, cut(data, rng.sample(range(1, len(data)), count))
    for data in files[:6]:
        yield "a byte at a time", cut(data, range(1, len(data)))
        yield "a line at a time", cut(data, places_of(data)["after a 0A"])


def other_ends(rng, files):
    """Bytes after the end that come when the batch is whole, files that stop, and one that never begins."""
    for data in files[:10]:
        for tail in (b"\n", b"0", b"G", b"\x00", b"A200010001\n", data):
            yield "bytes after the end", [data, tail]
        yield "bytes after the end", cut(data, [len(data) // 2]) + [b"\n"]
        for place in rng.sample(range(1, len(data)), 4) + places_of(data)["after a 0A"][:3]:
            yield "a stop in the middle", [data[:place]]
            yield "a stop in the middle", cut(data[:place], [rng.randint(1, place)])
    yield "nothing", []  # the end comes at once


def behind(kind, head, texts):
    """Further lines that come when the batch is whole, all of them at once, and cut everywhere."""
    whole = head + texts
    yield kind, [head, texts]
    yield kind, cut(whole, range(len(head), len(whole)))
    for place in range(len(head) + 1, len(whole)):
        yield kind, cut(whole, [place])


def further(files):
    """Edition 02: windows and rests behind a batch, lines that are none, and lines up to the cut."""
    head, windows = joined(SMALL_02), joined(["A30000050005", "A30100080009"])
    shared, rests = joined(["A0020200", "A1010003", "A1010001"]), joined(["A30000050005", "A3010002FFFF", "A40003", "A40107"])
    yield from behind("windows behind the batch", head, windows)
    yield from behind("rests behind the batch", shared, rests)
    for data in [head, head + windows, shared + rests] + files:
        for tail in (b"\n", b"0", b"G", b"\x00", b"A50001\n", b"A200010001\n", b"A3", b"A3\n", b"A4", b"A400\n"):
            yield "no further line", [data, tail]
    for length in (CUT - 1, CUT, CUT + 1, 3 * CUT):
        for tail in (b"\n", b"A30000050005\n", b"A40F07\n"):
            yield "further lines up to 65,536", cut((head + windows + tail * length)[:length], [len(head + windows), CUT - 1, CUT])


def long_line(head, length, tail=b""):
    """Some lines and one that is too long: `length` bytes up to its 0A."""
    return head + b"0" * (length - len(head) - 1) + b"\n" + tail


def at_the_cut():
    """Input around the cut at 65,536 bytes: small batches whose next line is too long. It has an even number of digits:
    with its 0A among the bytes that are taken it is refused by 2, else by 1. After a whole batch the number is 8."""
    texts = ["A0010100", "A0010200 A1010001", "A0010201 A1010001 A1010002", "A0010301 A1010001 A1010002 A1010004",
             "A0010202 A1010001 A1010002 A200010001", "A0010302 A1010001 A1010002 A1010004 A200010001",
             "A0020200 A1010001 A1010002", "A0020200 A1010001 A1010002 A30000000005", "A0020200 A1010001 A1010002 A40F07"]
    heads = [joined(text.split()) for text in texts]
    cuts = [[CUT - 1], [CUT], [CUT + 1], [CUT - 1, CUT], [CUT, CUT + 1], [CUT - 1, CUT, CUT + 1],
            [20, CUT - 1, CUT + 100], [CUT // 2, CUT, CUT + 200], [9, 100, CUT - 1, CUT + 1]]
    for length in (CUT - 1, CUT, CUT + 1, CUT + 2):
        for head in [head for head in heads if (length - len(head)) % 2 == 1]:
            for k, places in enumerate(cuts):
                yield "around 65,536 bytes", cut(long_line(head, length, b"00\n" * 99 * (k % 2)), places)
    for length in (CUT - 1, CUT, CUT + 1, CUT + 500, 3 * CUT):
        for places in cuts:
            yield "a batch and more up to 65,536", cut(SMALL + b"\n" * (length - len(SMALL)), places)


def large_pieces():
    """Pieces that do not fit into the pipe, as (pieces, capacity)."""
    for head in (b"A0010100\n", b"A0010200\nA1010001\n"):
        for length in (PAGE + 1, PAGE + 2, 9000, 9001, 30000, 30001, CUT - 1, CUT, CUT + 1, CUT + 2, 200000):
            yield [long_line(head, length)], PAGE
            yield cut(long_line(head, length), [PAGE + 1, 2 * PAGE + 3]), PAGE
        for length in (CUT + 1, CUT + 2, 70000, 2 * CUT, 200001):
            yield [long_line(head, length)], None
            yield cut(long_line(head, length), [CUT - 1]), None


def all_cases(rng, files, others):
    for made in (one_cut(rng, files + others), more_cuts(rng, files), more_cuts(rng, others), other_ends(rng, files), at_the_cut(),
                 further(others)):
        for kind, pieces in made:
            yield Case(kind, pieces, None)
    for pieces, capacity in large_pieces():
        yield Case("more than the pipe holds", pieces, capacity)


# ---- the comparisons

@functools.lru_cache(maxsize=None)
def due_of(own, data):
    """The independent program's answer to a file."""
    return Answer(output([own, "plan"], data), b"", 0)


def compare_pieces(tally, plan, own, cases):
    for case in cases:
        data = b"".join(case.pieces)
        due, got = due_of(own, data), in_pieces(plan, case)
        fitting = due.printed in ABOUT.get(case.kind, [due.printed])
        asked = "%.80s in pieces of %.80s bytes" % (data, [len(piece) for piece in case.pieces])
        tally.note(case.kind, due == got and fitting, asked, due, got)


def compare_inputs(tally, plan, own, files):
    """A pipe whose end alone comes, after a while, and standard input that is no pipe."""
    reading, writing = os.pipe()
    run = Run([plan], reading)
    os.close(reading)
    time.sleep(100 * PAUSE)
    os.close(writing)
    due, got = due_of(own, b""), run.answer()
    tally.note("nothing", due == got, "an end after a while", due, got)
    with open(os.devnull, "rb") as file:
        got = Run([plan], file).answer()
    tally.note("nothing", due == got, os.devnull, due, got)
    for data in [b""] + files[:6] + files[-3:] + [long_line(SMALL, CUT + k) for k in (-1, 0, 1, 2)]:
        with tempfile.TemporaryFile() as file:
            file.write(data)
            file.seek(0)
            due, got = due_of(own, data), Run([plan], file).answer()
        tally.note("a file itself", due == got, data[:80], due, got)


def compare_unreadable(tally, plan):
    """Input that cannot be read: nothing is printed, and standard error says so."""
    folder = os.open(".", os.O_RDONLY)
    for what, command in (("a folder", [plan]), ("no input at all", ["sh", "-c", 'exec "$0" <&-', plan])):
        got = Run(command, folder).answer()
        good = got.printed == b"" != got.said and got != ENDLESS
        tally.note("unreadable", good, what, "words on standard error alone", got)
    os.close(folder)


def compare_arguments(tally, plan):
    """With arguments PLAN reads nothing and says so at once, though its input stays open and never ends."""
    for words in (["../examples/wedding.batch"], ["--help"], [""], ["one", "two"]):
        for waiting in (b"", SMALL):
            reading, writing = os.pipe()
            os.write(writing, waiting)
            got = Run([plan] + words, reading, QUICK).answer(), "%d bytes unread" % unread(writing)
            due = Answer(b"", SAYS, 0), "%d bytes unread" % len(waiting)
            os.close(reading)
            os.close(writing)
            tally.note("arguments", due == got, words, due, got)


def main():
    plan, own, counts = words_of("pieces.py PLAN INDEPENDENT COUNTS")
    rng, tally = random.Random(2), Tally()
    files = small_files(rng, [own, "calls"])
    others = further_files(random.Random(9), [own, "calls"], some_windowed) + further_files(random.Random(14), [own, "calls"], some_rested)
    compare_pieces(tally, plan, own, all_cases(rng, files, others))
    compare_inputs(tally, plan, own, files + others)
    compare_unreadable(tally, plan)
    compare_arguments(tally, plan)
    tally.show()
    tally.write(counts)


main()
