"""The plan texts that are judged, each with a file: PLAN's own with one thing changed, plans of other starts, PLAN's
own with another file, and cases by name.

A case is (kind, file, text, due). due is the number that the documents or the check of plans.py give, 0 where the text
passes, and None where the independent program alone says it. PLAN's texts come as (file, text)."""
from batches import joined, lines, stay
from files import DAMAGES, DAMAGES_02, DAMAGES_RESTS, damaged, rest_test_batch
from plans import faults, latency_of, plan_text, read_file, starts_of

MOST = 65535  # of a start and of a latency
SMALL = 46  # bytes of a plan text of three jobs
WHOLE = 16  # small texts of which every change is made
DIGITS = b"0123456789ABCDEF"
TOTALS = [0, 1, 3, 0x80000000, 0xFFFFFFFF]


# ---- one thing changed

def digits_changed(text):
    for place in range(len(text)):
        for digit in DIGITS if text[place] in DIGITS else b"":
            yield "digit changed", text[:place] + bytes([digit]) + text[place + 1:]


def bytes_changed(text):
    for place in range(len(text)):
        for byte in b"\n\r gaf\x00":
            yield "byte replaced", text[:place] + bytes([byte]) + text[place + 1:]
        yield "byte taken out", text[:place] + text[place + 1:]
        yield "cut", text[:place]
    for place in range(len(text) + 1):
        for byte in b"0B\n\r":
            yield "byte put in", text[:place] + bytes([byte]) + text[place:]


def lines_changed(text):
    texts = text.decode().splitlines()
    for k, line in enumerate(texts):
        yield "line taken out", joined(texts[:k] + texts[k + 1:])
        yield "line doubled", joined(texts[:k] + [line] + texts[k:])
        for other in range(k):
            yield "lines swapped", joined(texts[:other] + [line] + texts[other + 1:k] + [texts[other]] + texts[k + 1:])
    for k in range(len(texts) + 1):
        yield "line put in", joined(texts[:k] + ["B1%02X0000" % (len(texts) - 1)] + texts[k:])  # of job n


def changed(rng, printed):
    """PLAN's texts with one thing changed: every change of some small texts, a sample of the others'."""
    whole = [text for _, text in printed if len(text) <= SMALL][:WHOLE]
    for data, text in printed:
        for made, most in ((digits_changed, 110), (bytes_changed, 50), (lines_changed, 25)):
            every = [one for one in made(text) if one[1] != text]
            for kind, other in every if text in whole else rng.sample(every, min(most, len(every))):
                yield kind, data, other, None


# ---- other starts

def rest_starts(rng, jobs, rests, starts):
    """The starts of a plan with one job as far from another, at a station that both hold, as its rest is, and a tick further;
    before it and behind it."""
    held = [(job, a, station) for job, masks in enumerate(jobs) for a, mask in enumerate(masks) for station in rests if mask >> station & 1]
    pairs = [(one, other) for one in held for other in held if one[0] != other[0] and one[2] == other[2]]
    for (one, a, station), (other, b, _) in rng.sample(pairs, min(6, len(pairs))):
        for apart in (rests[station], rests[station] + 1):
            for tick in (starts[one] + a - apart, starts[one] + a + apart):
                yield starts[:other] + [max(0, tick - b)] + starts[other + 1:]


def some_starts(rng, jobs, windows, rests, starts):
    """Starts near those of a valid plan, and the same plan later, up to the last starts that a text can have; a job with a
    window at its ends and past them; two jobs as far apart as a station's rest, and a tick further."""
    room, latency = MOST - max(starts), latency_of(jobs, starts)
    yield starts
    for _ in range(3):
        yield [max(0, start + rng.choice([0, 0, 0, 1, -1, 2])) for start in starts]
        yield [rng.randint(0, latency + 2) for _ in starts]
    for later in (1, rng.randint(1, 1000), 32768 - min(starts), MOST - latency, MOST - latency + 1, room):
        yield [start + min(later, room) for start in starts]
    job = rng.randrange(len(starts))
    near = [starts[job] + 1, max(0, starts[job] - 1), starts[job] + 20]
    for start in near + [rng.randint(0, MOST), MOST - stay(jobs[job]), min(MOST, MOST - stay(jobs[job]) + 1)]:
        yield starts[:job] + [start] + starts[job + 1:]
    for job, (earliest, latest) in (windows or {}).items():
        for start in {earliest, max(0, earliest - 1), latest, min(MOST, latest + 1)}:
            yield starts[:job] + [start] + starts[job + 1:]
        yield [min(MOST, start + latest - starts[job]) for start in starts]  # the whole plan, as late as this job may be
        yield [min(MOST, start + latest - starts[job] + 1) for start in starts]
    yield from rest_starts(rng, jobs, rests, starts)


def starts_kind(found, longer):
    """What a plan with these faults is an example of."""
    reasons = {fault.split()[0] for fault in found}
    if not reasons:
        return "starts: valid and longer" if longer else "starts: valid and shortest"
    return "starts: wrong by " + (reasons.pop() if len(reasons) == 1 else "several")


def other_starts(rng, printed):
    """Plans of other starts, as the check by delays, ticks and stations judges them."""
    for data, text in printed:
        jobs, delays, windows, rests = read_file(data)
        shortest = latency_of(jobs, starts_of(text))
        for starts in some_starts(rng, jobs, windows, rests, starts_of(text)):
            right = latency_of(jobs, starts)
            off = [max(0, right + rng.choice([1, -1, 256, -256]))] if rng.random() < 0.4 else []
            for latency in [right] + off:
                found = faults(jobs, delays, windows, rests, starts, latency & MOST)  # as two bytes have it
                kind = "starts: latency past 65,535" if right > MOST else starts_kind(found, right > shortest)
                yield kind, data, plan_text(starts, latency, rng.choice(TOTALS)), 19 if found else 0


def other_totals(rng, printed):
    for data, text in printed:
        for total in (0, 0xFFFFFFFF, rng.randrange(2 ** 32)):
            yield "another total", data, text[:10] + b"%08X" % total + text[18:], 0


def other_files(rng, printed):
    """PLAN's texts with a damaged file, and with the files of other batches, one of them with as many jobs."""
    for data, text in printed:
        jobs, delays, windows, rests = read_file(data)
        for kind in rng.sample(DAMAGES if windows is None else DAMAGES_RESTS if rests else DAMAGES_02, 12):
            yield "file damaged", damaged(rng, kind, jobs, delays, windows, rests), text, None
        alike = [other for other, _ in printed if other[4:6] == data[4:6] and other != data]
        for other in [rng.choice(printed)[0]] + rng.sample(alike, min(2, len(alike))):
            yield "file of another batch", other, text, None


# ---- cases by name

def lined(words):
    """Every word a line, closed by 0A."""
    return joined(words.split())


C2, C2_PLAN = lined("A0010100 A1010001"), lined("B00101000100000001 B1000000")
C3, C3_PLAN = lined("A0010200 A1010001 A103000100020002"), lined("B00102000300000003 B1000001 B1010000")
C5 = lined("A0010202 A1010001 A1010001 A200010000 A201000000")
C7 = lined("A0010202 A1010001 A1010002 A200010001 A20100FFFF")
C8, C8_PLAN = lined("A0010100 A10200010000"), lined("B00101000100000001 B1000000")
NO_PLAN = lined("B200000003")
NO_JOB = lined("B00102000300000003")
SIXTEEN = lined("A0010100 A110" + "0001" * 16)  # one job of 16 ticks
PADDED = lined("A0010100 A1100001" + "0000" * 15)  # one job of 16 ticks that holds a station in the first alone
ONE_EMPTY = lined("A0010100 A1010000")  # one job that holds nothing
EMPTY_BEHIND = lined("A0010201 A1010001 A103000000000000 A200010005")  # job 1 holds nothing, 5 ticks behind job 0
APART = lined("A0010201 A1010001 A1010002 A200010000")  # job 1 not before job 0
CROSSED = lined("A0010200 A10200010002 A10200020001")  # two jobs that clash at distances 1 and -1
NOTHING = lined("A0010200 A1010000 A1010000")  # two jobs that hold nothing
LATER = lined("A0010200 A10200000001 A10200000001")  # two jobs that hold station 0 in their second tick
LAST = lined("A0010200 A1018000 A1018000")  # two jobs that hold station 15
FREE = lined("A0010200 A1010001 A1010002")  # two jobs that share nothing
MANY = joined(lines([[1 << k % 16] for k in range(24)], []))  # 24 jobs, the last eight on the first eight's stations
MANY_STARTS = [k // 16 for k in range(24)]
MANY_PLAN = plan_text(MANY_STARTS, 2, 24)
C3_WINDOWS = lined("A0020200 A1010001 A103000100020002 A300000103E8 A3010000FFFF")  # job 0 from tick 1 on, at the latest at 1,000
TO_THE_LAST = lined("A0020100 A1010000 A3004E20FFFF")  # one job that holds nothing, from 20,000 on
AT_ONCE = lined("A0020201 A1010001 A1010002 A20001FFFB A300000A000A A301000AFFFF")  # job 0 at 10, job 1 from then on
NO_LINES = lined("A0020100 A1010001")  # edition 02, no further line
RESTING = lined("A0020200 A1010001 A1010001 A40003")  # two jobs of one tick on station 0, which rests 3 ticks
RESTS = lined("A0020200 A10200030002 A1020001000C A40002 A40101 A40207")  # they share station 0, which rests 2 ticks, alone
GAPPED = lined("A0020200 A1040001000000000001 A1010002 A40007 A40107")  # job 0 holds station 0 in ticks 0 and 3
# Two jobs of 16 ticks: the one holds station 0 in its last tick, the other in its first. Both ways, and without a rest.
FARTHEST = lined("A0020200 A110" + "0000" * 15 + "0001 A1100001" + "0000" * 15 + " A40007")
FARTHEST_BACK = lined("A0020200 A1100001" + "0000" * 15 + " A110" + "0000" * 15 + "0001 A40007")
NOT_RESTING = lined("A0020200 A110" + "0000" * 15 + "0001 A1100001" + "0000" * 15)
REFUSED = [lined("A0010"), lined("A0010100 A10100"), lined("A0030100 A1010001"), lined("A0010000"),
           lined("A0010201 A1010001 A1010002 A200000001"), lined("A0010201 A1010001 A1010002 A2000103E9"), b"",
           C2 + b"\n", joined(lines([[1] * 16] * 9, [])), lined("A0010202 A1010001 A1010002 A200010001 A201000000")]


def passing():
    yield "C2's plan", C2, C2_PLAN
    yield "C3's plan as 01 prints it", C3, C3_PLAN
    yield "C7's plan", C7, lined("B00102000200000001 B1000000 B1010001")
    yield "C8's plan: a last tick that holds nothing does not count", C8, C8_PLAN
    yield "24 jobs", MANY, MANY_PLAN
    yield "C3's first plan, which is longer", C3, lined("B00102000400000002 B1000000 B1010001")
    yield "C3's plan a tick later", C3, lined("B00102000400000003 B1000002 B1010001")
    yield "C3's plan, total FFFFFFFF", C3, lined("B001020003FFFFFFFF B1000001 B1010000")
    yield "C3's plan, total 0", C3, lined("B00102000300000000 B1000001 B1010000")
    yield "start 000A", C2, lined("B00101000B00000001 B100000A")
    yield "the last start that one tick can have", C2, lined("B00101FFFF00000001 B100FFFE")
    yield "the last start that 16 ticks can have", SIXTEEN, lined("B00101FFFF00000001 B100FFEF")
    yield "the last start that a tick and 15 empty ones can have", PADDED, lined("B00101FFFF00000001 B100FFFE")
    yield "C8 from FFFE, latency FFFF", C8, lined("B00101FFFF00000001 B100FFFE")
    yield "an empty job from FFFF, latency FFFF", ONE_EMPTY, lined("B00101FFFF00000001 B100FFFF")
    yield "an empty job from 0, latency 0", ONE_EMPTY, lined("B00101000000000001 B1000000")
    yield "32,767 ticks after the other", APART, lined("B00102800000000001 B1000000 B1017FFF")
    yield "32,768 ticks after the other", APART, lined("B00102800100000001 B1000000 B1018000")
    yield "60,000 ticks after the other", APART, lined("B00102EA6100000001 B1000000 B101EA60")
    yield "crossed jobs at once", CROSSED, lined("B00102000200000001 B1000000 B1010000")
    yield "jobs that hold nothing at once", NOTHING, lined("B00102000000000001 B1000000 B1010000")
    yield "jobs that hold nothing, the first one later", NOTHING, lined("B00102000900000001 B1000009 B1010000")
    yield "a job that holds nothing is the last to start", EMPTY_BEHIND, lined("B00102000500000001 B1000000 B1010005")
    yield "a job that holds nothing, at FFFF", EMPTY_BEHIND, lined("B00102FFFF00000001 B1000000 B101FFFF")
    yield "empty ticks, then a station, up to FFFF", LATER, lined("B00102FFFF00000001 B1000000 B101FFFD")
    yield "later ticks one after the other", LATER, lined("B00102000300000001 B1000000 B1010001")
    yield "station 15, one after the other", LAST, lined("B00102000200000001 B1000000 B1010001")
    yield "the first job ends last", FREE, lined("B00102000600000001 B1000005 B1010000")
    yield "edition 02 without further lines: the plan text has 01 all the same", NO_LINES, C2_PLAN
    yield "a start at its earliest", C3_WINDOWS, C3_PLAN
    yield "a start at its latest", C3_WINDOWS, lined("B0010203E900000000 B10003E8 B1010000")
    yield "a latest of FFFF", TO_THE_LAST, lined("B00101FFFF00000000 B100FFFF")
    yield "an earliest of 20,000", TO_THE_LAST, lined("B001014E2000000001 B1004E20")
    yield "a start that can be in one tick alone", AT_ONCE, lined("B00102000B00000000 B100000A B101000A")
    yield "a job without a latest, at FFFE", AT_ONCE, lined("B00102FFFF00000000 B100000A B101FFFE")
    yield "rest 3, 4 ticks behind", RESTING, lined("B00102000500000000 B1000000 B1010004")
    yield "rest 3, 4 ticks before", RESTING, lined("B00102000500000000 B1000004 B1010000")
    yield "rest 3, far apart", RESTING, lined("B00102FFFF00000000 B1000000 B101FFFE")
    yield "rests of the stations that one job alone holds", RESTS, lined("B00102000500000000 B1000000 B1010003")
    yield "the same, the other way round", RESTS, lined("B00102000500000000 B1000003 B1010000")
    yield "one job's own ticks, closer than the rest", GAPPED, lined("B00102000400000000 B1000000 B1010000")
    yield "distance 23, rest 7", FARTHEST, lined("B00102001800000000 B1000000 B1010017")
    yield "distance 7, rest 7", FARTHEST, lined("B00102001000000000 B1000000 B1010007")
    yield "distance -23, rest 7", FARTHEST_BACK, lined("B00102001800000000 B1000017 B1010000")
    yield "distance -7, rest 7", FARTHEST_BACK, lined("B00102001000000000 B1000007 B1010000")
    yield "distance 16, no rest", NOT_RESTING, lined("B00102001100000000 B1000000 B1010010")
    yield "distance 14, no rest", NOT_RESTING, lined("B00102001000000000 B1000000 B101000E")


def out_of_form():
    """17: not one B0 line with 01 and then only B1 lines of their lengths."""
    head, first, second = C3_PLAN.decode().split()
    yield "an empty text", C3, b""
    yield "0A alone", C3, b"\n"
    yield "a B2 text", C3, NO_PLAN
    yield "C5's own B2 text", C5, NO_PLAN
    yield "a BF text", C3, lined("BF0A")
    yield "a B2 line behind", C3, C3_PLAN + NO_PLAN
    yield "the last line without 0A", C3, C3_PLAN[:-1]
    yield "a B0 line alone, without 0A", C3, head.encode()
    yield "CR LF", C3, C3_PLAN.replace(b"\n", b"\r\n")
    yield "CR", C3, C3_PLAN.replace(b"\n", b"\r")
    yield "lower case", C3, C3_PLAN.lower()
    yield "one digit in lower case", C2, lined("B00101000b00000001 B100000A")
    yield "a blank", C3, C3_PLAN.replace(b"\n", b" \n", 1)
    yield "an odd count of digits", C3, lined(head + "0 " + first + " " + second)
    yield "a B0 line of 8 bytes", C3, lined("B001020003000000 B1000001 B1010000")
    yield "a B0 line of 10 bytes", C3, lined("B0010200030000000300 B1000001 B1010000")
    yield "a B0 line of 2 bytes", C3, lined("B001 B1000001 B1010000")
    yield "a B0 line of 1 byte", C3, lined("B0 B1000001 B1010000")
    yield "edition 02", C3, lined("B00202000300000003 B1000001 B1010000")
    yield "edition 00", C3, lined("B00002000300000003 B1000001 B1010000")
    yield "the B0 line twice", C3, lined(" ".join([head, head, first, second]))
    yield "the B0 line once more behind", C3, lined(" ".join([head, first, second, head]))
    yield "no B0 line", C3, lined(first + " " + second)
    yield "the B0 line in the second place", C3, lined(" ".join([first, head, second]))
    yield "a B1 line of 3 bytes", C3, lined("B00102000300000003 B10001 B1010000")
    yield "a B1 line of 5 bytes", C3, lined("B00102000300000003 B100000100 B1010000")
    yield "a last B1 line of 5 bytes", C3, lined("B00102000300000003 B1000001 B101000000")
    yield "a last B1 line of 1 byte", C3, lined("B00102000300000003 B1000001 B1")
    yield "a 0A too many at the end", C3, C3_PLAN + b"\n"
    yield "a 0A too many at the beginning", C3, b"\n" + C3_PLAN
    yield "a 0A too many between", C3, C3_PLAN.replace(b"\n", b"\n\n", 1)
    yield "a digit behind", C3, C3_PLAN + b"0"
    yield "a byte 0 behind", C3, C3_PLAN + b"\x00"
    yield "the file itself", C3, C3
    yield "the file before the text", C3, C3 + C3_PLAN
    yield "A0 in the place of B0", C3, C3_PLAN.replace(b"B0", b"A0")
    yield "B2 in the place of B0", C3, C3_PLAN.replace(b"B0", b"B2")
    yield "A1 in the place of B1", C3, C3_PLAN.replace(b"B1", b"A1")


def other_jobs():
    """18: in form, but n is not the batch's, or the job lines are not 0 to n - 1 in order."""
    yield "no job line", C3, NO_JOB
    yield "no job line and n 0", C3, lined("B00100000300000003")
    yield "the first job line twice", C3, lined("B00102000300000003 B1000001 B1000001 B1010000")
    yield "the last job line twice", C3, C3_PLAN + b"B1010000\n"
    yield "one job twice, the other never", C3, lined("B00102000300000003 B1000001 B1000001")
    yield "the first job line missing", C3, lined("B00102000300000003 B1010000")
    yield "the last job line missing", C3, lined("B00102000300000003 B1000001")
    yield "job lines swapped", C3, lined("B00102000300000003 B1010000 B1000001")
    yield "a job line too many", C3, C3_PLAN + b"B1020000\n"
    yield "jobs numbered from 1", C3, lined("B00102000300000003 B1010001 B1020000")
    yield "job 128 in the place of job 0", C2, lined("B00101000100000001 B1800000")
    yield "job 255 in the place of job 0", C2, lined("B00101000100000001 B1FF0000")
    yield "n below the batch's", C3, lined("B00101000300000003 B1000001 B1010000")
    yield "n above the batch's", C3, lined("B00103000300000003 B1000001 B1010000")
    yield "the text of a batch with fewer jobs", C3, C2_PLAN
    yield "the text of a batch with more jobs", C2, C3_PLAN
    yield "24 jobs, the last one missing", MANY, MANY_PLAN[:-9]
    yield "24 jobs and a line for job 24", MANY, MANY_PLAN + b"B1180000\n"
    yield "job lines 0 to 255 and 0 again", C2, C2_PLAN + joined("B1%02X0000" % (k % 256) for k in range(1, 257))


def not_valid():
    """19: the plan is not valid, or its latency is another."""
    yield "a start one too early for a delay", C7, lined("B00102000100000001 B1000000 B1010000")
    yield "a start one too late for the delay back", C7, lined("B00102000300000001 B1000000 B1010002")
    yield "two jobs on one station", C3, lined("B00102000300000003 B1000000 B1010000")
    yield "two jobs on one station, as the delays ask", C5, lined("B00102000100000003 B1000000 B1010000")
    yield "later ticks on one station", LATER, lined("B00102000200000001 B1000000 B1010000")
    yield "two jobs on station 15", LAST, lined("B00102000100000001 B1000000 B1010000")
    yield "crossed jobs, distance 1", CROSSED, lined("B00102000300000001 B1000000 B1010001")
    yield "crossed jobs, distance -1", CROSSED, lined("B00102000300000001 B1000001 B1010000")
    yield "24 jobs, the last one too early", MANY, plan_text(MANY_STARTS[:-1] + [0], 2, 24)
    yield "latency one too small", C3, lined("B00102000200000003 B1000001 B1010000")
    yield "latency one too large", C3, lined("B00102000400000003 B1000001 B1010000")
    yield "latency 0", C3, lined("B00102000000000003 B1000001 B1010000")
    yield "latency of the last job alone", FREE, lined("B00102000100000001 B1000005 B1010000")
    yield "latency of the first job alone", FREE, lined("B00102000100000001 B1000000 B1010005")
    yield "C8 with its last tick", C8, lined("B00101000200000001 B1000000")
    yield "C8, latency 0", C8, lined("B00101000000000001 B1000000")
    yield "C8 from FFFF, latency 0000", C8, lined("B00101000000000001 B100FFFF")
    yield "C8 from FFFF, latency FFFF", C8, lined("B00101FFFF00000001 B100FFFF")
    yield "C8 from FFFF, latency 0001", C8, lined("B00101000100000001 B100FFFF")
    yield "C8 from FFFE, latency 0000", C8, lined("B00101000000000001 B100FFFE")
    yield "a tick and 15 empty ones from FFFF, latency 000F", PADDED, lined("B00101000F00000001 B100FFFF")
    yield "an empty job from FFFF, latency 0000", ONE_EMPTY, lined("B00101000000000001 B100FFFF")
    yield "an empty job from FFFF, latency FFFE", ONE_EMPTY, lined("B00101FFFE00000001 B100FFFF")
    yield "an empty job from 0, latency 1", ONE_EMPTY, lined("B00101000100000001 B1000000")
    yield "jobs that hold nothing, latency 1", NOTHING, lined("B00102000100000001 B1000000 B1010000")
    yield "the latency without the job that holds nothing", EMPTY_BEHIND, lined("B00102000100000001 B1000000 B1010005")
    yield "the latency with a tick of that job", EMPTY_BEHIND, lined("B00102000600000001 B1000000 B1010005")
    yield "the latency with all ticks of that job", EMPTY_BEHIND, lined("B00102000800000001 B1000000 B1010005")
    yield "a delay to a job that holds nothing", EMPTY_BEHIND, lined("B00102000400000001 B1000000 B1010004")
    yield "empty ticks, then a station, past FFFF", LATER, lined("B00102000000000001 B1000000 B101FFFE")
    yield "start FFFF, latency 0000", C2, lined("B00101000000000001 B100FFFF")
    yield "start FFFF, latency FFFF", C2, lined("B00101FFFF00000001 B100FFFF")
    yield "16 ticks from FFFF, latency 000F", SIXTEEN, lined("B00101000F00000001 B100FFFF")
    yield "16 ticks from FFFF, latency FFFF", SIXTEEN, lined("B00101FFFF00000001 B100FFFF")
    yield "16 ticks from FFF0, latency 0000", SIXTEEN, lined("B00101000000000001 B100FFF0")
    yield "32,769 ticks before the other", APART, lined("B00102800200000001 B1008001 B1010000")
    yield "60,000 ticks before the other", APART, lined("B00102EA6100000001 B100EA60 B1010000")
    yield "a start before its earliest", C3_WINDOWS, lined("B00102000400000000 B1000000 B1010001")
    yield "a start past its latest", C3_WINDOWS, lined("B0010203EA00000000 B10003E9 B1010000")
    yield "a start of FFFF past its latest", C3_WINDOWS, lined("B00102000000000000 B100FFFF B1010000")
    yield "one tick before 20,000", TO_THE_LAST, lined("B001014E1F00000001 B1004E1F")
    yield "the job of one tick alone a tick later", AT_ONCE, lined("B00102000C00000000 B100000B B101000B")
    yield "the job of one tick alone a tick earlier", AT_ONCE, lined("B00102000B00000000 B1000009 B101000A")
    yield "the other job before its earliest, as the delay allows", AT_ONCE, lined("B00102000B00000000 B100000A B1010009")
    yield "within the ends, wrong latency", AT_ONCE, lined("B00102000C00000000 B100000A B101000A")
    yield "within the ends, a station twice", C3_WINDOWS, lined("B00102000400000000 B1000001 B1010001")
    yield "rest 3, 3 ticks behind", RESTING, lined("B00102000400000000 B1000000 B1010003")
    yield "rest 3, 3 ticks before", RESTING, lined("B00102000400000000 B1000003 B1010000")
    yield "rest 3, in one tick", RESTING, lined("B00102000100000000 B1000000 B1010000")
    yield "rest 3, 4 ticks apart, wrong latency", RESTING, lined("B00102000600000000 B1000000 B1010004")
    yield "rest 3, the last two starts, nothing wraps", RESTING, lined("B00102FFFF00000000 B100FFFE B101FFFB")
    yield "rest 2 at the station that both hold", RESTS, lined("B00102000400000000 B1000000 B1010002")
    yield "the same, the other way round", RESTS, lined("B00102000400000000 B1000002 B1010000")
    yield "distance 22, rest 7", FARTHEST, lined("B00102001700000000 B1000000 B1010016")
    yield "distance 8, rest 7", FARTHEST, lined("B00102001000000000 B1000000 B1010008")
    yield "distance -22, rest 7", FARTHEST_BACK, lined("B00102001700000000 B1000016 B1010000")
    yield "distance -8, rest 7", FARTHEST_BACK, lined("B00102001000000000 B1000008 B1010000")
    yield "distance 15, no rest", NOT_RESTING, lined("B00102001000000000 B1000000 B101000F")


def several():
    """More than one condition holds: the first that is asked is given."""
    spare = plan_text(MANY_STARTS + [0] * 4, 2, 24).replace(b"B0011C", b"B00118")  # n is 24, the lines are 29
    for name, line in (("an odd count", b"B11C000\n"), ("another kind", b"B21C0000\n"), ("lower case", b"b11C0000\n"),
                       ("5 bytes", b"B11C000000\n"), ("no 0A", b"B11C0000"), ("no digits", b"\n")):
        yield "24 jobs and a 30th line, " + name, MANY, spare + line, 17
    yield "24 jobs and a 30th line, in form", MANY, spare + b"B11C0000\n", 18
    yield "17 before 18, n and edition", C3, lined("B00201000300000003 B1000001 B1010000"), 17
    yield "17 before 18, jobs missing and no 0A", C3, NO_JOB[:-1], 17
    yield "17 before 19, a station twice and no 0A", C3, lined("B00102000300000003 B1000000 B1010000")[:-1], 17
    yield "17 before 18 and 19", C3, lined("B00103000000000003 B1010000 B1010000 b1"), 17
    yield "18 before 19, n and latency", C3, lined("B00103000400000003 B1000001 B1010000"), 18
    yield "18 before 19, lines swapped and a station twice", C3, lined("B00102000300000003 B1010000 B1000000"), 18
    yield "18 before 19, a line too many and latency", C3, lined("B00102000900000003 B1000001 B1010000 B1020000"), 18
    yield "18 before 19, a line missing and a delay", C7, lined("B00102000100000001 B1000000"), 18
    yield "18 before 19, a line missing and a start past its latest", C3_WINDOWS, lined("B0010203EA00000000 B10003E9"), 18
    yield "17 before 19, no 0A and a start past its latest", C3_WINDOWS, lined("B0010203EA00000000 B10003E9 B1010000")[:-1], 17
    yield "17, the edition of the batch in the plan text", NO_LINES, C2_PLAN.replace(b"B001", b"B002", 1), 17
    for number, data in enumerate(REFUSED, 1):
        for name, text in (("C2's plan", C2_PLAN), ("C3's plan", C3_PLAN), ("an empty text", b""),
                           ("a B2 text", NO_PLAN), ("no job line", NO_JOB), ("the same bytes", data)):
            yield "a file refused by %d and %s" % (number, name), data, text, number
    for name, line, number in (("job 1 of one", "A30100000001", 20), ("earliest above latest", "A30000020001", 20), ("a short line", "A300", 2),
                               ("a later kind", "A50001", 2), ("an empty line", "", 1), ("a line in edition 01", "A30000000001", 8),
                               ("station 16", "A41001", 21), ("rest 0", "A40000", 21), ("rest 8", "A40008", 21),
                               ("a short line of a rest", "A400", 2), ("a rest in edition 01", "A40001", 8)):
        for text in (C2_PLAN, b"", NO_PLAN):
            head = C2 if number == 8 else NO_LINES
            yield "a file with %s, and %d bytes" % (name, len(text)), head + line.encode() + b"\n", text, number
    yield "17 before 19, no 0A and a rest", RESTING, lined("B00102000400000000 B1000000 B1010003")[:-1], 17
    yield "18 before 19, a line too many and a rest", RESTING, lined("B00102000400000000 B1000000 B1010003 B1020000"), 18
    yield "more than 1,024 clashes by rests, and a plan", joined(lines(*rest_test_batch(12))), C3_PLAN, 9
    yield "ends that cannot be met, and a plan", lined("A0020201 A1010001 A1010002 A200010005 A30100000004"), C3_PLAN, 10
    yield "file and text exchanged", C3_PLAN, C3, 2


def long_texts():
    """About as long as a line for CALLS can be."""
    long = C2_PLAN + joined("B1%02X0000" % (k % 256) for k in range(1, 7277))
    yield "7,277 job lines", C2, long, 18
    yield "7,277 job lines, the last one without 0A", C2, long[:-1], 17
    yield "7,277 job lines, lower case in the last one", C2, long[:-2] + b"a\n", 17
    yield "65,520 times 0A", C2, b"\n" * 65520, 17
    yield "a B0 line of 32,759 bytes", C2, b"B0" + b"01" * 32758 + b"\n", 17


def by_name():
    """Cases whose number the documents' text gives; the kind has the name."""
    named = list(several()) + list(long_texts())
    for made, due in ((passing, 0), (out_of_form, 17), (other_jobs, 18), (not_valid, 19)):
        named += [one + (due,) for one in made()]
    for name, data, text, due in named:
        yield "by name: " + name, data, text, due
