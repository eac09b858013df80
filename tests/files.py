"""The files that are compared: valid batches, damaged ones, and those at the limits, of both editions."""
import random

from batches import batch, joined, lines, rest_line, rested, window_line, windowed

DAMAGES = ["bit flipped", "byte replaced", "byte put in", "byte taken out", "digit replaced", "lower case",
           "line dropped", "line doubled", "lines swapped", "line cut short", "line extended", "empty line",
           "carriage return", "last 0A missing", "bytes after the end", "header", "ticks", "delay's jobs", "delay's weight"]
DAMAGES_02 = DAMAGES + ["window's job", "window's ends", "windows' order", "kind of a further line", "length of a further line",
                        "form of a further line", "delay among the windows"]
DAMAGES_RESTS = DAMAGES + ["rest's station", "rest's ticks", "rests' order", "kind among the rests", "length of a rest's line",
                           "form of a rest's line", "window behind a rest"]
KINDS = [0x00, 0x7F, 0xA0, 0xA1, 0xA2, 0xA3, 0xA4, 0xA5, 0xA6, 0xA7, 0xB0, 0xB1, 0xFF]  # A3 and A4 are those of a further line
NO_STARTS = [(0, 1, 1), (1, 0, 0)]  # no starts meet these delays
SMALL_02 = ["A0020200", "A1010001", "A1010002"]  # two jobs on stations of their own; further lines may follow


def some_batch(rng, most_jobs):
    return batch(rng, rng.randint(1, most_jobs), rng.choice([2, 4, 6, 16]))


def of_every_size(rng, count):
    """Batches of 1 to 24 jobs, the larger ones with short tables, so that most searches end soon."""
    for n in (1 + k % 24 for k in range(count)):
        yield batch(rng, n, rng.choice([2, 4, 6, 16] if n < 10 else [1, 2, 2, 3]))


def test_batch(last):
    """01's test batch: D is 1,024 with a last job of 13 ticks, above with 14."""
    return [[1] * 16] * 8 + [[1], [2] * 16, [2] * last]


def some_windowed(rng, most_jobs):
    return windowed(rng, some_batch(rng, most_jobs))


def some_rested(rng, most_jobs):
    """With windows or without, and with rests."""
    made = some_batch(rng, most_jobs)
    return rested(rng, windowed(rng, made) if rng.random() < 0.5 else made)


def rest_test_batch(last):
    """Two stations rest 7 ticks; D is 1,024 with a last job of 11 ticks, above with 12."""
    return [[1]] * 12 + [[2] * 10, [2] * last], [], {}, {0: 7, 1: 7}


def damaged_line(rng, kind, line, spot, n):
    """The lines that come in the place of this one."""
    if kind == "digit replaced":
        return [line[:spot] + rng.choice("0123456789ABCDEF") + line[spot + 1:]]
    if kind == "lower case":
        return [line[:spot] + line[spot:].lower()]
    if kind == "line dropped":
        return []
    if kind == "line doubled":
        return [line, line]
    if kind == "line cut short":
        return [line[:spot]]
    if kind == "line extended":
        return [line + rng.choice(["0", "00", "0000", "0001", "G", "0" * 600, "0" * 601 + " "])]
    if kind == "empty line":
        return ["", line]
    if kind == "carriage return":
        return [line + "\r"]
    if kind == "header":
        editions = [0, 2, 255] if line[2:4] == "01" else [0, 1, 3, 255]
        place, numbers = rng.choice([(2, editions), (4, [0, n - 1, n + 1, 24, 25, 255]), (6, [0, 1, 128, 129, 255])])
        return [line[:place] + "%02X" % rng.choice(numbers) + line[place + 2:]]
    p = rng.choice([0, 1, 15, 16, 17, 18, 127, 128, 255])  # ticks
    return ["A1%02X" % p + "0001" * max(0, rng.choice([p, p, p - 1, p + 1]))]


def damaged_window(rng, kind, n):
    """The lines that come in the place of a window's or behind the last one."""
    job, right = rng.randrange(n), window_line(rng.randrange(n), 3, 9)
    if kind == "window's job":
        return [window_line(rng.choice([n, n + 1, 23, 24, 128, 255]), 0, 65535)]
    if kind == "window's ends":
        ends = [(20000, 20000), (20000, 65535), (20001, 20001), (20001, 65535), (32768, 65535), (65535, 65535), (5, 4),
                (1, 0), (20000, 19999), (20001, 20000), (7, 7), (0, 0), (256, 1), (1, 256)]
        return [window_line(job, *rng.choice(ends))]
    if kind == "windows' order":
        return [window_line(rng.randrange(n), rng.randint(0, 2), 65535) for _ in range(rng.choice([2, 2, 3, 25]))]
    if kind == "kind of a further line":
        return ["%02X" % rng.choice(KINDS) + right[2:]] + rng.choice([[], [right]])
    if kind == "length of a further line":
        kinds = ["A3", "A3", "A3%02X" % job, "A3%02X" % n, "A4", "A2"]
        return [(rng.choice(kinds) + "00" * 20)[:2 * rng.choice([1, 2, 3, 4, 5, 7, 8, 12])]]
    if kind == "form of a further line":
        return [rng.choice(["", right.lower(), right[:-1], right + "0", right + "\r", right + "G", " " + right, right[2:], "\x00"])]
    return ["A2%02X%02X0000" % (0, n - 1)]  # a delay


def damaged_rest(rng, kind, n):
    """The lines that come in the place of a rest's or behind the last one."""
    station, right = rng.randrange(16), rest_line(rng.randrange(16), rng.randint(1, 7))
    if kind == "rest's station":
        return [rest_line(rng.choice([15, 16, 17, 31, 128, 255]), rng.choice([0, 1, 7, 8]))]
    if kind == "rest's ticks":
        return [rest_line(station, rng.choice([0, 0, 1, 7, 8, 8, 9, 15, 16, 128, 255]))]
    if kind == "rests' order":
        return [rest_line(rng.randrange(16), rng.randint(1, 2)) for _ in range(rng.choice([2, 2, 3, 17]))]
    if kind == "kind among the rests":
        return ["%02X" % rng.choice(KINDS) + right[2:]] + rng.choice([[], [right]])
    if kind == "length of a rest's line":
        return [(rng.choice(["A4", "A4%02X" % station, "A410", "A40008"]) + "01" * 9)[:2 * rng.choice([1, 2, 2, 4, 4, 6, 9])]]
    if kind == "form of a rest's line":
        return [rng.choice(["", right.lower(), right[:-1], right + "0", right + "\r", right + "G", " " + right, right[2:], "\x00"])]
    return [right, window_line(rng.randrange(n), rng.choice([0, 9]), 9)] + rng.choice([[], [right]])


def damaged(rng, kind, jobs, delays, windows=None, rests=None):
    """The file of a batch with one thing wrong; now and then the damage leaves it right."""
    n = len(jobs)
    if kind == "delay's jobs":
        i, j = rng.choice([(0, 0), (n, 0), (0, n), (255, 0), (n - 1, n - 1), (n - 1, 0), (0, n - 1), (24, 0), (0, 128)])
        return joined(lines(jobs, delays[1:] + [(i, j, rng.choice([0, 1, 1001]))], windows, rests))
    if kind == "delay's weight":
        w = rng.choice([1000, 1001, 1256, -1000, -1001, -1024, 32767, -32768, rng.randint(-1100, 1100)])
        return joined(lines(jobs, delays[1:] + [(0, n - 1, w)], windows, rests))
    texts = lines(jobs, delays, windows, rests)
    if kind not in DAMAGES:  # a further line, at any place among those that are there
        place, made = rng.randint(1 + n + len(delays), len(texts)), damaged_window if kind in DAMAGES_02 else damaged_rest
        return joined(texts[:place] + made(rng, kind, n) + texts[place + rng.randint(0, 1):])
    data = joined(texts)
    place = rng.randrange(len(data))
    if kind == "bit flipped":
        return data[:place] + bytes([data[place] ^ 1 << rng.randrange(8)]) + data[place + 1:]
    if kind == "byte replaced":
        return data[:place] + bytes([rng.randrange(256)]) + data[place + 1:]
    if kind == "byte put in":
        return data[:place] + bytes([rng.choice(b"0A\n\r G\x00")]) + data[place:]
    if kind == "byte taken out":
        return data[:place] + data[place + 1:]
    if kind == "last 0A missing":
        return data[:-1]
    if kind == "bytes after the end":
        return data + rng.choice([b"\n", b"0", b" ", b"A2", b"A200010001\n", data, b"\x00", b"G\n"])
    if kind == "lines swapped":
        a, b = rng.randrange(len(texts)), rng.randrange(len(texts))
        texts[a], texts[b] = texts[b], texts[a]
        return joined(texts)
    k = 0 if kind == "header" else rng.randint(1, n) if kind == "ticks" else rng.randrange(len(texts))
    return joined(texts[:k] + damaged_line(rng, kind, texts[k], rng.randrange(len(texts[k])), n) + texts[k + 1:])


def every_place(data):
    for place in range(len(data)):
        for byte in b"0149AFGaf/:@` \n\r\x00\xff":
            yield "every place replaced", data[:place] + bytes([byte]) + data[place + 1:]
        for byte in b"0A\n\r":
            yield "every place put in", data[:place] + bytes([byte]) + data[place:]
        yield "every place taken out", data[:place] + data[place + 1:]


def limits():
    chain = [(k % 23, k % 23 + 1, 1) for k in range(255)]
    for n in (1, 23, 24, 25, 26, 255):
        yield [[1 << k % 16] for k in range(n)], []
        yield [[1 << k % 16] for k in range(n)], chain[:n - 1]
    for m in (127, 128, 129, 130, 255):
        yield [[0]] * 24, chain[:m]
    for p in (0, 1, 15, 16, 17, 18, 128, 255):
        yield [[0xFFFF] * p], []
    yield [], []
    yield [[0] * 15 + [1 << k % 16] for k in range(24)], chain[:128]
    yield [[0xFFFF] + [0] * 15] * 24, chain[:128]


def clash_limits():
    for last in (1, 12, 13, 14, 15, 16):
        for delays in ([], [(k, k + 1, 16) for k in range(10)], NO_STARTS):
            yield test_batch(last), delays
    for jobs in ([[1] * 16] * 8, [[1] * 16] * 9, [[1] * 16] * 24, [[0] * 15 + [1]] * 24, [[1] * 2] * 19):
        yield jobs, []
        yield jobs, NO_STARTS


def window_limits():
    """Ends on both sides of their limits, for each job of a batch, and in every number."""
    for n in (1, 2, 24):
        jobs = [[1 << k % 16] for k in range(n)]
        for job in {0, n - 1, n, 23, 24, 255}:
            for ends in ((0, 65535), (0, 0), (19999, 65535), (20000, 20000), (20000, 65535), (20001, 65535), (20001, 20001),
                         (65535, 65535), (1, 0), (20000, 19999), (256, 255), (255, 256), (4660, 22136)):
                yield jobs, [], {job: ends}
        for count in range(n + 1):
            yield jobs, [], {job: (job, 65535 - job) for job in range(count)}
    chain = [(k, k + 1, 1000) for k in range(23)]
    for last in (42999, 43000):  # the last start is 20,000 and 23 times 1,000
        yield [[0] * 15 + [1]] * 24, chain, {0: (20000, 65535), 23: (0, last)}
        yield [[0] * 16] * 24, chain, {job: (20000, last) for job in range(24)}
    yield [[0]] * 24, chain, {job: (20000 - 800 * job, 20000 + 1000 * job) for job in range(24)}


def rest_limits():
    """Stations and ticks on both sides of their limits, and every number of rests."""
    jobs = [[1 << k % 16] for k in range(3)]
    for station in list(range(18)) + [31, 127, 128, 255]:
        for ticks in (0, 1, 6, 7, 8, 9, 128, 255):
            yield jobs, [], {}, {station: ticks}
            yield jobs, [], {0: (1, 9)}, {0: 1, station: ticks}
    for count in range(17):
        for ticks in (1, 2, 7):
            yield jobs, [], {}, {station: ticks for station in range(count)}
        yield jobs, [], {2: (0, 5)}, {station: 1 + station % 7 for station in range(16 - count, 16)}


def rest_clash_limits():
    """Clashes that rests bring to 1,024, or past it; with other refusals behind and none."""
    for last in (1, 10, 11, 12, 13, 16):
        jobs, _, windows, rests = rest_test_batch(last)
        for delays in ([], [(k, k + 1, 24) for k in range(13)], NO_STARTS):
            yield jobs, delays, windows, rests
            yield jobs, delays, {13: (0, 0)}, {**rests, 15: 7}
        for ticks in range(1, 7):
            yield jobs, [], windows, {0: 7, 1: ticks}
            yield jobs, [], windows, {0: ticks, 1: 7}
    for ticks in range(1, 8):
        yield [[0] * 15 + [1], [1] + [0] * 15], [], {}, {0: ticks}
        yield [[1] * 4] * 13, [], {}, {0: ticks}
        yield test_batch(13), [], {}, {0: ticks}
        yield test_batch(13), [], {}, {15: ticks}


def further_orders():
    """Every two further lines out of right ones and of those that are refused, so that the first decides."""
    texts = [window_line(0, 0, 65535), window_line(1, 2, 9), window_line(0, 3, 2), window_line(1, 20001, 65535), window_line(2, 0, 1),
             "A300", "A30000000001FF", "A302000500", "A200010000", "A1010001", "A502000001", "A60102", "A70001", "FF",
             "", "A3000000FFF", "a30000000001", "G"]
    texts += [rest_line(0, 1), rest_line(1, 7), rest_line(15, 7), rest_line(0, 0), rest_line(0, 8), rest_line(16, 1), rest_line(255, 255),
              "A4", "A400", "A4000100", "A410000000", "A4000", "a40001", "A4000G"]
    for first in texts:
        yield joined(SMALL_02 + [first])
        yield joined(SMALL_02 + [first])[:-1]
        for second in texts:
            yield joined(SMALL_02 + [first, second])


def editions():
    """Every edition, with a window's line, with a rest's and without; those of no further line that follows."""
    for edition in range(256):
        for tail in (b"", b"A30000000001\n", b"A40001\n", b"\n", b"0"):
            yield b"A0%02X0100\nA1010001\n" % edition + tail


def before_nine_and_ten():
    """Files with more than 1,024 clashes, or with delays that cannot be met, whose further lines are right or not."""
    for jobs, delays in ((test_batch(14), []), (test_batch(14), NO_STARTS), ([[1], [2]], NO_STARTS), (test_batch(13), NO_STARTS)):
        for line in ("A30000000000", "A30000000001", "A30000010000", "A301FFFFFFFF", "A3FF00000001", "A300", "", "A3",
                     "A40001", "A40F07", "A40000", "A40008", "A41001", "A4FFFF", "A4", "A400", "A4000000", "A50001"):
            yield joined(lines(jobs, delays, {}) + ([line] if line else []))
            yield joined(lines(jobs, delays, {}) + [line])
            yield joined(lines(jobs, delays, {0: (0, 0)}) + [line])
            yield joined(lines(jobs, delays, {}, {0: 1}) + [line])


def over_long():
    for length in (65524, 65525, 65526, 65527):
        for digits in ("0", "A1", "A110"):
            for end in ("\n", "G"):
                yield ("A0010100\n" + (digits + "0" * 65536)[:length] + end).encode()[:65536]
    yield b"A0" * 32768
    yield b"\n" * 65536
    yield bytes(65536)
    yield b"A0010100\nA1010001\n" + b"\n" * 65518


def past_the_cut():
    """Input for PLAN alone: more than it takes."""
    for tail in (b"", b"0", b"00", b"\n", b"A1", b"0" * 200000):
        for length in (65525, 65526, 65527, 65528):
            yield b"A0010100\n" + b"0" * length + b"\n" + tail
        yield b"A0010100\nA1010001\n" + b"\n" * 65518 + tail
        yield b"A0" * 32768 + tail


def all_files(rng):
    """Every file as (kind, bytes)."""
    made = [("valid", joined(lines(*some_batch(rng, [12, 24, 5, 5][k % 4])))) for k in range(1300)]
    made += [(kind, damaged(rng, kind, *some_batch(rng, 5))) for kind in DAMAGES for _ in range(110)]
    made += every_place(joined(["A0010201", "A1010001", "A102FF010002", "A20001FFFF"]))
    made += every_place(joined(["A0010100", "A10300010ABC000F"]))
    for _ in range(14):
        data = joined(lines(*some_batch(rng, 4)))
        made += [("every place cut", data[:place]) for place in range(min(len(data), 160) + 1)]
    made += [("carriage returns", joined(lines(*some_batch(rng, 5))).replace(b"\n", b"\r\n")) for _ in range(20)]
    made += [("limits", joined(lines(*one))) for one in limits()]
    made += [("clash limit", joined(lines(*one)) + end) for one in clash_limits() for end in (b"", b"\n")]
    made += [("over-long", data) for data in over_long()]
    return made + files_02(random.Random(5))


def over_long_02():
    head = joined(SMALL_02)
    for length in range(65536 - len(head) - 3, 65536 - len(head) + 2):
        for digits in ("0", "A3", "A4"):
            yield (head + ((digits + "0" * 65536)[:length] + "\n").encode())[:65536]
    yield head + b"\n" * 65508
    yield head + joined([window_line(0, 0, 1)] * 5000)
    yield head + joined([rest_line(0, 1)] * 9000)


def files_02(rng):
    """Those of edition 02."""
    made = [("02: valid", joined(lines(*some_windowed(rng, [12, 24, 5, 5][k % 4])))) for k in range(700)]
    made += [("02: " + kind, damaged(rng, kind, *some_windowed(rng, 5))) for kind in DAMAGES_02 for _ in range(80)]
    small = joined(["A0020201", "A1010001", "A102FF010002", "A20001FFFF", "A30000050007", "A3010004FFFF"])
    made += [("02: " + kind, data) for kind, data in every_place(small)]
    for _ in range(8):
        data = joined(lines(*some_windowed(rng, 4)))
        made += [("02: every place cut", data[:place]) for place in range(len(data) + 1)]
    made += [("02: limits of ends", joined(lines(*one))) for one in window_limits()]
    made += [("02: limits", joined(lines(*one, {}))) for one in limits()]
    for name, files in (("lines in twos", further_orders()), ("editions", editions()), ("over-long", over_long_02()),
                        ("20 and 21 before 9 and 10", before_nine_and_ten())):
        made += [("02: " + name, data) for data in files]
    return made + rested_files(random.Random(10))


def rested_files(rng):
    """Those with rests."""
    made = [("rests: valid", joined(lines(*some_rested(rng, [12, 24, 5, 5][k % 4])))) for k in range(900)]
    made += [("rests: " + kind, damaged(rng, kind, *some_rested(rng, 5))) for kind in DAMAGES_RESTS for _ in range(80)]
    small = joined(["A0020200", "A1010001", "A102FF010002", "A3010000FFFF", "A40001", "A40F07"])
    made += [("rests: " + kind, data) for kind, data in every_place(small)]
    for _ in range(8):
        data = joined(lines(*some_rested(rng, 4)))
        made += [("rests: every place cut", data[:place]) for place in range(len(data) + 1)]
    made += [("rests: limits", joined(lines(*one))) for one in rest_limits()]
    made += [("rests: clash limit", joined(lines(*one)) + end) for one in rest_clash_limits() for end in (b"", b"\n")]
    made += [("rests: in edition 01", b"A001" + joined(lines(*some_rested(rng, 4)))[4:]) for _ in range(60)]
    return made
