"""The lists of calls that are compared. Each begins with an opening."""
from batches import clash_count, joined, lines, opening, rests_for, windows_for
from files import rest_test_batch, test_batch
from plans import read_file

# Fields of the call S by their numbers.
EDITION, LINED, EARLIEST, LATEST, REST = 13, 14, 15, 16, 17
NONE = 65536  # best's value for none
EMPTY = 65535
TEXTS = ["P 240", "B 3500", "D"]  # long enough for every plan and batch
# Ticks of jobs, station by station: 995 to 1,023 clashes, so that two more jobs can make them 1,024.
CLASH_GROUPS = [[[16] * 8 + [1]], [[3] * 15 + [2] * 7], [[8] * 10 + [9] * 2], [[16] * 6, [16] * 3 + [12] * 3 + [10]],
                [[16] * 5, [16] * 5, [16] * 5, [16, 14, 10]]]


def turn(place, clash, side):
    return ["S 7 %d 0 %d" % (place, clash), "S 8 %d 0 %d" % (place, side)]


def states(batch):
    """Calls that lead to a fresh, an unfinished and an ended search."""
    first = [opening(batch.data)]
    return [first, first + ["R %d 24" % (batch.total // 2)], first + ["R %d 24" % batch.total]]


def runs(rng, batch):
    first, n, total = opening(batch.data), batch.n, batch.total
    for budgets in ([total], [total - 1, 0, 1], [total - 1, 2], [total + 1], [0, total, 0], [1000000, 1000000, 0]):
        calls = [call for b in budgets for call in ("R %d %d" % (b, rng.choice([n, n + 1, 24, 32])), "D")]
        yield "budgets at N", [first] + calls + TEXTS
    for _ in range(3):
        calls = []
        for _ in range(rng.randint(2, 9)):
            budget = rng.choice([0, 1, 2, rng.randint(0, total), total // 3, total, 1000000, 1000001, 4294967295])
            calls.append("R %d %d" % (budget, rng.choice([n, n, n + 1, 32, n - 1, 0])))
            calls.append(rng.choice(["D", "P 240", "B 3080", "P 3"]))
        yield "refused calls between", [first] + calls + ["D"]


def deep_paths(rng):
    """Searches whose paths outgrow the rows that a run keeps of them, gone on with by few nodes, where a run prepares
    less, and by many. Half of them begin with a job's last ticks emptied, and it gets more such ticks on the way."""
    for name in ("css21", "twelve", "full", "clashes-400", "clashes-1024", "scope-limit"):
        with open("../bench/batches/%s.batch" % name, "rb") as file:
            data = file.read()
        jobs = read_file(data)[0]
        for k in range(8):
            budgets = [rng.choice([1, 2, 7, 8, 9, 33, 100, 1000, rng.randint(1, 3000)]) for _ in range(12)]
            calls = [call for b in budgets for call in ("R %d 24" % b, "D")]
            job = rng.randrange(len(jobs))
            changes = dict(table_changes(rng, job, len(jobs[job])))
            if k % 2:
                calls = changes["emptied"] + calls[:12] + changes["padded"] + calls[12:]
            yield "deep paths", [opening(data)] + calls


def lengths(batch):
    """Starts lists and buffers of every telling length, on sound and unsound records."""
    for state in states(batch):
        for length in range(batch.n + 2):
            yield "starts lists", state + ["R %d %d" % (b, length) for b in (0, 1, 1000001)] + ["D"]
        for unsound in ([], ["S 11 0 0 100000001"]):
            due = 19 + 9 * batch.n if batch.plan else 11
            for length in (0, 1, 10, 11, 12, due - 1, due, due + 1, 4096):
                yield "plan text buffers", state + unsound + ["P %d" % length, "D"]
            due = len(batch.data)
            for length in (0, 1, due - 1, due, due + 1, 4096):
                yield "batch text buffers", state + unsound + ["B %d" % length, "D"]


def edits(n, m, clashes):
    """Changes of a record that break one condition of soundness, or just do not."""
    def one(field, a, value, b=0):
        return "S %d %d %d %d" % (field, a, b, value)

    empty = [call for place in range(12) for call in turn(place, EMPTY, 0)]
    fresh = [one(12, 0, 0)] + empty
    for value in (0, n - 1, n + 1, 24, 25, 255):
        yield [one(0, 0, value)]
        yield empty + [one(0, 0, value), one(1, 0, 0)]  # without delays and turns, which need jobs
    for value in (0, m - 1, m + 1, 128, 129, 255):
        yield [one(1, 0, value)]
    for job in (0, n - 1, n, 23):
        for value in (0, 1, 16, 17, 255, 256, 257, 272, 65535):
            yield [one(2, job, value)]
        for tick in (0, 15):
            for value in (0, 65535):
                yield [one(3, job, value, tick)]
    for delay in (0, m - 1, m, 127):
        for value in (0, n - 1, n, 24, 255):
            yield [one(4, delay, value)]
            yield [one(5, delay, value)]
        yield [one(4, delay, 1), one(5, delay, 1)]
        for value in (1000, 1001, -1000, -1001, 32767, -32768):
            yield [one(6, delay, 32768 + value)]
    for value in (1000, 1001, 32767):  # one delay alone, which can always be met
        yield [one(1, 0, 1), one(6, 0, 32768 + value)]
    for value in (0, 1):  # a ring of sum 0, and of sum 1
        yield [one(4, 0, 0), one(5, 0, 1), one(6, 0, 32768 + value), one(4, 1, 1), one(5, 1, 0), one(6, 1, 32768)]
    for side in (0, 1, 2, 256, 257, 65535):
        for clash in (0, clashes - 1, clashes, 1023, 1024, EMPTY - 1, EMPTY):
            yield fresh + turn(0, clash, side)
        yield fresh + turn(0, 0, 0) + turn(1, 0, side)  # one clash twice
        yield fresh + turn(0, 0, side) + turn(1, 1, 1)
        yield fresh + turn(1, 0, side)  # after an empty place
        yield fresh + turn(0, 0, 0) + turn(2, 1, side)
        yield turn(1023, 0, side)
        yield turn(1023, EMPTY, side)
        yield fresh + turn(0, 0, side) + [one(12, 0, 1)]  # a turn while ended
        yield fresh + [one(12, 0, 1)]
    for best in (0, 1, 23016, 23017, 43015, 43016, 43017, 65535, NONE):
        for ended in (0, 1):
            yield [one(9, 0, best), one(12, 0, ended)]
    for best in (40, 43016, NONE):
        for job in (0, n - 1, n, 23):
            for start in (23000, 23001, 42999, 43000, 43001, 60000, 65535):
                yield [one(9, 0, best), one(10, job, start)]
    for total in (0, 99000000, 99000001, 99999996, 99999997, 99999998, 99999999, 100000000, 100000001, 4294967295):
        yield [one(11, 0, total)]


def window(job, lined, earliest, latest):
    return ["S %d %d 0 %d" % one for one in ((LINED, job, lined), (EARLIEST, job, earliest), (LATEST, job, latest))]


def edition(number):
    return ["S %d 0 0 %d" % (EDITION, number)]


def window_edits(n):
    """Changes of edition and windows that break one condition of soundness, or just do not."""
    none = [call for job in range(24) for call in window(job, 0, 0, 65535)]
    for number in (0, 1, 2, 3, 256, 257, 258, 65535):
        yield edition(number)
        yield none + edition(number)
        yield none + edition(number) + window(n, 1, 7, 3)  # where windows do not count
    for job in {0, n - 1, n, 23}:
        for lined in (0, 1, 256, 65535):
            for ends in ((0, 65535), (0, 65534), (1, 65535), (0, 0), (0, 2), (9, 9), (20000, 65535), (20001, 65535), (20000, 20000),
                         (65535, 65535), (5, 4), (20000, 19999), (0, 32768), (4, 260), (260, 4)):
                yield none + edition(2) + window(job, lined, *ends)
            yield none + edition(1) + window(job, lined, 0, 65535)
            yield none + edition(1) + window(job, lined, 3, 65535)
    for job in range(n):  # every window has a place of its own
        yield none + edition(2) + window(job, 1, 100 + job, 65535 - job)
        yield none + edition(2) + window(job, 1, 20001, 65535)
        yield none + edition(2) + window(job, 0, 0, 65534)
        yield none + edition(1) + window(job, 1, 0, 65535)
    yield none + edition(2) + [call for job in range(n) for call in window(job, 1 + job, 5, 4000)]


def rest(station, ticks):
    return "S %d %d 0 %d" % (REST, station, ticks)


NO_RESTS = [rest(station, 0) for station in range(16)]


def rest_edits():
    """Changes of edition and rests that break one condition of soundness, or just do not."""
    none = NO_RESTS + [call for job in range(24) for call in window(job, 0, 0, 65535)]
    for number in (0, 1, 2, 3, 257):
        for ticks in (0, 1, 7, 8):
            yield none + edition(number) + [rest(9, ticks)]
    for station in range(16):  # every rest has a place of its own
        for ticks in (1, 2, 7, 8, 9, 16, 128, 255):
            yield none + edition(2) + [rest(station, ticks)]
        for ticks in (0, 1, 7, 8):
            yield none + edition(1) + [rest(station, ticks)]
    for all_over in (1, 7, 8, 255):
        yield none + edition(2) + [rest(station, all_over) for station in range(16)]
    yield none + edition(2) + [rest(station, 1 + station % 7) for station in range(16)]
    yield none + edition(2) + window(0, 1, 2, 900) + [rest(0, 3), rest(15, 5)]


def soundness(batch, changes=None):
    after = ["D", "R 3 24", "D", "P 240", "B 3500", "R 1000001 0", "R 1 0", "R 1000000 25", "D", "P 240"]
    for state in states(batch):
        for edit in changes or edits(batch.n, batch.m, batch.clashes):
            yield "soundness" + (" of further lines" if changes else ""), state + edit + after


def foreign(rng, batch):
    """Sound records that no search here reached, with something in every place that does not count."""
    for _ in range(3):
        calls = [opening(batch.data)]
        for place, clash in enumerate(rng.sample(range(batch.clashes), rng.randint(0, min(batch.clashes, 6)))):
            calls += turn(place, clash, rng.randint(0, 1))
        calls.append("S 9 0 0 %d" % rng.choice([NONE, NONE, 0, rng.randint(1, 30), 43016]))
        calls.append("S 10 0 0 %d" % rng.randint(0, 43000))
        calls += ["S 10 23 0 60000", "S 2 23 0 255", "S 3 23 3 77", "S 6 127 0 0", "S 4 127 0 255"]
        calls.append("S 11 0 0 %d" % rng.choice([0, 5, 99999990, 99999999, 100000000]))
        yield "foreign records", calls + ["D", "R 1 24", "R 0 24", "R 2 24", "D", "R 30 25", "D", "R 2000 24", "D", "P 240"]


def table_changes(rng, job, p):
    """Changes of a job's table of p ticks, by what becomes of its last ones."""
    yield "emptied", ["S 3 %d %d 0" % (job, tick) for tick in range(rng.randrange(p), p)]
    yield "padded", ["S 2 %d 0 %d" % (job, rng.randint(min(p + 1, 16), 16))]
    yield "cut off", ["S 2 %d 0 %d" % (job, rng.randint(1, p))]
    yield "held after", ["S 3 %d %d 1" % (job, tick) for tick in range(p, 16)]  # where masks do not count
    yield "held on", ["S 3 %d %d 1" % (job, min(p, 15)), "S 2 %d 0 %d" % (job, min(p + 1, 16))]


def changed_tables(rng, batch):
    """Searches that go on after the tables of two jobs changed, each job's in the same way: so that it finishes earlier,
    later, or when it did."""
    jobs = read_file(batch.data)[0]
    pair = [rng.randrange(batch.n) for _ in range(2)]
    for (name, first), (_, second) in zip(*(list(table_changes(rng, job, len(jobs[job]))) for job in pair)):
        begun = [opening(batch.data), "R %d 24" % rng.choice([0, rng.randrange(batch.total), batch.total - 1])]
        yield "last ticks " + name, begun + first + second + ["D", "R 1 24", "D", "R 9 24", "D", "R 2000 24"] + TEXTS


def window_changes(rng, batch):
    """Changes of a batch's windows, by name. Those that are there are all taken away first."""
    jobs, delays, *_ = read_file(batch.data)
    job, none = rng.randrange(batch.n), [call for job in range(24) for call in window(job, 0, 0, 65535)]
    made = [call for job, ends in windows_for(rng, jobs, delays).items() for call in window(job, rng.choice([1, 2, 256]), *ends)]
    yield "taken away", none + edition(rng.choice([1, 2]))
    yield "others", none + edition(2) + made
    yield "one job later", none + edition(2) + window(job, 1, rng.randint(1, 30), 65535)
    yield "one job not late", none + edition(2) + window(job, 1, 0, rng.randint(0, 12))
    yield "all later", none + edition(2) + [call for job in range(batch.n) for call in window(job, 9, rng.randint(19000, 20000), 65535)]
    yield "where none count", window(batch.n, 3, 20001, 7) + window(23, 1, 9, 9)


def changed_windows(rng, batch):
    """Searches that go on after their windows changed."""
    for name, changes in window_changes(rng, batch):
        begun = [opening(batch.data), "R %d 24" % rng.choice([0, 0, rng.randrange(batch.total), batch.total - 1])]
        yield "windows " + name, begun + changes + ["D", "R 1 24", "D", "R 9 24", "D", "R 2000 24"] + TEXTS


def deep_windows(rng):
    """Searches whose paths are long, with windows that change them: some jobs not before a tick, others not after one."""
    for name in ("css21", "twelve", "full", "clashes-400", "clashes-1024", "scope-limit"):
        with open("../bench/batches/%s.batch" % name, "rb") as file:
            jobs, delays, *_ = read_file(file.read())
        for far in (3, 6, 6, 40):
            chosen = rng.sample(range(len(jobs)), 5)
            windows = {job: (rng.randint(1, far), 65535) for job in chosen[:3]}
            windows.update({job: (0, rng.randint(30, 300)) for job in chosen[3:]})
            budgets = [rng.choice([1, 2, 9, 33, 100, 1000, rng.randint(1, 3000)]) for _ in range(12)]
            calls = [call for b in budgets for call in ("R %d 24" % b, "D")]
            yield "deep paths, windows", [opening(joined(lines(jobs, delays, windows)))] + calls + TEXTS


def rest_changes(rng, batch):
    """Changes of a batch's rests, by name. Those that are there are all taken away first."""
    jobs = read_file(batch.data)[0]
    held = [station for station in range(16) if any(mask >> station & 1 for masks in jobs for mask in masks)]
    free = [station for station in range(16) if station not in held]
    yield "taken away", NO_RESTS
    yield "others", NO_RESTS + edition(2) + [rest(*one) for one in rests_for(rng, jobs).items()]
    yield "one station", NO_RESTS + edition(2) + [rest(rng.choice(held or free), rng.randint(1, 3))]
    yield "all stations", edition(2) + [rest(station, rng.randint(1, 2)) for station in range(16)]
    yield "all sevens", edition(2) + [rest(station, 7) for station in range(16)]
    yield "where none is held", edition(2) + [rest(station, 7) for station in free]


def changed_rests(rng, batch):
    """Searches that go on after their rests changed: the numbers of their turns are then those of other clashes."""
    for name, changes in rest_changes(rng, batch):
        begun = [opening(batch.data), "R %d 24" % rng.choice([0, 0, rng.randrange(batch.total), batch.total - 1])]
        yield "rests " + name, begun + changes + ["D", "R 1 24", "D", "R 9 24", "D", "R 2000 24"] + TEXTS


def deep_rests(rng):
    """Searches whose paths are long, with rests as many as leave 1,024 clashes or fewer."""
    for name in ("css21", "twelve", "full", "clashes-400"):
        with open("../bench/batches/%s.batch" % name, "rb") as file:
            jobs, delays, *_ = read_file(file.read())
        for most in (1, 1, 2, 7):
            rests = {}
            for station in rng.sample(range(16), 16):
                more = {**rests, station: rng.randint(1, most)}
                rests = more if clash_count(jobs, more) <= 1024 else rests
            budgets = [rng.choice([1, 2, 9, 33, 100, 1000, rng.randint(1, 3000)]) for _ in range(12)]
            calls = [call for b in budgets for call in ("R %d 24" % b, "D")]
            yield "deep paths", [opening(joined(lines(jobs, delays, {}, rests)))] + calls + TEXTS


def full_path():
    """A path with no empty place."""
    first = [opening(joined(lines(test_batch(13), [])))]
    for zero in (0, 1000):
        path = [call for place in range(1024) for call in turn(place, 1023 - place, 0 if place == zero else 1)]
        yield "full path", first + path + ["D", "R 1 24", "D", "R 20 11", "D", "S 8 0 0 2", "R 1 24"]


def most_clashes(rng, groups):
    """Jobs with 1,024 clashes, in some order, and two of them that clash with each other alone. A group has the ticks
    of jobs that hold one station all the time: two of them, of p and q ticks, clash p + q - 1 times."""
    jobs = [[1 << station] * p for station, group in enumerate(groups) for p in group]
    ticks = 1024 - clash_count(jobs) + 1
    jobs += [[1 << 5] * (ticks // 2), [1 << 5] * (ticks - ticks // 2)]
    order = rng.sample(range(len(jobs)), len(jobs))
    return [jobs[k] for k in order], order.index(len(jobs) - 2), order.index(len(jobs) - 1)


def clash_states(jobs, *further):
    """Calls that lead to searches of these jobs: fresh, unfinished, from anywhere with turns and a best, and ended. The
    last one has delays that leave one order, so that it takes one node."""
    first = [opening(joined(lines(jobs, [], *further)))]
    turns = turn(0, 1023, 1) + turn(1, 0, 0) + turn(2, 512, 1)
    order = [(k, k + 1, 24) for k in range(len(jobs) - 1)]
    yield first
    yield first + ["R 50 24"]
    yield first + turns + ["S 9 0 0 43016", "S 10 0 0 43000", "S 11 0 0 99999000"]
    yield [opening(joined(lines(jobs, order, *further))), "R 1 24"]


def clash_edits(jobs, one, other):
    """Changes of a batch with 1,024 clashes, to more of them or just not. Stations 6 and up are free."""
    def mask(job, tick, value):
        return "S 3 %d %d %d" % (job, tick, value)

    ticks, station = len(jobs[one]), jobs[one][0]
    longer = "S 2 %d 0 %d" % (one, ticks + 1)
    yield [longer]  # by a tick that holds nothing
    yield [longer, mask(one, ticks, station)]  # one more
    yield [mask(one, 0, station | 1 << 15)]  # a station that no other job holds
    yield [mask(0, 0, jobs[0][0] | 1 << 9), mask(1, 0, jobs[1][0] | 1 << 9)]  # one more at distance 0, or none
    yield [mask(other, 0, 65535)]  # many more
    yield [mask(job, 0, 65535) for job in range(len(jobs))]


def clash_limit(rng):
    """Batches at 1,024 clashes that get more of them, or just do not."""
    for jobs, one, other in [most_clashes(rng, groups) for groups in CLASH_GROUPS] + [(test_batch(13), 10, 9)]:
        for state in clash_states(jobs):
            for edit in clash_edits(jobs, one, other):
                yield "clash limit", state + edit + ["D", "R 3 24", "D"] + TEXTS


def rest_limit():
    """Batches that rests bring to 1,024 clashes; then the rests change by one tick, or a table does."""
    jobs, _, *further = rest_test_batch(11)
    longer = jobs[:-1] + [jobs[-1] + [2, 2]]  # 1,024 with 6 ticks for station 1
    for tables, rests in ((jobs, further[1]), (longer, {0: 7, 1: 6})):
        last, ticks = len(tables) - 1, len(tables[-1])
        edits = [[rest(station, r)] for station in (0, 1) for r in (0, 1, 5, 6, 7, 8)]
        edits += [[rest(15, 7)], [rest(0, 6), rest(1, 7)], ["S 3 0 0 2"], ["S 3 0 0 3"], ["S 2 %d 0 %d" % (last, ticks + 1)]]
        edits.append(["S 2 %d 0 %d" % (last, ticks + 1), "S 3 %d %d 2" % (last, ticks)])
        for state in clash_states(tables, {}, rests):
            for edit in edits:
                yield "clash limit", state + edit + ["D", "R 3 24", "D"] + TEXTS


def all_lists(rng, known):
    """Every list as (kind, calls), from batches whose N is known."""
    made = [one for batch in known for one in runs(rng, batch)]
    deep = [batch for batch in known if batch.total >= 5]
    for batch in deep[:25] + [batch for batch in known if not batch.plan][:8] + known[-3:]:
        made += lengths(batch)
    for batch in [batch for batch in deep if batch.m >= 2][:6]:
        made += soundness(batch)
    for batch in known:
        made += foreign(rng, batch)
        made += changed_tables(rng, batch)
    return made + list(full_path()) + list(clash_limit(rng)) + list(deep_paths(rng))


def all_lists_02(rng, known, windowed):
    """Every list with windows, from batches of edition 01 and from those of edition 02."""
    made = [one for batch in windowed for one in runs(rng, batch)]
    deep = [batch for batch in windowed if batch.total >= 5]
    for batch in deep[:12] + [batch for batch in windowed if not batch.plan][:4]:
        made += lengths(batch)
    for batch in [batch for batch in deep if batch.m >= 2][:2]:
        made += soundness(batch)
    for batch in [batch for batch in known if batch.total >= 5][:2] + deep[:4]:
        made += soundness(batch, list(window_edits(batch.n)))
    for batch in windowed:
        made += foreign(rng, batch)
        made += changed_tables(rng, batch)
    for batch in known[::3] + windowed:
        made += changed_windows(rng, batch)
    return [("02: " + kind, calls) for kind, calls in made + list(deep_windows(rng))]


def all_lists_rests(rng, known, rested):
    """Every list with rests, from batches of edition 01 and from those that have rests."""
    made = [one for batch in rested for one in runs(rng, batch)]
    deep = [batch for batch in rested if batch.total >= 5]
    for batch in deep[:12] + [batch for batch in rested if not batch.plan][:4]:
        made += lengths(batch)
    for batch in [batch for batch in deep if batch.m >= 2][:2]:
        made += soundness(batch)
    for batch in [batch for batch in known if batch.total >= 5][:1] + deep[:3]:
        made += soundness(batch, list(rest_edits()))
    for batch in rested:
        made += foreign(rng, batch)
        made += changed_tables(rng, batch)
    for batch in known[::3] + rested:
        made += changed_rests(rng, batch)
    for batch in rested[::3]:
        made += changed_windows(rng, batch)
    return [("rests: " + kind, calls) for kind, calls in made + list(rest_limit()) + list(deep_rests(rng))]
