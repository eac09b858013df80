"""Random batches, running a program, calls and their answers, and the words of a test's command line.

A batch is (jobs, delays) in edition 01 and (jobs, delays, windows) or (jobs, delays, windows, rests) in edition 02: jobs
are lists of masks, windows have the earliest and the latest start of each job that has a line for them, rests the ticks of
each station that has one."""
import os
import subprocess
import sys

SECONDS = 60  # that a program may take for one file


def output(program, data, seconds=SECONDS):
    """What a program prints for this input; something else than any answer where it does not end."""
    try:
        return subprocess.run(program, input=data, capture_output=True, timeout=seconds).stdout
    except subprocess.TimeoutExpired:
        return b"no end in %d seconds" % seconds


def answers(program, calls):
    """The answer lines to a list of calls, all in one process."""
    text = "".join(call + "\n" for call in calls).encode()
    return output(program, text, 20 * SECONDS).decode("latin-1").split("\n")[:-1]


def opening(data):
    """The call that opens a file."""
    return ("O " + data.hex().upper()).strip()


def ending_soon(calls, files):
    """Of files as (kind, bytes) those that are refused or end within 20,000 nodes, as a program for calls answers."""
    ends = answers(calls, [call for _, data in files for call in (opening(data), "R 20000 24")])[1::2]
    return [one for one, end in zip(files, ends) if not end.startswith("R S")]


def words_of(usage):
    """The words of the command line, as many as the usage names; all but the last, COUNTS, are files that are there."""
    words = sys.argv[1:]
    if len(words) != len(usage.split()) - 1:
        sys.exit("usage: " + usage)
    for word in words[:-1]:
        if not os.path.isfile(word):
            sys.exit("%s: no file '%s'" % (usage.split()[0], word))
    return words


def batch(rng, n, most_ticks):
    stations = rng.choice([1, 2, 4, 6, 8, 16])
    padding = rng.choice([0, 0.2, 0.4, 0.6])
    jobs = []
    for _ in range(n):
        masks = [0] * rng.randint(1, most_ticks)
        for a in range(len(masks)):
            if rng.random() >= padding:
                for _ in range(rng.choice([1, 1, 2, 3])):
                    masks[a] |= 1 << rng.randrange(stations)
        jobs.append(masks)
    delays = []
    if n > 1:
        # Starts that keep every delay, unless a delay asks for more than they give.
        spread = rng.choice([2, 4, 4, 8, 1000])
        kept = [rng.randint(0, spread) for _ in range(n)]
        slacks = rng.choice([[0, 0, 1], [0, 1, 2], [2, 3, 4], [3, 5, 8], [0, 1, 8, 30]])
        greed = rng.choice([0, 0, 0, 0.1, 0.3])
        for _ in range(rng.choice([0, 1, n, n, 2 * n, 3 * n])):
            i, j = rng.sample(range(n), 2)
            ring = [(i, j), (j, i)] if rng.random() < 0.6 else [(i, j)]
            for i, j in ring:
                slack = -1 if rng.random() < greed else rng.choice(slacks)
                delays.append((i, j, max(-1000, min(1000, kept[j] - kept[i] - slack))))
    return jobs, delays[:128]


def least(n, delays, earliest):
    """The least starts that keep the delays and are not before the earliest ones; none where no starts keep the delays."""
    starts = list(earliest)
    for _ in range(n):
        new = [max([start] + [starts[i] + w for i, j, w in delays if j == job]) for job, start in enumerate(starts)]
        if new == starts:
            return starts
        starts = new
    return None


def windows_for(rng, jobs, delays):
    """Windows for some jobs of a batch, or for all. The latest starts are near the least ones that the delays and the
    earliest starts leave, so that the windows often decide; now and then one is too early."""
    n = len(jobs)
    chosen = sorted(rng.sample(range(n), rng.choice([1, 1, 2, 3, n, n]) if n > 2 else rng.randint(0, n)))
    spread = rng.choice([0, 2, 4, 4, 8, 20, 20, 20000])
    earliest = [rng.randint(0, spread) if job in chosen and rng.random() < 0.7 else 0 for job in range(n)]
    starts = least(n, delays, earliest) or earliest
    slacks = rng.choice([[0, 0, 1], [0, 1, 2], [0, 2, 4], [3, 5, 8], [0, 4, 30], [2, 30, 65535]])
    greed = rng.choice([0, 0, 0.2, 0.4])
    windows = {}
    for job in chosen:
        slack = -1 if rng.random() < greed else rng.choice(slacks)  # -1 is too early where a delay holds the job back
        windows[job] = (earliest[job], max(earliest[job], min(65535, starts[job] + slack)))
    return windows


def windowed(rng, made):
    """A batch of edition 01 as one of edition 02."""
    return made + (windows_for(rng, *made),)


def rests_for(rng, jobs):
    """Rests for some stations, or for many; most are stations that jobs hold, and most are short, so that not too many
    batches have too many clashes."""
    held = [station for station in range(16) if any(mask >> station & 1 for masks in jobs for mask in masks)]
    chosen = rng.sample(held, min(len(held), rng.choice([0, 1, 1, 1, 2, 3, 16])))
    others = rng.sample(range(16), rng.choice([0, 0, 1, 3]))
    ticks = rng.choice([[1], [1, 2], [1, 2], [1, 2, 3], [2, 5], [7], range(1, 8)])
    return {station: rng.choice(ticks) for station in chosen + others}


def rested(rng, made):
    """A batch of either edition as one of edition 02 with rests."""
    jobs, delays, *windows = made
    return jobs, delays, windows[0] if windows else {}, rests_for(rng, jobs)


def lines(jobs, delays, windows=None, rests=None):
    """The lines of the batch file, without their 0A."""
    head = "A0%02X%02X%02X" % (1 if windows is None else 2, len(jobs), len(delays))
    tables = ["A1%02X" % len(masks) + "".join("%04X" % mask for mask in masks) for masks in jobs]
    kept = ["A2%02X%02X%04X" % (i, j, w & 0xFFFF) for i, j, w in delays]
    further = [window_line(job, *ends) for job, ends in sorted((windows or {}).items())]
    return [head] + tables + kept + further + [rest_line(*one) for one in sorted((rests or {}).items())]


def window_line(job, earliest, latest):
    return "A3%02X%04X%04X" % (job, earliest, latest)


def rest_line(station, ticks):
    return "A4%02X%02X" % (station, ticks)


def joined(texts):
    return "".join(text + "\n" for text in texts).encode()


def stay(masks):
    """The ticks from a job's start to its finish: those up to its last one that is not empty."""
    return max((a + 1 for a, mask in enumerate(masks) if mask), default=0)


def apart(first, second, rests=None):
    """The differences t_j - t_i at which two jobs hold one station in one tick, or in ticks no further apart than its rest."""
    met = {(a - b, x & y) for a, x in enumerate(first) for b, y in enumerate(second) if x & y}
    if not rests:
        return {middle for middle, _ in met}
    found = set()
    for middle, shared in met:
        most = max(rests.get(station, 0) for station in range(16) if shared >> station & 1)
        found.update(range(middle - most, middle + most + 1))
    return found


def clash_count(jobs, rests=None):
    return sum(len(apart(jobs[i], jobs[j], rests)) for j in range(len(jobs)) for i in range(j))
