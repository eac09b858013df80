"""Plans beside their batch: what a batch file says, what is wrong with a plan, the shortest of all plans, and plan texts."""
from itertools import combinations, product


def read_file(data):
    """Jobs, delays, windows and rests of a batch file, read here once more from its bytes; windows are None in edition 01."""
    frames = [bytes.fromhex(line) for line in data.decode().splitlines()]
    edition, n, m = frames[0][1:]
    jobs = [[int.from_bytes(f[k:k + 2], "big") for k in range(2, len(f), 2)] for f in frames[1:1 + n]]
    delays = [(f[1], f[2], int.from_bytes(f[3:5], "big", signed=True)) for f in frames[1 + n:1 + n + m]]
    further = frames[1 + n + m:]
    windows = {f[1]: (int.from_bytes(f[2:4], "big"), int.from_bytes(f[4:6], "big")) for f in further if f[0] == 0xA3}
    rests = {f[1]: f[2] for f in further if f[0] == 0xA4}
    return jobs, delays, windows if edition == 2 else None, rests


def latency_of(jobs, starts):
    """The largest finish: one past the last tick in which a station is held, or the start of a job that holds none."""
    past = [start + a + 1 for start, masks in zip(starts, jobs) for a, mask in enumerate(masks) if mask]
    return max(past + [start for start, masks in zip(starts, jobs) if not any(masks)])


def outlasted(jobs, starts, latency):
    """Whether some table goes on past the latency, with empty ticks: all of its ticks would make the latency larger."""
    return any(start + len(masks) > latency for start, masks in zip(starts, jobs))


def too_close(jobs, rests, starts):
    """Every two ticks in which different jobs hold one station and that are not more than its rest apart, as (station,
    tick, tick)."""
    for station in range(16):
        held = [(job, starts[job] + a) for job, masks in enumerate(jobs) for a, mask in enumerate(masks) if mask >> station & 1]
        for (one, x), (other, y) in combinations(held, 2):
            if one != other and abs(x - y) <= rests.get(station, 0):
                yield station, x, y


def faults(jobs, delays, windows, rests, starts, latency):
    """What is wrong with a plan: delays, ends, stations tick by tick and their rests, latency."""
    found = ["delay %d %d %d" % d for d in delays if starts[d[1]] - starts[d[0]] < d[2]]
    found += ["end of job %d" % job for job, (earliest, latest) in (windows or {}).items()
              if not earliest <= starts[job] <= latest]
    found += ["tick %d station %d" % (x, station) if x == y else "rest of station %d in ticks %d and %d" % (station, x, y)
              for station, x, y in too_close(jobs, rests, starts)]
    if latency != latency_of(jobs, starts):
        found.append("latency")
    return found


def shortest(jobs, delays, windows, rests, most):
    """The latency of the shortest valid plan among all whose starts are up to so many; None where none of them is valid."""
    plans = [(latency_of(jobs, starts), starts) for starts in product(range(most + 1), repeat=len(jobs))]
    return next((latency for latency, starts in sorted(plans) if not faults(jobs, delays, windows, rests, starts, latency)), None)


def plan_text(starts, latency, total):
    """The plan text of these numbers; of a latency that two bytes do not hold, its last two."""
    head = "B001%02X%04X%08X\n" % (len(starts), latency & 0xFFFF, total)
    return (head + "".join("B1%02X%04X\n" % one for one in enumerate(starts))).encode()


def starts_of(text):
    """The starts of a plan text."""
    return [int(line[4:8], 16) for line in text.decode().splitlines()[1:]]
