"""The chart of time to the proved optimum: an SVG with a logarithmic time axis, readable on light and dark pages."""
import math

WIDTH, HEIGHT = 760, 440
LEFT, RIGHT, TOP, BOTTOM = 78, 130, 46, 66
MARKS = {"library": "circle", "z3": "square", "cbc": "diamond", "glpk": "triangle"}
STYLE = """
  .page { fill: #ffffff } text { fill: #24292f; font: 13px sans-serif } .small { font-size: 12px } .title { font-size: 15px; font-weight: bold }
  .grid { stroke: #d0d7de; stroke-width: 1 } .axis { stroke: #57606a; stroke-width: 1 }
  .line { fill: none; stroke-width: 2 } .mark { stroke-width: 2 } .open { fill: #ffffff }
  .library { stroke: #0b61c4 } .z3 { stroke: #1a7f37 } .cbc { stroke: #bc4c00 } .glpk { stroke: #8250df }
  .library.full { fill: #0b61c4 } .z3.full { fill: #1a7f37 } .cbc.full { fill: #bc4c00 } .glpk.full { fill: #8250df }
  .wide { stroke-width: 3.5 } .dashed { stroke-dasharray: 4 4 }
  @media (prefers-color-scheme: dark) {
    .page { fill: #0d1117 } text { fill: #e6edf3 } .grid { stroke: #30363d } .axis { stroke: #8b949e } .open { fill: #0d1117 }
    .library { stroke: #58a6ff } .z3 { stroke: #3fb950 } .cbc { stroke: #f0883e } .glpk { stroke: #bc8cff }
    .library.full { fill: #58a6ff } .z3.full { fill: #3fb950 } .cbc.full { fill: #f0883e } .glpk.full { fill: #bc8cff }
  }
"""


def mark(name, x, y, filled):
    """The solver's sign at a point; open where it passed the limit."""
    kind = '%s mark %s' % (name, "full" if filled else "open")
    shapes = {"circle": "M%g %gm-4.5 0a4.5 4.5 0 1 0 9 0a4.5 4.5 0 1 0 -9 0z", "square": "M%g %gm-4 -4h8v8h-8z",
              "diamond": "M%g %gm0 -5.5l5.5 5.5l-5.5 5.5l-5.5 -5.5z", "triangle": "M%g %gm0 -5l5 9h-10z"}
    return '<path class="%s" d="%s"/>' % (kind, shapes[MARKS[name]] % (round(x, 1), round(y, 1)))


def words(x, y, text, anchor="middle", kind="small"):
    return '<text class="%s" x="%g" y="%g" text-anchor="%s">%s</text>' % (kind, x, y, anchor, text)


def line(kind, x1, y1, x2, y2):
    return '<line class="%s" x1="%g" y1="%g" x2="%g" y2="%g"/>' % (kind, x1, y1, x2, y2)


def time_name(power):
    return {-3: "1 ms", -2: "10 ms", -1: "100 ms", 0: "1 s", 1: "10 s", 2: "100 s"}.get(power, "1e%d s" % power)


class Scale:
    """Where a number of jobs and a time stand on the page."""

    def __init__(self, sizes):
        found = [time for _, _, times in sizes for time in times.values() if time != "-"]
        self.limits = {float(time[1:]) for time in found if isinstance(time, str)}
        shown = [time for time in found if isinstance(time, float)] + list(self.limits)
        self.low, self.high = math.floor(math.log10(min(shown))), math.ceil(math.log10(max(shown)))
        self.first, self.last = sizes[0][0], sizes[-1][0]

    def across(self, n):
        return round(LEFT + (WIDTH - LEFT - RIGHT) * (n - self.first) / max(1, self.last - self.first), 1)

    def up(self, seconds):
        share = (math.log10(seconds) - self.low) / max(1, self.high - self.low)
        return round(HEIGHT - BOTTOM - (HEIGHT - TOP - BOTTOM) * share, 1)


def axes(scale, sizes):
    floor, end = HEIGHT - BOTTOM, WIDTH - RIGHT
    parts = []
    for power in range(scale.low, scale.high + 1):
        y = scale.up(10.0 ** power)
        parts += [line("grid", LEFT, y, end, y), words(LEFT - 10, y + 4, time_name(power), "end")]
    for limit in scale.limits:
        y = scale.up(limit)
        parts += [line("axis dashed", LEFT, y, end, y), words(LEFT + 6, y - 5, "limit, %g s" % limit, "start")]
    for n, d, _ in sizes:
        x = scale.across(n)
        parts += [line("axis", x, floor, x, floor + 5), words(x, floor + 19, n), words(x, floor + 35, d)]
    return parts + [words(LEFT - 22, floor + 19, "jobs", "end"), words(LEFT - 22, floor + 35, "clashes", "end"), line("axis", LEFT, floor, end, floor)]


def curve(scale, name, sizes):
    """A solver's line and signs; a time that passed the limit stands at the limit."""
    points = []
    for n, _, times in sizes:
        passed = isinstance(times[name], str)
        if times[name] != "-":
            points.append((scale.across(n), scale.up(float(times[name][1:]) if passed else times[name]), not passed))
    path = " ".join("%g,%g" % (x, y) for x, y, _ in points)
    wide = " wide" if name == "library" else ""
    return ['<polyline class="%s line%s" points="%s"/>' % (name, wide, path)] + [mark(name, *point) for point in points]


def legend(names):
    """The signs and their names, on the right."""
    parts, x = [], WIDTH - RIGHT + 24
    for place, name in enumerate(names):
        y = TOP + 24 + 22 * place
        parts += [mark(name, x, y, True), words(x + 14, y + 4, "this library" if name == "library" else name, "start")]
    y = TOP + 24 + 22 * len(names) + 6
    return parts + [words(x - 6, y + 4, "open sign:", "start"), words(x - 6, y + 20, "over the limit", "start")]


def drawn(names, sizes):
    """The chart of these solvers. sizes: (jobs, clashes, {solver: seconds, '>' and the limit that it passed, or '-' where it was not asked})."""
    scale = Scale(sizes)
    parts = ['<svg xmlns="http://www.w3.org/2000/svg" viewBox="0 0 %d %d" width="%d" height="%d" role="img">' % (WIDTH, HEIGHT, WIDTH, HEIGHT),
             "<title>Time to the proved optimum by number of jobs</title>", "<style>%s</style>" % STYLE,
             '<rect class="page" width="%d" height="%d" rx="6"/>' % (WIDTH, HEIGHT),
             words(LEFT, 26, "Time to the proved optimum, median of the batches of each size", "start", "title")]
    parts += axes(scale, sizes)
    for name in reversed(names):
        parts += curve(scale, name, sizes)
    return "\n".join(parts + legend(names) + ["</svg>", ""])
