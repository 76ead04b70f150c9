"""What bench/compare calls: inputs, calls, the comparison of listings, and the page."""
import os, re, signal, subprocess, sys, threading, time
from math import exp, log
from random import Random

from canonical import echelon, primitive, read_normaliz, read_text, reduced
from pictures import growth_picture, ratio_picture
from polyhedra import *

program, work, pages, limit, share = sys.argv[1], sys.argv[2], sys.argv[3], float(sys.argv[4]), int(sys.argv[5])
lrs, mplrs, cdd, normaliz, ppl = sys.argv[6:]
WORKERS = os.cpu_count()
random = Random(1)

INPUTS = {
    "cube 18": cube(18), "cross 8 by rows": cross(8), "cross 14 by points": cross_points(14),
    "simplices 2 x 40": simplices(2, 40), "simplices 5 x 5": simplices(5, 5), "pyramid over cube 13": pyramid(13),
    "cyclic 6, 40": cyclic(6, 40), "cyclic 8, 24": cyclic(8, 24), "cyclic polar 8, 22": cyclic_polar(8, 22),
    "sphere 4, 400": sphere(random, 4, 400, 9), "sphere 6, 80": sphere(random, 6, 80, 6),
    "tangents 6, 80": tangents(random, 6, 80, 6), "points 7, 60": points(random, 7, 60, 9),
    "0/1 points 9, 60": zero_one(random, 9, 60), "0/1 points 10, 90": zero_one(random, 10, 90),
    "0/1 points 10, 130": zero_one(random, 10, 130),
    "transportation 5 x 6": transportation([13, 15, 14, 16, 12], [14, 10, 11, 15, 12, 8], redundant=False),
    "Birkhoff 5": birkhoff(5),
    "metric cone 6": metric(6, False), "metric polytope 5": metric(5, True), "cut polytope 6": cut(6),
    "permutahedron 7 by rows": permutahedron(7), "permutahedron 6 by points": permutations_of(6),
    "hypersimplex 14, 5": hypersimplex(14, 5), "blocking 16, 40": blocking(random, 16, 40),
    "cone 8, 60": cone(random, 8, 60), "cylinder 13, 3 lines": cylinder(13, 3),
}
FAMILIES = {
    "cubes by rows, dimension": {d: cube(d) for d in [8, 10, 12, 14, 16, 18]},
    "cyclic polytopes in dimension 6, points": {n: cyclic(6, n) for n in [12, 20, 32, 50, 80]},
    "random spheres in dimension 4, points": {n: sphere(random, 4, n, 9) for n in [50, 100, 200, 400, 800]},
}
LARGE = 3 ** 90
# A file for the programs of the format of lrslib, or a polyhedron for all; its listing, as linear rows and others, or None
# where there is no point; and where a program reads the file otherwise, as what, and the listing of that.
SQUARE = "0 1 0\n0 0 1\n1 -1 0\n1 0 -1\n"
CORNERS = ([], [(1, 0, 0), (1, 1, 0), (1, 0, 1), (1, 1, 1)])
SMALL = {
    "the square, with `*****` for its number of rows": (f"H-representation\nbegin\n***** 3 rational\n{SQUARE}end\n", CORNERS),
    "the square, with the word `nonnegative` within a comment":
        (f"this is not nonnegative\nH-representation\nbegin\n4 3 rational\n2 -1 0\n2 1 0\n2 0 -1\n2 0 1\nend\n",
         ([], [(1, 2, 2), (1, 2, -2), (1, -2, 2), (1, -2, -2)]),
         ("reads `nonnegative` as an option", ([], [(1, 0, 0), (1, 2, 0), (1, 0, 2), (1, 2, 2)]))),
    "a triangle, by the option `nonnegative` and one row":
        ("H-representation\nnonnegative\nbegin\n1 3 rational\n4 -2 -1\nend\n", ([], [(1, 0, 0), (1, 2, 0), (1, 0, 4)]),
         ("has no such option", ([(0, 1, -2)], [(1, 2, 0), (0, -1, 0)]))),
    "the square, with an option `maxoutput 1` behind `end`":
        (f"H-representation\nbegin\n4 3 rational\n{SQUARE}end\nmaxoutput 1\n", CORNERS,
         ("prints one row, as asked", ([], [(1, 1, 1)]))),
    "a row that ends in `end`, one number short": ("H-representation\nbegin\n2 3 rational\n0 1 0\n0 0 end\n", None),
    "no point": (("H", 0, [[-1, 1], [0, -1]]), None),
    "equations that contradict one another": (("H", 2, [[-1, 1], [-2, 1]]), None),
    "a strip, which has a line": (("H", 0, [[0, 1, 0], [1, -1, 0]]), ([(0, 0, 1)], [(1, 0, 0), (1, 1, 0)])),
    "a quadrant by rows": (("H", 0, [[0, 1, 0], [0, 0, 1]]), ([], [(1, 0, 0), (0, 1, 0), (0, 0, 1)])),
    "a quadrant by a point and rays": (("V", 0, [[1, 0, 0], [0, 1, 0], [0, 0, 1]]), ([], [(0, 1, 0), (0, 0, 1)])),
    "two rays and no point": (("V", 0, [[0, 1, 0], [0, 0, 1]]), ([], [(0, 1, 0), (0, 0, 1)])),
    "an octagon of a program, whose ray lies on many cobases":
        (("H", 0, [[0, 1, 0, 0], [10, -1, 0, 0], [1, -1, 1, 0], [-2, 1, 1, 0], [0, 0, -1, 1], [0, -1, 0, 1]]),
         ([], [(1, 0, 2, 2), (1, 1, 1, 1), (2, 3, 1, 3), (1, 10, 9, 10), (1, 10, 10, 10), (0, 0, 0, 1), (0, 0, 1, 1)])),
    "one point, twice": (("V", 0, [[1, 2], [1, 2]]), ([(-2, 1)], [])),
    "a number of 143 bits": (("H", 0, [[0, 1], [LARGE, -1]]), ([], [(1, 0), (1, LARGE)])),
    "numbers of 100 bits, with products of 200":
        (("H", 0, [[0, 1, 0], [0, 0, 1], [1, -2 ** 100, -1], [1, -1, -3 * 2 ** 99]]),
         ([], [(1, 0, 0), (2 ** 100, 1, 0), (3 * 2 ** 99, 0, 1),
               primitive([3 * 2 ** 199 - 1, 3 * 2 ** 99 - 1, 2 ** 100 - 1])])),
}

DIFFERS = "**another listing**"
# which program has another listing than ours, and of what
differing = []

source, project, ledger = (os.path.join(work, name) for name in ["file", "input", "ledger"])
MPI = ["mpirun", "--allow-run-as-root", "--oversubscribe", "-np", str(WORKERS + 2), mplrs, source]
PROGRAMS = {
    "ours": [program, "convert"], "ours, run": [program, "run", ledger, "--workers", str(WORKERS)],
    "lrs": [lrs], "mplrs": MPI if mplrs else [], "cddlib": [cdd], "Normaliz": [normaliz, "-x=1", "-s", project], "PPL": [ppl],
}
PROGRAMS = {name: command for name, command in PROGRAMS.items() if command and command[0]}
OURS = {"ours", "ours, run"}
TARGETS = {name: os.path.join(work, f"{name} listing") for name in PROGRAMS}


def stop(run):
    """Ends a call that this script started, with the processes that it has started."""
    for sent, grace in [(signal.SIGTERM, 5), (signal.SIGKILL, None)]:
        try:
            os.killpg(run.pid, sent)
        except ProcessLookupError:
            pass
        try:
            run.wait(grace)
            return
        except subprocess.TimeoutExpired:
            pass


def call(name):
    """The seconds of one call, and how it ended: "done", "limit", or its status line or the like."""
    for left in [ledger, project + ".out"]:
        if os.path.exists(left):
            os.remove(left)
    start = time.perf_counter()
    with open(source) as given, open(TARGETS[name], "w") as out, open(os.path.join(work, "errors"), "w") as errors:
        run = subprocess.Popen(PROGRAMS[name], stdin=given, stdout=out, stderr=errors, start_new_session=True, cwd=work)
        # a wait with a limit of its own would ask again and again, with pauses up to a twentieth of a second
        passed = threading.Event()
        timer = threading.Timer(limit, lambda: (passed.set(), stop(run)))
        timer.start()
        run.wait()
        seconds = time.perf_counter() - start
        timer.cancel()
        timer.join()
    if passed.is_set():
        return limit, "limit"
    if run.returncode == 0:
        return seconds, "done"
    with open(os.path.join(work, "errors")) as errors:
        said = errors.read().split("\n")
    ends = f"ends with {run.returncode}" if run.returncode > 0 else f"ends by the signal {-run.returncode}"
    return seconds, next((line for line in reversed(said) if line.startswith("lrs: ")), ends)


def normaliz_text(polyhedron):
    """A polyhedron in Normaliz's format, in which a row has its first entry last."""
    kind, linear, rows = polyhedron
    rows = [row[1:] + row[:1] for row in rows]
    if kind == "H":
        parts = {"inhom_equations": rows[:linear], "inhom_inequalities": rows[linear:]}
    else:
        parts = {"subspace": [row[:-1] for row in rows[:linear]], "vertices": [row for row in rows[linear:] if row[-1]],
                 "cone": [row[:-1] for row in rows[linear:] if not row[-1]]}
        if not parts["vertices"]:
            parts["vertices"] = [[0] * (len(rows[0]) - 1) + [1]]
    lines = [f"amb_space {len(rows[0]) - 1}"]
    for name, part in parts.items():
        if part:
            lines += [f"{name} {len(part)}"] + [" ".join(map(str, row)) for row in part]
    return "\n".join([*lines, ""])


def write_input(given):
    if isinstance(given, str):
        text, other = given, ""
    else:
        text, other = text_of(given), normaliz_text(given)
    with open(source, "w") as file, open(project + ".in", "w") as second:
        file.write(text)
        second.write(other)


def listing(name, kind):
    """What a program has printed of an input of this kind: linear rows and others, or None."""
    if name == "Normaliz":
        path = project + ".out"
        return read_normaliz(path, kind) if os.path.exists(path) else None
    return read_text(TARGETS[name])


def as_set(shown, pairs):
    """The rows modulo the linear ones, without those that are none: 0, and `1 0 .. 0`, which no facet is; and what was left
    out."""
    rows = [reduced(row, pairs) for row in shown]
    facets = [row for row in rows if any(row)]
    return facets, len(rows) - len(facets)


def notes_of(name, kind, wanted, got):
    """Whether the listing `got` is the listing `wanted`, as sets, and what is to be said of it."""
    linear, shown = got
    pairs = echelon(wanted[0])
    rows, empty = as_set(shown, pairs)
    notes = []
    # PPL's lines are among the rows here
    same = name == "PPL" or (len(echelon(linear)) == len(pairs) and not any(any(reduced(row, pairs)) for row in linear))
    wanted_rows = set(as_set(wanted[1], pairs)[0])
    if kind == "V":
        one = [row for row in rows if row[0] and not any(row[1:])]
        if one and not any(row[0] and not any(row[1:]) for row in wanted_rows):
            rows = [row for row in rows if row not in one]
            notes.append("prints `1 0 .. 0` too")
    found = set(rows)
    if len(rows) > len(found):
        notes.append(f"prints {len(rows) - len(found)} rows again")
    missing = wanted_rows - found
    if kind == "H" and missing and found == {row for row in wanted_rows if not row[0]} and \
            all(row[0] and not any(row[1:]) for row in missing):
        notes.append("leaves out the vertex of a cone")
        missing = set()
    extra = found - wanted_rows
    if missing or extra:
        notes.append(f"leaves out {len(missing)} rows of {len(wanted_rows)} and has {len(extra)} that are none")
    return same and not missing and not extra, notes


def measured(title, polyhedron, names):
    """For each of these programs the seconds and how it ended, after the listings were compared; the rows; the remarks.
    A listing is compared with the first that there is, which is ours where we answer. A program that differs from it
    is wrong where as many of the others or more agree with it; else, and where our two differ, all ends here."""
    write_input(polyhedron)
    ended, told, wanted, agree, differ = {}, [], None, [], []
    for name in names:
        ended[name] = call(name)
        if ended[name][1] != "done":
            if ended[name][1] != "limit":
                told.append(f"{name}: {ended[name][1].removeprefix('lrs: ')}")
            continue
        got = listing(name, polyhedron[0])
        if got is None:
            ended[name] = ended[name][0], "no listing"
            told.append(f"{name}: no listing")
            continue
        if wanted is None:
            wanted = got
        same, notes = notes_of(name, polyhedron[0], wanted, got)
        told += [f"{name} {note}" for note in notes]
        if not same:
            ended[name] = ended[name][0], "wrong"
            differing.append(f"{name}, {title}")
        (agree if same else differ).append(name)
    if len(differ) > len([name for name in agree if name not in OURS]) or OURS & {*differ}:
        sys.exit(f"bench/compare: {title}: {', '.join(differ)} and {', '.join(agree)} have different listings: {told}")
    for _ in range(2):
        for name in names:
            if ended[name][1] == "done" and ended[name][0] < 1:
                seconds, how = call(name)
                ended[name] = min(seconds, ended[name][0]), how
    return ended, len(set(wanted[1])) if wanted else None, told


def shown_time(entry):
    if entry is None:
        return "-"
    seconds, how = entry
    return {"done": f"{seconds:.2f}", "limit": f"> {limit:.0f}", "wrong": f"**wrong**, {seconds:.2f}"}.get(how, "stops")


def answer_of(name, given, wanted, otherwise=None):
    """What a program says to a small file."""
    write_input(given)
    # bench/ppl_convert.cc prints no equations
    if isinstance(given, str) and name in ["Normaliz", "PPL"] or name == "PPL" and wanted and not wanted[1]:
        return "-"
    _, how = call(name)
    kind = given[0] if not isinstance(given, str) else "H"
    got = listing(name, kind)
    if how == "limit":
        return "does not end"
    if how != "done":
        return f"`{how.removeprefix('lrs: ')}`" if how.startswith("lrs: ") else how
    if got is None or not (got[0] or got[1]):
        return "no listing"
    if wanted is None:
        return "**prints a listing**"
    same, notes = notes_of(name, kind, wanted, got)
    if not same:
        if otherwise and notes_of(name, kind, otherwise[1], got)[0]:
            return otherwise[0]
        return DIFFERS
    return ", ".join(notes) or "the listing"


def table(head, rows):
    lines = ["| " + " | ".join(head) + " |", "|" + "---|" * len(head)]
    return "\n".join(lines + ["| " + " | ".join(row) + " |" for row in rows])


def processor():
    with open("/proc/cpuinfo") as text:
        found = re.search(r"^model name\s*: (.*)$", text.read(), re.M)
    return found[1] if found else os.uname().machine


def taken(items):
    return dict([*items.items()][::share])


began = time.time()
names = [*PROGRAMS]
lines, ratios, told_of = [], {}, []
for title, polyhedron in taken(INPUTS).items():
    ended, count, told = measured(title, polyhedron, names)
    size = f"{len(polyhedron[2])} x {len(polyhedron[2][0])}"
    lines.append([title, size, str(count or "-")] + [shown_time(ended[name]) for name in names])
    base, how = ended["lrs"]
    if how == "done":
        ratios[title] = {name: (seconds / base, end) for name, (seconds, end) in ended.items()
                         if name != "lrs" and end in ["done", "limit"]}
    told_of += [f"{title}: {note}" for note in told]
    print(*lines[-1], *told, sep=" | ", flush=True)

curves = {}
for family, members in FAMILIES.items():
    going, curves[family] = list(names), {name: [] for name in names}
    for size, polyhedron in taken(members).items():
        ended, count, told = measured(f"{family} {size}", polyhedron, going)
        told_of += [f"{family} {size}: {note}" for note in told]
        for name, (seconds, how) in ended.items():
            if how == "done":
                curves[family][name].append((size, seconds))
            else:
                going.remove(name)
        print(family, size, count, *[f"{name} {shown_time(entry)}" for name, entry in ended.items()], *told, sep=" | ", flush=True)

asked = [name for name in names if name not in ["ours, run", "mplrs"]]
small = []
for title, (given, wanted, *otherwise) in SMALL.items():
    what = "no listing" if wanted is None else "a listing"
    small.append([title, what] + [answer_of(name, given, wanted, *otherwise) for name in asked])
    print(*small[-1], sep=" | ", flush=True)
    if "**" in small[-1][2 + asked.index("ours")]:
        sys.exit(f"bench/compare: {title}: this program has another listing")
minutes = (time.time() - began) / 60
differing += [f"{asked[k]}, {title}" for title, _, *answers in small for k, answer in enumerate(answers) if answer == DIFFERS]
verdict = "Where both read a file alike, no listing of ours differs from another program's but as the remarks say."
if differing:
    verdict = f"Of ours differ: {'; '.join(differing)}."


def mean(name):
    """The geometric mean of the ratios to lrs where both have answered."""
    both = [ratio[name][0] for ratio in ratios.values() if name in ratio and ratio[name][1] == "done"]
    return f"{exp(sum(map(log, both)) / len(both)):.2f} ({min(both):.2f} to {max(both):.2f}, {len(both)} inputs)" if both else "-"


ROLES = {
    "ours": ("`lrs convert` of this repository, build " + os.environ["BUILD"], "one process"),
    "ours, run": ("`lrs run` of the same", f"{WORKERS} workers"),
    "lrs": ("lrslib " + os.environ["LRS_VERSION"], "one process"),
    "mplrs": ("mplrs " + os.environ["MPLRS_VERSION"], f"{WORKERS} workers beside its two other processes"),
    "cddlib": ("`lcdd_gmp` of libcdd-tools " + os.environ["CDD_VERSION"], "one process"),
    "Normaliz": ("normaliz " + os.environ["NORMALIZ_VERSION"] + ", `-x=1 -s`", "one process"),
    "PPL": ("libppl " + os.environ["PPL_VERSION"] + " through bench/ppl_convert.cc", "one process"),
}
day = time.strftime("%Y-%m-%d")
page = f"""# Comparison with other programs

Written by `bench/compare` on {day}, in one run of {minutes:.0f} minutes{f", of each {share}th input alone" if share > 1 else ""}. Processor: {processor()},
{WORKERS} processors; {os.environ["SYSTEM"]}. The script says how the inputs are made. Nothing here is proved.

{table(["column", "program", "runs as"], [[name, *ROLES[name]] for name in names])}

## Times

Seconds of wall time, with the start of the process, reading and printing; the least of three calls where the first took less
than a second. `> {limit:.0f}`: stopped after {limit:.0f} seconds. Rows are those of the listing without lines and equations. The ledger of `run` stands
in the folder for temporary files, and each of its records is synced.

Wherever two programs answered, their listings were compared as sets, here and in the table of small files.
**{verdict}**
A remark is a row that is printed again, a facet `1 0 .. 0` that no point touches, or the vertex of a cone, which cddlib leaves
out, and takes for granted where it reads rays alone. A listing that differs is **wrong** where as many of the other programs or
more agree with ours. The transportation polytope is given without the equation that follows from the others: with that one mplrs
left out 17 of its 95412 vertices on 2026-11-29, lrs and Normaliz none; cddlib and PPL were stopped.

{table(["input", "m x n", "rows"] + names, lines)}

![The time of each program over that of lrs, by input](comparison_ratio.svg)

Geometric means of the times over those of lrs, where both answered, with the least and the greatest:

{table(["program", "over lrs"], [[name, mean(name)] for name in names if name != "lrs"])}

![Time against size for cubes, cyclic polytopes and random spheres](comparison_growth.svg)

Remarks:

{chr(10).join("- " + note for note in told_of) or "- nothing"}

## Small files

What each program makes of small files on which programs differ. *The listing* is the one that the words before it describe. Where
a program reads the file otherwise, the table says how, and that its listing is the one of that was checked. `-`: not
asked, since the program has a format of its own. A status line of this program is quoted.

{table(["file", "has"] + asked, small)}
"""
for name, text in [
    ("COMPARISON.md", page),
    ("comparison_ratio.svg", ratio_picture(ratios, [name for name in names if name != "lrs"], day)),
    ("comparison_growth.svg", growth_picture(curves, names, day)),
]:
    with open(os.path.join(pages, name), "w") as out:
        out.write(text)
