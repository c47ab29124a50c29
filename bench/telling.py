"""The tables of bench/compare, and what bench/plot draws of it."""

import math
import statistics

from building import FROM_C, LIMIT, OPENS, TMPFS
from cells import (
    CACHE, CHANGES, COMPARED, COUNTS, CROWD, DEPTHS, FOLLOWING, HOT, LINKS, ONE_HOLD, READS, SIZES, WIDE, WIDE_FROM_C,
    WIDE_LIMIT, Cell, hot_names, tree_cells, tree_names,
)

def spread(values, digits=2):
    """The median of some values, and their quartiles in brackets."""
    if len(values) < 2:
        return f"{values[0]:.{digits}f}" if values else "-"
    low, middle, high = statistics.quantiles(values, n=4, method="inclusive")
    to = " to " if low < 0 else "-"
    return f"{middle:.{digits}f} ({low:.{digits}f}{to}{high:.{digits}f})"


def number(value, digits=0):
    return "-" if math.isnan(value) else f"{value:.{digits}f}"


def table(head, rows):
    widths = [max(map(len, column)) for column in zip(head, *rows)]
    for row in (head, *rows):
        cells = "".join(f"  {cell:>{width}}" for cell, width in zip(row[1:], widths[1:]))
        print(f"    {row[0]:{widths[0]}}{cells}".rstrip())
    print()


def counted(number, word):
    return f"{number} {word}{'s' if number > 1 else ''}"


def by_threads(names, shown):
    """A table for each number of threads: what is shown of a name, a cell and the number."""
    heads = [cell.work if cell == CHANGES else f"{cell.work} {cell.depth}" for cell in COMPARED]
    for n in COUNTS:
        table([counted(n, "thread"), *heads], [[name, *(shown(name, cell, n) for cell in COMPARED)] for name in names])


def show_calls(measured, programs):
    names = [CACHE, *programs.built]
    if LIMIT in names:
        print("Time of a call, as a multiple of the walk by hand, by the kind of work and the names of a path:")
        print("the median of the rounds, and their quartiles:\n")
        others = [name for name in names if name != LIMIT]
        by_threads(others, lambda name, cell, n: spread(measured.ratio(name, cell, n)))
    print("Million calls a second of all threads together, with `change` alone changes; the best round of each:\n")
    by_threads(names, lambda name, cell, n: number(measured.rate(name, cell, n), 2))
    if LIMIT in names:
        print("Time of a look-up through a link, as a multiple of the walk by hand, one thread:\n")
        follow = [name for name in names if name in FOLLOWING]
        rows = [[name, *(spread(measured.ratio(name, cell)) for cell in LINKS)] for name in follow]
        table(["links", *(counted(cell.depth, "name") for cell in LINKS)], rows)
    if FROM_C in names:
        print("Nanoseconds that a look-up from C takes more than one of the same text in the benchmark, one thread:\n")
        cells = [spread(measured.figures["texts", cell.depth], 1) for cell in READS]
        table(["texts", *(counted(cell.depth, "name") for cell in READS)], [[FROM_C, *cells]])


def show_times(measured, programs):
    for work, what in (("read", "files that are there"), ("absent", "names that are absent")):
        print(f"Nanoseconds of a look-up, {what}, one thread:\n")
        names = [name for name in (CACHE, *programs.built) if name != OPENS]
        rows = [[name, *(number(measured.best(name, Cell(work, depth))) for depth in DEPTHS)] for name in names]
        table([work, *(counted(depth, "name") for depth in DEPTHS)], rows)


def show_misses(measured, _):
    print("Nanoseconds of a look-up whose last name has no row, and how many hits these are, one thread:\n")
    depths, figures = [cell.depth for cell in READS], measured.figures
    rows = [["a hit", *(number(min(figures["hit", CACHE, depth])) for depth in depths)]]
    for name, call in ((CACHE, "look"), (ONE_HOLD, "resolve")):
        rows.append([f"a miss by {call}", *(number(min(figures["miss", name, depth])) for depth in depths)])
        rows.append([f"{call}, in hits", *(spread(figures["hits", name, depth], 1) for depth in depths)])
    table(["misses", *(counted(depth, "name") for depth in depths)], rows)


def missed(turns):
    row = turns[0].row
    return f"{100 * row['miss'] / row['looks']:.0f}"


def show_hot(measured, programs):
    print("Nanoseconds of a look-up by the number of files, paths of two names, one thread:\n")
    rows = [["missed, in 100", *(missed(measured.turns[CACHE, cell, 1]) for cell in HOT)]]
    rows += [[name, *(number(measured.best(name, cell)) for cell in HOT)] for name in hot_names(programs)]
    table(["files", *(f"{cell.hot:,}" for cell in HOT)], rows)
    print(f"Of {CROWD:,} files, look-ups that miss, in 100, by how many rows there are to each:\n")
    crowded = [measured.figures["crowded", rows][0] for rows in (1, 2, 4, 8)]
    table(["rows", "1", "2", "4", "8"], [["missed, in 100", *(f"{share:.2f}" for share in crowded)]])


def show_trees(measured, programs):
    print("Nanoseconds of a look-up in trees with names like those of a kernel's sources, one thread:\n")
    for names in SIZES:
        cells = dict(tree_cells(names))
        first = [measured.turns[ONE_HOLD, cell, 1][0].row for cell in cells.values()]
        evicted = [f"{100 * row['rows_evicted'] / row['looks']:.0f}" for row in first]
        rows = [["rows evicted, in 100", *evicted]]
        for name in tree_names(programs):
            rows.append([name, *(number(measured.best(name, cell)) for cell in cells.values())])
        table([f"{names:,} names", *cells], rows)


SHOWN = {"calls": show_calls, "times": show_times, "misses": show_misses, "hot": show_hot, "trees": show_trees}


def aims(measured):
    """Each aim: what it is of, the bound, whether more is better, and what was measured, in each round."""
    figures, churn, most = measured.figures, Cell("churn", 4), COUNTS[-1]
    ways = {CACHE: "in Rattle", FROM_C: "from C"}
    for cell, bound in zip(READS, (1.15, 1.1, 1.05)):
        yield f"look_fast / by hand, {counted(cell.depth, 'name')}", bound, False, measured.ratio(CACHE, cell)
    for cell in READS:
        more = figures.get(("texts", cell.depth), [])
        yield f"from C, ns more than texts, {counted(cell.depth, 'name')}", 5, False, more
    for cell in LINKS:
        yield f"through a link / by hand, {cell.depth} names", 1.3, False, measured.ratio(CACHE, cell)
    yield "mixed / by hand", 1.3, False, measured.ratio(CACHE, Cell("mixed", 4))
    yield "churn / by hand", 2.0, False, measured.ratio(CACHE, churn)
    yield "churn from C / by hand", 2.5, False, measured.ratio(FROM_C, churn)
    yield "changes from C / by hand", 2.5, False, measured.ratio(FROM_C, CHANGES)
    for cell, what, bound in ((Cell("read", 4), "look-ups", 3.6), (CHANGES, "changes", 0.9)):
        for name, way in ways.items():
            of_rates = measured.beside((name, cell, most), (name, cell, 1), lambda turn: turn.rate)
            yield f"{what} of {most} threads / of one, {way}", bound, True, of_rates
    for name, way in ways.items():
        of_rates = measured.beside((name, churn, most), (TMPFS, churn, most), lambda turn: turn.rate)
        yield f"churn of {most} threads / tmpfs's calls, {way}", 1, True, of_rates
    for cell in READS:
        hits = figures.get(("hits", ONE_HOLD, cell.depth), [])
        yield f"a miss by resolve, in hits, {counted(cell.depth, 'name')}", 5, False, hits
    for cell in HOT:
        of_times = measured.beside((WIDE, cell, 1), (TMPFS, cell, 1), lambda turn: turn.takes)
        yield f"65,536 buckets / tmpfs, {cell.hot:,} files", 0.5, False, of_times


def show_aims(measured):
    rows = []
    for what, bound, is_least, values in aims(measured):
        if values:
            middle = statistics.median(values)
            is_met, wanted = (middle >= bound, "at least") if is_least else (middle <= bound, "at most")
            rows.append([what, f"{wanted} {bound:g}", spread(values), "met" if is_met else "short"])
    if rows:
        print("The aims, each with the median of the rounds and their quartiles, one thread unless said:\n")
        table(["aim", "wanted", "measured", ""], rows)


# What an answer is, by the names of what gives it.
GIVES = {
    "The whole path as it was at one moment, proved, but for the header's waiting forms from C:":
        (CACHE, FROM_C, ONE_HOLD, WIDE, WIDE_FROM_C),
    "The whole path as it was at one moment; look-ups of the RwLocks wait for changes, and changes for look-ups:":
        (LIMIT, WIDE_LIMIT, "RwLock in C", "RwLock in Rust"),
    "Each name as it was at one moment, so that the path as a whole may have existed at none:":
        ("liburcu", "DashMap", TMPFS),
}


def drawn(measured, programs):
    """What bench/plot draws: the names by what they give, and of each panel its title, what it is by, and curves."""
    names = [name for name in (CACHE, *programs.built) if name != OPENS]
    growing = hot_names(programs)
    by_depth = {name: [[depth, measured.best(name, Cell("read", depth))] for depth in DEPTHS] for name in names}
    by_hot = {name: [[cell.hot, measured.best(name, cell)] for cell in HOT] for name in growing}
    titles = {
        Cell("read", 4): "million look-ups a second, four names",
        Cell("mixed", 4): "million calls a second, one in 20 a rename",
        Cell("churn", 4): "million calls a second, every other one a change",
        CHANGES: "million changes a second",
    }
    curves = {cell: {name: [[n, measured.rate(name, cell, n)] for n in COUNTS] for name in names} for cell in titles}
    groups = [[caption, [name for name in given if name in names + growing]] for caption, given in GIVES.items()]
    panels = [
        ["nanoseconds of a look-up, one thread", "names of the path", by_depth],
        ["nanoseconds of a look-up, two names, one thread", "files that are looked up", by_hot],
        *([title, "threads", curves[cell]] for cell, title in titles.items()),
    ]
    return {"groups": groups, "panels": panels}
