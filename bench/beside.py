"""Prints Markdown tables from the output of several runs of the benchmark's `simdutf`; the best throughput counts:
python3 beside.py PEER MACHINE ROUNDS PASSES V2.tsv... -- V3.tsv... [--write], ours built for x86-64-v2 and for
x86-64-v3. A cell has the ratios of both to the kernel of the same width, bold if one is below the goal. The row under it
has the ratio of ours for x86-64-v3 to simdutf's own choice. Standard error lists the cells below the goal. The last table
sums up each length, and with --write it goes to docs/PERFORMANCE.md."""
import sys
import textwrap

import page

GOALS = {64: 0.95, 4096: 1.0, 1048576: 1.0}
SIZES = {64: "64 bytes", 4096: "4 KiB", 1048576: "1 MiB"}


def best_of(names):
    """Returns the best throughputs of ours, of the kernel and of the choice, by row, kind and size."""
    best = {}
    for name in names:
        for line in list(open(name))[1:]:
            row, kind, size, *speeds = line.rstrip("\n").split("\t")
            before = best.get((row, kind, int(size)), (0, 0, 0))
            best[row, kind, int(size)] = tuple(max(pair) for pair in zip(before, map(float, speeds)))
    return best


def spread(files):
    """Returns how much the ratios of half of the cells, and of nine in ten, differ between the runs of one build."""
    runs = [{cell: speeds[0] / speeds[1] for cell, speeds in best_of([name]).items()} for name in files]
    apart = sorted(max(run[cell] for run in runs) / min(run[cell] for run in runs) - 1 for cell in runs[0])
    return [f"{apart[len(apart) * share // 10]:.2f}" for share in (5, 9)]


def method(files):
    """Returns sentences on how it was measured."""
    peer, machine, rounds, passes = sys.argv[1:5]
    processor, load = machine.split("\n")
    kernels = [open(names[0]).readline().rstrip("\n").split("\t") for names in files]
    yield f"Measured on one core of {processor} ({load}) next to {peer}, whose own choice is `{kernels[1][5]}`."
    if kernels[1][4] == kernels[1][5]:
        yield "This processor lacks instructions that simdutf's kernel of AVX-512 takes, so that one is not measured here."
    yield f"The best of {rounds} rounds of {passes} passes counts."
    if rounds != "1":
        (half2, most2), (half3, most3) = map(spread, files)
        yield f"Between rounds, half of the ratios agree within {half2} for `x86-64-v2` and {half3} for `x86-64-v3`,"
        yield f"nine in ten within {most2} and {most3}."


def summary(widths):
    """Returns the lines of the table of all lengths: how many cells are below the goal, and the ratios to simdutf's choice."""
    yield "| Length | Cells | Below the goal, v2 and v3 | Below simdutf's choice | A tenth, half and nine tenths of these ratios are below |"
    yield "|---|---|---|---|---|"
    for size, name in SIZES.items():
        places = [place for place in widths[0] if place[2] == size]
        below = [sum(round(best[place][0] / best[place][1], 2) < GOALS[size] for place in places) for best in widths]
        own = sorted(widths[1][place][0] / widths[1][place][2] for place in places)
        shares = ", ".join(f"{own[len(own) * share // 10]:.2f}" for share in (1, 5, 9))
        yield f"| {name} | {len(places)} | {below[0]}, {below[1]} | {sum(ratio < 1 for ratio in own)} | {shares} |"


def cell(widths, place):
    """Returns the ratios to the kernels, bold below the goal, and the ratio to simdutf's choice."""
    if place not in widths[0]:
        return "", ""
    ratios = [round(best[place][0] / best[place][1], 2) for best in widths]
    words = " ".join(f"{ratio:.2f}" for ratio in ratios)
    if min(ratios) < GOALS[place[2]]:
        print(*place, words, sep="\t", file=sys.stderr)
        words = f"**{words}**"
    ours, _, own = widths[1][place]
    return words, f"{ours / own:.2f}"


def table(widths, size):
    """Returns the lines of the table of a size."""
    rows = dict.fromkeys(row for row, _, _ in widths[0])
    kinds = dict.fromkeys(kind for _, kind, _ in widths[0])
    yield f"\n{SIZES[size]}:\n\n| Call | {' | '.join(kinds)} |\n|{'---|' * (len(kinds) + 1)}"
    for row in rows:
        cells = [cell(widths, (row, kind, size)) for kind in kinds]
        name, *rest = row.split(",")
        yield f"| `{name}`{','.join(['', *rest])} | {' | '.join(words for words, _ in cells)} |"
        yield f"| – simdutf's choice | {' | '.join(own for _, own in cells)} |"


def main():
    names = [name for name in sys.argv if name != "--write"]
    cut = names.index("--")
    files = names[5:cut], names[cut + 1:]
    widths = [best_of(names) for names in files]
    print(*(line for size in SIZES for line in table(widths, size)), sep="\n", end="\n\n")
    page.put("bench/beside", "\n".join([textwrap.fill(" ".join(method(files)), 120), "", *summary(widths)]) + "\n")


main()
