"""Prints the table of instructions on 64-bit ARM in docs/PERFORMANCE.md from what bench/instructions prints, or writes it there:
CPU=aarch64 bench/instructions 4096 | python3 bench/arm/table.py [--write]. A dash means that the call ends at the first bytes."""
import pathlib
import sys

BENCH = pathlib.Path(__file__).parent.parent
sys.path.append(str(BENCH))
import page  # noqa: E402

KINDS = ["ASCII", "Latin", "Cyrillic", "CJK", "emoji", "prose", "JSON", "logs", "broken"]
ROWS = ["is_ascii", "utf8_valid_up_to", "convert_utf8_to_utf16", "convert_utf16_to_utf8", "convert_latin1_to_utf8",
        "copy_ascii_to_ascii", "utf16_valid_up_to", "utf16_length_from_utf8", "repair_slice"]


def table():
    """Returns the lines of the table."""
    lines = list(sys.stdin)[1:]
    counts = {(row, kind): float(count) for row, kind, _, count in (line.split("\t") for line in lines)}
    yield f"| Call | {' | '.join(KINDS)} Latin |\n|{'---|' * (len(KINDS) + 1)}"
    for row in ROWS:
        cells = [f"{counts[row, kind]:.2f}" if (row, kind) in counts else "–" for kind in KINDS]
        yield f"| `{row}` | {' | '.join(cells)} |"


page.put("bench/arm", "\n".join(table()) + "\n")
