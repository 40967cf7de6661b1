"""Prints the Markdown table of 1 MiB in docs/PERFORMANCE.md from the output of bench/table, or writes it there, and the
commit into the first line of the page: python3 large.py [--write]. A dash means that the call ends at the first bytes."""
import pathlib

import page

BUILD = pathlib.Path(__file__).parent.parent / "build"
CALLS = [
    "validate_ascii", "ascii_to_basic_latin", "basic_latin_to_ascii", "utf8_valid_up_to", "utf8_latin1_up_to",
    "utf16_valid_up_to", "is_utf8_bidi", "is_utf16_bidi", "convert_utf8_to_utf16", "convert_utf16_to_utf8",
    "convert_latin1_to_utf8", "convert_utf8_to_latin1_lossy", "decode_to_utf16, 4 KiB a call",
    "decode_to_utf8, 4 KiB a call", "encode_from_utf16, 4 KiB a call", "encode_from_utf8, 4 KiB a call", "repair_slice",
]  # fmt: skip


def table():
    """Returns the lines of the table."""
    cells, kinds = {}, {}
    for line in (BUILD / "bench.tsv").read_text().splitlines()[1:]:
        row, kind, size, ours, _, _, ratio = line.split("\t")
        kinds[kind] = True
        if size == "1048576" and float(ours) < 250:
            ratio = f"{float(ratio):.2f}" if float(ratio) < 0.995 else f"{float(ratio):.1f}"
            cells[row, kind] = f"{ratio} ({float(ours):.1f})"
    yield f"| Call | {' | '.join(kinds)} |\n|{'---|' * (len(kinds) + 1)}"
    for call in CALLS:
        name, *rest = call.split(",")
        yield f"| `{name}`{','.join([''] + rest)} | {' | '.join(cells.get((call, kind), '–') for kind in kinds)} |"


if __name__ == "__main__":
    page.put("bench/large.py", "\n".join(table()) + "\n")
    page.name((BUILD / "bench.commit").read_text().strip())
