"""Prints instructions per byte from callgrind's dumps in a folder: python3 counts.py FOLDER."""
import pathlib
import re
import sys

print("row\tkind\tengine\tinstructions a byte of source")
dumps = [path for path in pathlib.Path(sys.argv[1]).glob("out.*") if path.suffix[1:].isdigit()]
for path in sorted(dumps, key=lambda path: int(path.suffix[1:])):
    dump = path.read_text(errors="replace")
    label = re.search(r"Client Request: (.*)", dump)
    if label:
        row, kind, engine, length = label[1].split("|")
        count = int(re.search(r"^(?:summary|totals): (\d+)", dump, re.M)[1])
        print(f"{row}\t{kind}\t{engine}\t{count / int(length):.3f}")
