"""Counts instructions per byte of each row and kind on 64-bit ARM, for bench/instructions:
python3 instructions.py SIZE [ROW..]

`calls` and the plugin `insns.so` are in the folder WORK, and QEMU is the command that runs ARM programs. Each count is the
difference between runs with 3 and with 6 calls, so that starts don't count."""
import os
import re
import shlex
import subprocess
import sys
from pathlib import Path

TIMES = 3
KINDS = ["ASCII", "Latin", "Cyrillic", "CJK", "emoji", "prose", "HTML", "CJK+ASCII", "JSON", "code", "logs", "Greek",
         "Korean", "broken-ASCII", "broken"]
ASCII_ONLY = {"ascii_valid_up_to", "is_ascii", "is_basic_latin", "copy_ascii_to_ascii", "copy_ascii_to_basic_latin"}
work = Path(os.environ["WORK"])
qemu = [*shlex.split(os.environ["QEMU"]), "-plugin", str(work / "insns.so"), str(work / "calls")]


def text_of(kind, size):
    """Returns the first bytes of a text of this kind, without a part of a character at their end."""
    command = [sys.executable, Path(__file__).parent.parent / "text.py", kind, "1"]
    text = subprocess.run(command, capture_output=True, check=True).stdout[:size]
    while text[-1] >= 0x80 and not kind.startswith("broken"):
        try:
            text.decode()
            break
        except UnicodeDecodeError:
            text = text[:-1]
    return text


def count(row, text, times):
    """Returns the length of the source, and the instructions of all calls."""
    ran = subprocess.run([*qemu, row, str(times)], input=text, capture_output=True, check=True)
    return int(ran.stdout.split()[0]), int(re.search(rb"instructions (\d+)", ran.stderr)[1])


def main():
    size, names = int(sys.argv[1]), sys.argv[2:]
    rows = subprocess.run(qemu, capture_output=True, check=True, text=True).stdout.split()
    unknown = set(names) - set(rows)
    if unknown:
        sys.exit(f"bench/instructions: there is no row {', '.join(sorted(unknown))} for ARM; there are {', '.join(rows)}")
    texts = {kind: text_of(kind, size) for kind in KINDS}
    print("row\tkind\tengine\tinstructions a byte of source")
    for row in names or rows:
        for kind, text in texts.items():
            if row not in ASCII_ONLY or kind == "ASCII":
                length, once = count(row, text, TIMES)
                twice = count(row, text, 2 * TIMES)[1]
                print(f"{row}\t{kind}\tours\t{(twice - once) / TIMES / length:.3f}", flush=True)


main()
