"""Prints parts of docs/PERFORMANCE.md, or writes them to the page if an argument is --write."""
import pathlib
import sys

PAGE = pathlib.Path(__file__).parent.parent / "docs" / "PERFORMANCE.md"


def put(name, text):
    """Prints the text, or writes it to the page between the marks of this name."""
    if "--write" not in sys.argv:
        print(text, end="")
        return
    page = PAGE.read_text()
    first, last = f"<!-- {name} -->\n", f"<!-- end of {name} -->\n"
    if page.count(first) != 1 or page.count(last) != 1:
        sys.exit(f"{name}: {PAGE} doesn't have its marks once")
    before, rest = page.split(first)
    PAGE.write_text(before + first + text + last + rest.split(last)[1])


def name(commit):
    """Prints the first line of the page, which names the commit that bench/table measured, or writes it."""
    line = f"The plot and the table of 1 MiB are of commit {commit}. Other figures may be older.\n"
    if "--write" not in sys.argv:
        print(line, end="")
        return
    first, rest = PAGE.read_text().split("\n", 1)
    if not first.startswith("The plot "):
        sys.exit(f"the first line of {PAGE} names no commit")
    PAGE.write_text(line + rest)
