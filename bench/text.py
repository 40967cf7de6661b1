"""Writes MIB MiB of a kind of text, for the scripts of this folder: python3 text.py KIND MIB. One MiB is made at random, the same one
on each run, and repeated; random bytes are new in each MiB."""
import random
import sys

MIB = 1 << 20
LETTERS = [chr(c) for c in range(ord("a"), ord("z") + 1)]
BEYOND = [chr(c) for c in range(0xE0, 0xFF)]
CYRILLIC = [chr(c) for c in range(0x430, 0x450)]
EMOJI = [chr(c) for c in range(0x1F600, 0x1F650)]
CJK = [chr(c) for c in range(0x4E00, 0x9E00)]
MARKS = ["\u2019", "\u201C", "\u201D", "\u2014", "\u2026"]
GREEK = [chr(c) for c in range(0x3AC, 0x3CF)]
KOREAN = [chr(c) for c in range(0xAC00, 0xD7A4)]
THAI = [chr(c) for c in range(0xE01, 0xE3A)]
ARMENIAN = [chr(c) for c in (*range(0x561, 0x587), 0xFB13)]


def words(letters, length):
    """Returns words of seven letters, the same ones on each run."""
    return "".join(letters[k * k * 7 % 31] if k % 8 else " " for k in range(length))


ELEMENTS = [
    f"<{tag}>{words(letters, length)}</{tag}>\n"
    for tag in ("p", "li", "td")
    for letters in (LETTERS * 2, CYRILLIC, CJK)
    for length in range(20, 60)
]
OBJECTS = [
    f'  {{"id": {length * 7919}, "title": "{words(LETTERS * 2, length)}", "summary": "{words(letters, 2 * length)}"}},\n'
    for letters in (LETTERS * 2, LETTERS * 2, LETTERS * 2, BEYOND * 2, CJK)
    for length in range(10, 60)
]
LINES_OF_CODE = [
    f"{' ' * (4 * (length % 4))}{first}{words(letters, length)}{last}\n"
    for first, letters, last in (("return", LETTERS * 2, ");"), ("if (", LETTERS * 2, " == 12) {"), ("//", BEYOND * 2, ""))
    for length in range(10, 50)
]
LOGS = [
    f"{words(LETTERS * 2, length)}{words(letters, 16)[1 : 2 + length % 6]}\n"
    for letters in (BEYOND * 2, CYRILLIC, CJK, EMOJI)
    for length in range(50, 1000, 19)
]
MESSAGES = [
    "".join(CJK[(length * 613 + k * 7919) % len(CJK)] for k in range(length)) + mark + emoji
    for length, emoji in zip([*range(15, 26)] * 7, EMOJI)
    for mark in "!?.~"
]
# ASCII with one other character in 2,000 bytes, and with one in 48 to 94.
RARE = [words(LETTERS * 2, 1998) + letter for letter in BEYOND]
ACCENTS = [words(LETTERS * 2, length - 2) + letter for length in range(48, 95) for letter in BEYOND]

# Each kind as groups of characters, words or elements, and how often a group is chosen.
KINDS = {
    "ASCII": [(LETTERS, 1)],
    "Latin": [(LETTERS, 19), (BEYOND, 1)],
    "Cyrillic": [([" "], 1), (CYRILLIC, 6)],
    "CJK": [(CJK, 1)],
    "emoji": [(LETTERS, 3), (EMOJI, 1)],
    "prose": [(LETTERS, 41), ([" "], 8), (MARKS, 1)],
    "CJK+ASCII": [(CJK, 57), (["\n", "2026", "word"], 3)],
    "HTML": [(ELEMENTS, 1)],
    "JSON": [(OBJECTS, 1)],
    "code": [(LINES_OF_CODE, 1)],
    "logs": [(LOGS, 1)],
    "Greek": [(GREEK, 45), ([" "], 9), ([", ", ".\n"], 1)],
    "Korean": [(KOREAN, 45), ([" "], 9), ([", ", ".\n"], 1)],
    "tenth": [(LETTERS, 9), (BEYOND, 1)],
    "Thai": [(THAI, 45), ([" "], 4)],
    "Armenian": [(ARMENIAN, 1)],
    "messages": [(MESSAGES, 1)],
    "accents": [(ACCENTS, 1)],
    "rare": [(RARE, 1)],
}

# A kind with one malformed byte in a hundred, and the kind.
BROKEN = {"broken": "Latin", "broken-ASCII": "ASCII"}


def text_of(groups):
    """Returns a MiB of text: no character is cut at its end."""
    lists, weights = zip(*groups)
    chosen = random.choices(lists, weights, k=MIB // len(min(lists[0], key=len)))
    text = "".join(random.choice(characters) for characters in chosen)
    return text.encode()[:MIB].decode(errors="ignore").encode()


def broken(text):
    """Returns the text with one malformed byte in a hundred."""
    text = bytearray(text)
    for _ in range(len(text) // 100):
        text[random.randrange(len(text))] = 0xFF
    return bytes(text)


def main():
    kind, count = sys.argv[1], int(sys.argv[2])
    random.seed(20)
    if kind == "random":
        for _ in range(count):
            sys.stdout.buffer.write(random.randbytes(MIB))
        return
    text = broken(text_of(KINDS[BROKEN[kind]])) if kind in BROKEN else text_of(KINDS[kind])
    for _ in range(count):
        sys.stdout.buffer.write(text)


main()
