"""Repairs random bytes with the program, and compares its output with Python's: tests/cli/random_bytes.py PROGRAM MIB

Prints the program's status, "same" or the offset of the first difference, and whether its memory grew between the first
MiB and the last: by more than SLACK, the inaccuracy of the kernel's count."""
import codecs
import random
import subprocess
import sys
import threading

MIB = 1 << 20
SLACK = 512  # KiB


def chunks(count):
    """Yields `count` MiB of random bytes, the same ones each time."""
    source = random.Random(20)
    for _ in range(count):
        yield source.randbytes(MIB)


def most_memory(process):
    """Returns the peak memory of a process, in KiB."""
    with open(f"/proc/{process.pid}/status") as lines:
        return next(int(line.split()[1]) for line in lines if line.startswith("VmHWM:"))


def feed(process, count, memory):
    """Writes the input to the program, and appends its peak memory after each chunk."""
    try:
        for chunk in chunks(count):
            process.stdin.write(chunk)
            memory.append(most_memory(process))
        process.stdin.close()
    except BrokenPipeError:
        pass


def texts(count):
    """Yields Python's repair of the same bytes."""
    decoder = codecs.getincrementaldecoder("utf-8")("replace")
    for chunk in chunks(count):
        yield decoder.decode(chunk).encode()
    yield decoder.decode(b"", final=True).encode()


def first_difference(process, count):
    """Returns the offset of the first byte that differs, or None."""
    place = 0
    for text in texts(count):
        got = process.stdout.read(len(text))
        if got != text:
            return place + next((i for i, (a, b) in enumerate(zip(got, text)) if a != b), len(got))
        place += len(text)
    return place if process.stdout.read(1) else None


def main():
    program, count = sys.argv[1], int(sys.argv[2])
    process = subprocess.Popen([program], stdin=subprocess.PIPE, stdout=subprocess.PIPE)
    memory = []
    feeder = threading.Thread(target=feed, args=(process, count, memory))
    feeder.start()
    place = first_difference(process, count)
    process.stdout.close()
    feeder.join()
    status = process.wait()
    more = memory[-1] - memory[0]
    print(status, "same," if place is None else f"differs at {place},", "no" if more <= SLACK else f"{more} KiB", "more memory")


main()
