"""Reads UTF-8 and writes it with U+FFFD for each malformed sequence, a MiB at a time: what bench/filters compares with."""
import codecs
import sys

decoder = codecs.getincrementaldecoder("utf-8")("replace")
while chunk := sys.stdin.buffer.read(1 << 20):
    sys.stdout.buffer.write(decoder.decode(chunk).encode())
sys.stdout.buffer.write(decoder.decode(b"", final=True).encode())
