"""Python's own mmap: `mapped.py run FILE` stores a record and then its length, each with a flush; `mapped.py check FILE` looks for both."""

import mmap
import os
import sys

SIZE, RECORD = 4096, b"x" * 100


def run(memory):
    memory[64:164] = RECORD
    memory.flush()
    memory[0:8] = len(RECORD).to_bytes(8, "little")
    memory.flush()
    print("1", flush=True)


def check(memory):
    length = int.from_bytes(memory[0:8], "little")
    whole = length in (0, len(RECORD)) and memory[64 : 64 + length] == RECORD[:length]
    if not whole or length == 0 and os.environ["PX86_ACK"] != "0":
        sys.exit(f"the length is {length}")


with open(sys.argv[2], "r+b") as file:
    {"run": run, "check": check}[sys.argv[1]](mmap.mmap(file.fileno(), SIZE))
