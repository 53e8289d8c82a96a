#!/usr/bin/env python3
"""stack.py OBJDUMP PROGRAM FRAMES: the greatest stack of each call, in a program that is linked with the archive, as lines of a name and bytes.

A function's own bytes are those that the compiler wrote to FRAMES. Of a function of libgcc or the C library they are all that its instructions push or
take from the stack pointer anywhere, which is no less than what it has at once. Calls and jumps to another function are taken from the listing; what
a caller puts on the stack for its arguments is counted by performance/targets.
"""
import pathlib
import re
import subprocess
import sys

HEAD = re.compile(r"^[0-9a-f]+ <(.+)>:$")
GOES_TO = re.compile(r"\t(?:bl|b|b\.n|b\.w|blx|b\.[a-z]{2})\t[0-9a-f]+ <([^>]+)>")
WORDS = re.compile(r"\t(?:push|stmdb\tsp!,|push\.w|stmfd\tsp!,)\s*\{([^}]*)\}")
TAKEN = re.compile(r"\tsub(?:\.w|w|s)?\t(?:sp, )?sp, #(\d+)|\tsub\tsp, #(\d+)|\[sp, #-(\d+)\]!")
OTHER = re.compile(r"\t(?:add|sub|mov)\S*\tsp, (?!#)(?!sp, #)")


def functions_of(program, objdump):
    """The instructions of each function, by its name."""
    listing = subprocess.run([objdump, "-d", "--no-show-raw-insn", program], check=True, capture_output=True, text=True).stdout
    found, lines = {}, None
    for line in listing.splitlines():
        head = HEAD.match(line)
        if head:
            lines = found.setdefault(head.group(1), [])
        elif lines is not None:
            lines.append(line)
    return found


def registers(listed):
    """How many registers `r4-r7, lr` names."""
    count = 0
    for part in listed.split(","):
        first, _, last = part.strip().partition("-")
        count += int(last.strip()[1:]) - int(first[1:]) + 1 if last else 1
    return count


def pushed(name, lines):
    total = 0
    for line in lines:
        if OTHER.search(line):
            sys.exit(f"stack: {name} moves the stack pointer by a register")
        words, taken = WORDS.search(line), TAKEN.search(line)
        total += 4 * registers(words.group(1)) if words else 0
        total += int(next(one for one in taken.groups() if one)) if taken else 0
    return total


class Stack:
    def __init__(self, functions, frames):
        self.functions, self.frames = functions, frames

    def own(self, name):
        return self.frames[name] if name in self.frames else pushed(name, self.functions[name])

    def below(self, name):
        """The functions that one calls or goes on to. One by a table of addresses, as glibc's memcpy, has no name and is left out."""
        goes = {found.group(1) for line in self.functions[name] for found in [GOES_TO.search(line)] if found}
        return {one for one in goes if one in self.functions and one != name}

    def greatest(self, name, above=()):
        if name in above:
            sys.exit(f"stack: {name} calls itself")
        return self.own(name) + max((self.greatest(one, (*above, name)) for one in self.below(name)), default=0)


def frames_of(path):
    lines = [line.split("\t") for line in pathlib.Path(path).read_text().splitlines()]
    return {place.split(":", 1)[1]: int(size) for place, size, _ in lines}


def main():
    if len(sys.argv) != 4:
        sys.exit("stack: usage: stack.py OBJDUMP PROGRAM FRAMES")
    objdump, program, frames = sys.argv[1], sys.argv[2], frames_of(sys.argv[3])
    stack = Stack(functions_of(program, objdump), frames)
    for name in sorted(name for name in frames if name.startswith("gauge_")):
        print(name, stack.greatest(name))


main()
