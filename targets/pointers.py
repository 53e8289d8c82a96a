"""No memory that holds a pointer is ever accessed as a number, over the whole module.

A pointer has 8 bytes on x86-64 and 4 on a Cortex-M. A number read from its bytes, or a pointer read from a number's, would be another one there.
Every load, store, copy and call says which memory is one with which other; what comes out are classes of memory, each accessed as pointers or as
numbers and never as both. Buffers from outside hold no pointer.
"""
import re

from memory import POINTER_BYTES, Memory
from refused import Refused

BYTES = {"i8": 1, "i16": 2, "i32": 4, "i64": 8}
SHAPES = {
    "load": re.compile(r"(%\w+) = load (\w+), ptr (%\w+),.*"),
    "store": re.compile(r"store (\w+) (\S+), ptr (%\w+),.*"),
    "step": re.compile(r"(%\w+) = getelementptr.* i8, ptr (%\w+), i64 (\S+)"),
    "copy": re.compile(r"call void @llvm\.memmove\S*\(ptr (%\w+), ptr (%\w+), i64 (\d+), .*"),
    "fill": re.compile(r"call void @llvm\.memset\S*\(ptr (%\w+), i8 \d+, i64 (\d+), .*"),
    "call": re.compile(r'(?:%\w+ = )?call (\w+) @"?([\w:]+)"?\((.*)\)'),
}


class Walk:
    """The instructions of all functions, as facts about memory."""

    def __init__(self, functions):
        self.functions = {one.name: one for one in functions}
        self.memory = Memory()
        self.locals = {}
        self.copies = []  # of a place, the bytes copied from there, and the line
        for function in functions:
            for line, text in function.lines:
                self.instruction(function.name, line, text)

    def place(self, function, local):
        key = (function, local)
        if key not in self.locals:
            self.locals[key] = self.memory.new()
        return self.locals[key]

    def instruction(self, function, line, text):
        for kind, shape in SHAPES.items():
            found = shape.fullmatch(text)
            if found:
                getattr(self, kind)(function, line, *found.groups())
                return

    def access(self, place, kind, line, length=None):
        cell = self.memory.cell(place)
        if kind == "ptr":
            cell.pointer_line = cell.pointer_line or line
        else:
            cell.number_line = cell.number_line or line
            cell.number_bytes = max(cell.number_bytes, length or BYTES[kind])

    def load(self, function, line, result, kind, where):
        place = self.place(function, where)
        self.access(place, kind, line)
        if kind == "ptr":
            self.memory.join(self.place(function, result), self.memory.target(place))

    def store(self, function, line, kind, value, where):
        place = self.place(function, where)
        self.access(place, kind, line)
        if kind == "ptr":
            self.memory.join(self.place(function, value), self.memory.target(place))

    def step(self, function, _, result, base, distance):
        one, at = self.place(function, base)
        if re.fullmatch(r"-?\d+", distance):
            self.memory.join(self.place(function, result), (one, at + int(distance)))
        else:
            self.memory.join(self.place(function, result), (one, at))
            self.memory.index((one, at))

    def copy(self, function, line, to, source, length):
        first, second = self.place(function, to), self.place(function, source)
        self.memory.join(first, second)
        self.copies.append((first, int(length), line))

    def fill(self, function, line, where, length):
        self.access(self.place(function, where), "i8", line, int(length))

    def call(self, function, line, answer, name, text):
        if name.startswith("llvm"):
            return
        called = self.functions[name]
        arguments = [tuple(part.split()) for part in text.split(", ") if part]
        if answer != called.answer or [kind for kind, _ in arguments] != called.types():
            raise Refused(f"pointers: line {line} calls {name} with other types than it has")
        for (kind, value), (_, parameter) in zip(arguments, called.parameters):
            if kind == "ptr":
                self.memory.join(self.place(function, value), self.place(name, parameter))


def overlaps(start, length, other, other_length):
    return start < other + other_length and other < start + length


def check_cells(cells):
    """Of one object whose places are known."""
    pointers = {place: cell.pointer_line for place, cell in cells.items() if cell.pointer_line}
    for place, line in pointers.items():
        for other, cell in cells.items():
            if cell.number_line and overlaps(place, POINTER_BYTES, other, cell.number_bytes):
                raise Refused(f"pointers: a pointer by line {line} is accessed as a number in line {cell.number_line}")
            if other in pointers and other != place and overlaps(place, POINTER_BYTES, other, POINTER_BYTES):
                raise Refused(f"pointers: a pointer by line {line} is accessed in part in line {pointers[other]}")


def check_indexed(cells):
    """Of an object in which places are not known: it is all of one kind."""
    for cell in cells.values():
        if cell.pointer_line and cell.number_line:
            raise Refused(f"pointers: memory with a pointer by line {cell.pointer_line} is accessed as a number in line {cell.number_line}")


def check_copy(memory, place, length, line):
    """A copy takes each pointer whole."""
    one, start = memory.found(place)
    for at, cell in memory.cells[one].items():
        if not cell.pointer_line:
            continue
        inside = start is not None and start <= at and at + POINTER_BYTES <= start + length
        if not inside and (start is None or overlaps(start, length, at, POINTER_BYTES)):
            raise Refused(f"pointers: line {line} copies a part of a pointer")


def check_outside(walk):
    for function in walk.functions.values():
        for kind, name in function.parameters if function.exported else []:
            if kind != "ptr":
                continue
            one, _ = walk.memory.found(walk.place(function.name, name))
            lines = [cell.pointer_line for cell in walk.memory.cells[one].values() if cell.pointer_line]
            if lines:
                raise Refused(f"pointers: {name} of {function.name} holds a pointer in line {lines[0]}")


def check_pointers(functions):
    """The number of classes of memory, and of those that hold pointers."""
    walk = Walk(functions)
    memory, classes = walk.memory, []
    for one in memory.objects():
        check_indexed(memory.cells[one]) if memory.indexed[one] else check_cells(memory.cells[one])
        classes += memory.cells[one].values()
    for place, length, line in walk.copies:
        check_copy(memory, place, length, line)
    check_outside(walk)
    used = [cell for cell in classes if cell.pointer_line or cell.number_line]
    return len(used), sum(1 for cell in used if cell.pointer_line)
