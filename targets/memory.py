"""Memory of a module as objects that are found to be one: a union-find with distances, so that a place inside an object can be the start of
another. Each object has cells by their distance from its start; where the distance is not known, all cells of the object are one."""
import dataclasses

POINTER_BYTES = 8  # what the module keeps free for a pointer, on every target


@dataclasses.dataclass
class Cell:
    pointer_line: int = 0  # a line that accesses it as a pointer; 0: none
    number_line: int = 0
    number_bytes: int = 0
    target: tuple = None  # the place that the pointer in it points to


class Memory:
    def __init__(self):
        self.parent = []  # of each object: another and the distance of its start in that one
        self.cells = []  # of each object that is its own parent
        self.indexed = []  # the distance of an access in it is not known

    def new(self):
        """The start of a new object."""
        self.parent.append((len(self.parent), 0))
        self.cells.append({})
        self.indexed.append(False)
        return (len(self.parent) - 1, 0)

    def found(self, place):
        """The object that stands for this one, and the distance in it; None where the distance is not known."""
        one, distance = place
        while self.parent[one][0] != one:
            one, more = self.parent[one]
            distance += more
        return one, None if self.indexed[one] else distance

    def cell(self, place):
        one, distance = self.found(place)
        return self.cells[one].setdefault(distance, Cell())

    def target(self, place):
        """Where the pointer at a place points to."""
        cell = self.cell(place)
        if cell.target is None:
            cell.target = self.new()
        return cell.target

    def join(self, first, second):
        """Two places are one, and so is what the pointers there point to."""
        waiting = [(first, second)]
        while waiting:
            waiting += self.joined(*waiting.pop())

    def joined(self, first, second):
        """What is to be joined after these two."""
        (one, at), (other, at_other) = self.found(first), self.found(second)
        if one == other:
            return self.made_indexed(one) if at != at_other else []
        if at is None or at_other is None:
            more = self.made_indexed(one) + self.made_indexed(other)
            distance = 0
        else:
            more, distance = [], at - at_other
        self.parent[other] = (one, distance)
        for place, cell in self.cells[other].items():
            more += self.merged(one, None if place is None else place + distance, cell)
        self.cells[other] = {}
        return more

    def made_indexed(self, one):
        """All cells of an object become one."""
        if self.indexed[one]:
            return []
        self.indexed[one] = True
        cells, self.cells[one] = self.cells[one], {}
        return [pair for cell in cells.values() for pair in self.merged(one, None, cell)]

    def merged(self, one, place, cell):
        there = self.cells[one].setdefault(place, Cell())
        there.pointer_line = there.pointer_line or cell.pointer_line
        there.number_line = there.number_line or cell.number_line
        there.number_bytes = max(there.number_bytes, cell.number_bytes)
        if there.target is None:
            there.target = cell.target
            return []
        return [(there.target, cell.target)] if cell.target is not None else []

    def index(self, place):
        """An access at an unknown distance from this place."""
        for pair in self.made_indexed(self.found(place)[0]):
            self.join(*pair)

    def objects(self):
        return [one for one, (parent, _) in enumerate(self.parent) if parent == one]
