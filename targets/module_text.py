"""The functions of a module's text, which has passed the grammar: parameters, and instructions with their places."""
import dataclasses
import re

DEFINED = re.compile(r'define (internal )?(?:noundef )?(?:zeroext )?(\w+) @"?([\w:]+)"?\((.*)\) #0 \{')


@dataclasses.dataclass
class Function:
    name: str
    exported: bool
    answer: str
    parameters: list  # of pairs of a type and a name
    lines: list  # of pairs of a line number and an instruction

    def types(self):
        return [kind for kind, _ in self.parameters]


def parameters_of(text):
    words = [part.split() for part in text.split(", ") if part]
    return [(part[0], part[-1]) for part in words]


def functions_of(text):
    found, current = [], None
    for number, line in enumerate(text.splitlines(), 1):
        opened = DEFINED.fullmatch(line)
        if opened:
            internal, answer, name, parameters = opened.groups()
            current = Function(name, internal is None, answer, parameters_of(parameters), [])
            found.append(current)
        elif line.startswith("  ") and current:
            current.lines.append((number, line.strip()))
        elif line == "}":
            current = None
    return found
