"""The text of a module for another target: its layout, triple and function attributes are those that clang gives a C function there, and where a
size_t has 32 bits each export takes lengths of 32 bits and widens them."""
import re

from grammar import FUNCTION_WORDS, LAYOUT
from refused import Refused

EMPTY = "void empty(void) {}\n"
X86_LAYOUT = f'target datalayout = "{LAYOUT}"'
X86_TRIPLE = 'target triple = "x86_64-unknown-linux-gnu"'
WORDS = ("target-cpu", "target-features", "use-soft-float")


def one_line(pattern, text):
    found = re.findall(pattern, text, flags=re.MULTILINE)
    if len(found) != 1:
        raise Refused(f"retarget: {len(found)} lines for {pattern}")
    return found[0]


def attributes_of(text):
    """Of the one function of a compiled C file, those that choose its instructions."""
    line = one_line(r"^attributes #0 = .*$", text)
    words = dict(re.findall(r'"([\w-]+)"="([^"]*)"', line))
    return "{ nounwind " + " ".join(f'"{name}"="{words[name]}"' for name in WORDS if name in words) + " }"


def replaced(text, old, new):
    if text.count(old) != 1:
        raise Refused(f"retarget: `{old}` is there {text.count(old)} times")
    return text.replace(old, new)


def widening(function, length):
    """An export with lengths of a size_t, which calls the one with lengths of 64 bits."""
    widened = [index for index, kind in enumerate(function.types()) if kind == "i64"]
    given = [f"{length if kind == 'i64' else kind} noundef %a{i}" for i, kind in enumerate(function.types())]
    handed = [f"{kind} %{'w' if i in widened else 'a'}{i}" for i, kind in enumerate(function.types())]
    lines = [f"define noundef {function.answer} @{function.name}({', '.join(given)}) #0 {{", "start:"]
    lines += [f"  %w{i} = zext {length} %a{i} to i64" for i in widened]
    lines += [f'  %number = call {function.answer} @"widened::{function.name}"({", ".join(handed)})', f"  ret {function.answer} %number", "}", ""]
    return "\n".join(lines)


def with_lengths(text, functions, length):
    if length == "i64":
        return text
    added = []
    for function in (one for one in functions if one.exported):
        old = f"define noundef {function.answer} @{function.name}("
        text = replaced(text, old, f'define internal noundef {function.answer} @"widened::{function.name}"(')
        if f"@{function.name}(" in text:
            raise Refused(f"retarget: {function.name} is called inside the module")
        added.append(widening(function, length))
    return text + "\n" + "\n".join(added)


def retargeted(text, functions, length, empty):
    """The text for a target whose empty C function compiled to the text `empty`."""
    text = replaced(text, X86_LAYOUT, one_line(r"^target datalayout = .*$", empty))
    text = replaced(text, X86_TRIPLE, one_line(r"^target triple = .*$", empty))
    text = replaced(text, f"attributes #0 = {FUNCTION_WORDS}", f"attributes #0 = {attributes_of(empty)}")
    return with_lengths(text, functions, length)
