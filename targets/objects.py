"""Checks of a compiled object: the symbols that it asks for, its frames, and on M-profile that there is no floating point in it."""
import re

from compiler import run
from refused import Refused

ARM_OBJDUMP = "arm-none-eabi-objdump"


def symbols(path):
    """Names that are asked for from outside, and names that are handed out."""
    needed, given = set(), set()
    for line in run(["readelf", "-sW", path]).splitlines():
        words = line.split()
        if len(words) == 8 and words[4] in ("GLOBAL", "WEAK"):
            (needed if words[6] == "UND" else given).add(words[7])
    return needed, given


def check_symbols(path, machine, calls):
    needed, given = symbols(path)
    if needed != set(machine.needs):
        raise Refused(f"symbols: {machine.name} asks for {' '.join(sorted(needed))}, not for {' '.join(machine.needs)}")
    if given != set(calls):
        raise Refused(f"symbols: {machine.name} hands out {' '.join(sorted(given))}")


def frames(path):
    """Of each function its bytes of stack and how they are known, as -fstack-usage has them."""
    found = [line.split("\t") for line in path.read_text().splitlines()]
    return {place.split(":", 1)[1]: (int(size), kind) for place, size, kind in found}


def check_frames(path):
    """The number of functions."""
    found = frames(path)
    for name, (_, kind) in found.items():
        if kind != "static":
            raise Refused(f"frames: that of {name} has no fixed size ({kind})")
    if not found:
        raise Refused("frames: none")
    return len(found)


def check_no_floating_point(path):
    """Neither the object's attributes nor any instruction of it know of a floating-point unit."""
    attributes = run(["readelf", "-A", path])
    for name in ("Tag_FP_arch", "Tag_ABI_VFP_args", "Tag_Advanced_SIMD_arch", "Tag_ABI_HardFP_use"):
        if name in attributes:
            raise Refused(f"floating point: the object has {name}")
    listing = run([ARM_OBJDUMP, "-d", "--no-show-raw-insn", path])
    found = re.search(r"^ +[0-9a-f]+:\t(v\w\S*.*)$", listing, flags=re.MULTILINE)
    if found:
        raise Refused(f"floating point: {found.group(1)}")
