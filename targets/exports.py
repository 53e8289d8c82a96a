"""Holds what a module exports to include/gauge.h: the same names, the same parameters, integers and pointers alone."""
import re

from refused import Refused

NUMBERS = {"uint8_t": "i8", "uint16_t": "i16", "uint32_t": "i32", "int32_t": "i32", "size_t": "i64"}


def type_in_module(parameter, name):
    """Of one parameter as C declares it."""
    kind = parameter.rsplit(None, 1)[0].removeprefix("const ").strip() if "*" not in parameter else "*"
    if kind == "*":
        return "ptr"
    if kind not in NUMBERS:
        raise Refused(f"exports: {name} has a parameter that is no integer and no pointer: {parameter}")
    return NUMBERS[kind]


def declared(header):
    """The calls of the header: a name, and the types of its parameters in a module."""
    plain = re.sub(r"/\*.*?\*/", "", header, flags=re.DOTALL)
    calls = {}
    for answer, name, parameters in re.findall(r"^(\w+) (gauge_\w+)\(([^)]*)\);", plain, flags=re.MULTILINE):
        types = [type_in_module(" ".join(one.split()), name) for one in parameters.split(",")]
        calls[name] = (NUMBERS[answer], types)
    return calls


def check_exports(functions, header):
    """The number of exports."""
    expected = declared(header)
    exported = {one.name: (one.answer, one.types()) for one in functions if one.exported}
    for name in sorted(expected.keys() | exported.keys()):
        if name not in expected:
            raise Refused(f"exports: {name} is exported and gauge.h does not declare it")
        if expected[name] != exported.get(name):
            raise Refused(f"exports: {name} is {exported.get(name)} in the module and {expected[name]} in gauge.h")
    if not exported:
        raise Refused("exports: none")
    return len(exported)
