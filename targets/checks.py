"""What is asked of the kept module before it is compiled for another target."""
import pathlib
import tempfile

from compiler import compiled_as_recorded, member
from exports import check_exports
from grammar import check_grammar
from module_text import functions_of
from pointers import check_pointers
from refused import Refused


def check_same_object(module, arguments, archive):
    """The module, or its text, compiled as recorded is the archive's object byte for byte."""
    with tempfile.TemporaryDirectory() as folder:
        made = compiled_as_recorded(module, arguments, pathlib.Path(folder))
    if made != member(archive):
        raise Refused(f"same object: {module.name} compiled as recorded is not the object of {archive.name}")


def check_text(text, header):
    """The functions of a text that passes, and what was counted."""
    lines = check_grammar(text)
    functions = functions_of(text)
    exports = check_exports(functions, header)
    classes, with_pointers = check_pointers(functions)
    return functions, (
        f"{lines:,} lines in {len(functions)} functions are of the grammar, {exports} exports as in gauge.h, "
        f"{classes:,} classes of memory, {with_pointers} of them with pointers and none with both"
    )
