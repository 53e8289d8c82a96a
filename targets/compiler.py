"""The kit's clang: a module as text, a module compiled as it was for x86-64, a text compiled for a target."""
import functools
import pathlib
import shutil
import subprocess

from refused import Refused
from retarget import EMPTY

COMMON = (
    "-O3 -ffunction-sections -fdata-sections -mllvm -trap-unreachable -mllvm -no-trap-after-noreturn --no-default-config -Werror"
).split()
X86 = "x86_64-unknown-linux-gnu"


@functools.lru_cache(maxsize=None)
def toolchain():
    """The folder of the kit's own clang and llvm-ar."""
    page = subprocess.run(["rt", "doc"], check=True, text=True, capture_output=True).stdout.strip()
    folder = pathlib.Path(page).parent / "toolchain" / "bin"
    if not (folder / "clang").exists():
        raise Refused(f"compiler: no clang in {folder}")
    return folder


def run(words, **more):
    done = subprocess.run([str(word) for word in words], text=True, capture_output=True, **more)
    if done.returncode:
        raise Refused(f"compiler: {' '.join(str(word) for word in words)}: {done.stderr.strip()}")
    return done.stdout


def text_of(module):
    """The module as text, unchanged."""
    as_text = "-S -emit-llvm -O0 -Xclang -disable-llvm-passes -o -".split()
    return run([toolchain() / "clang", f"--target={X86}", "-x", "ir", module, *as_text])


def compiled_as_recorded(module, arguments, folder):
    """The object that the recorded arguments make of a module or its text."""
    shutil.copy(module, folder / "module.bc")
    run([toolchain() / "clang", *arguments], cwd=folder)
    return (folder / "module.o").read_bytes()


def empty_function(machine):
    """What clang makes of a C function without a body for the target, as text."""
    words = [f"--target={machine.triple}", *machine.flags, *COMMON, "-S", "-emit-llvm", "-x", "c", "-", "-o", "-"]
    return run([toolchain() / "clang", *words], input=EMPTY)


def compile_for(machine, text, folder):
    """gauge.o and gauge.su, the frames, of the text."""
    (folder / "gauge.ll").write_text(text)
    words = [f"--target={machine.triple}", *machine.flags, *COMMON, "-fstack-usage", "-c", "-x", "ir", "gauge.ll", "-o", "gauge.o"]
    run([toolchain() / "clang", *words], cwd=folder)


def archive(folder, name, object_name):
    """An archive of one object, with no time or owner in it."""
    (folder / name).unlink(missing_ok=True)
    run([toolchain() / "llvm-ar", "rcsD", name, object_name], cwd=folder)


def member(path):
    """The bytes of the one object in an archive."""
    names = run([toolchain() / "llvm-ar", "t", path]).split()
    if len(names) != 1:
        raise Refused(f"compiler: {path} holds {names}")
    return subprocess.run([toolchain() / "llvm-ar", "p", path], check=True, capture_output=True).stdout
