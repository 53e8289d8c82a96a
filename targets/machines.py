"""The targets beside x86-64: how each is compiled for, and what its archive may ask for from outside."""
import dataclasses


@dataclasses.dataclass(frozen=True)
class Machine:
    name: str
    triple: str
    flags: tuple
    length: str  # the type of a size_t
    needs: tuple  # symbols from outside, in order
    m_profile: bool


MACHINES = [
    Machine(
        name="aarch64",
        triple="aarch64-unknown-linux-gnu",
        flags=("-fPIC",),
        length="i64",
        needs=("memcpy",),
        m_profile=False,
    ),
    Machine(
        name="cortex-m4",
        triple="thumbv7em-none-eabi",
        flags=("-mcpu=cortex-m4", "-mfloat-abi=soft"),
        length="i32",
        needs=("__aeabi_memclr", "__aeabi_memclr4", "__aeabi_memcpy", "__aeabi_uldivmod"),
        m_profile=True,
    ),
    Machine(
        name="cortex-m0plus",
        triple="thumbv6m-none-eabi",
        flags=("-mcpu=cortex-m0plus", "-mfloat-abi=soft"),
        length="i32",
        needs=(
            "__aeabi_lmul",
            "__aeabi_memclr",
            "__aeabi_memclr4",
            "__aeabi_memcpy",
            "__aeabi_uidiv",
            "__aeabi_uldivmod",
            "__clzsi2",
        ),
        m_profile=True,
    ),
]


def machine_named(name):
    return next(machine for machine in MACHINES if machine.name == name)
