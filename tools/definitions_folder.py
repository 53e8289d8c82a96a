"""All definitions of the crates in one folder: with the structs and enums that they speak of, without functions and proofs, and every row a theorem by
computation. For tools/pins."""
import functools
import pathlib
import re
import shutil

ROOT = pathlib.Path(__file__).resolve().parent.parent
# crates of rows; every row is a field of a record
ROWS = ["examples", "scripted"]
# files of rows that take longer: asked only where the others refuse nothing
LATER = ["CallRows", "CycleRows", "EstimateRows", "EventRows", "PreviewRows", "RestRows", "StandbyRows"]
STAGES = ["first", "later"]
# what the bench program's shell promises: no definition of it computes
WITHOUT = ["bench", "bench_filter"]

PRELUDE = "Rattle.std.specs.Prelude"
SAME_LISTS = "Rattle.pinned.specs.SameLists"
SAME_LISTS_TEXT = """use Rattle.std.specs.Prelude.{Bool, true, false, ◌&&◌, List, [], ◌∷◌, ℕ, eqb, ℤ}
use Rattle.std.specs.Int.Signed.{le_z}

abbrev pub same : {A : Type 0} → (A → A → Bool) → List A → List A → Bool
same test [] [] = true
same test [] (y ∷ ys) = false
same test (x ∷ xs) [] = false
same test (x ∷ xs) (y ∷ ys) = test x y && same test xs ys

abbrev pub numbers : List ℕ → List ℕ → Bool
numbers xs ys = same eqb xs ys

abbrev pub integers : List ℤ → List ℤ → Bool
integers xs ys = same (λ x y. le_z x y && le_z y x) xs ys
"""


@functools.lru_cache(maxsize=None)
def crates():
    """The crates with definitions, those below first."""
    names = [re.split("[ :]", line)[0] for line in (ROOT / "crates.txt").read_text().splitlines() if line and not line.startswith("#")]
    return [name for name in names if name not in WITHOUT and (ROOT / "crates" / name / "specs").is_dir()]


def types_of(source):
    """The structs, enums and types of a file of code."""
    return [m.group(0) for m in re.finditer(r"^(?:pub )?(?:struct|enum) \w+ \{.*?^\}\n|^pub type [^\n]*;\n", source, re.S | re.M)]


def imports(source):
    """What a file of code imports: a path and a name."""
    for path, several, name in re.findall(r"^use ([\w:]+)::(?:\{([^}]*)\}|(\w+));", source, re.M):
        yield from ((path, one) for one in re.findall(r"\w+", several or name))


def named_in(body, crate, source):
    """The items that a file's types name: types of other files, and constants."""
    items = []
    for path, name in imports(source):
        if re.match(r"[A-Z][a-z]\w*$", name) and re.search(rf"\b{name}\b", body):
            path = crate + "::" + path[len("crate::"):] if path.startswith("crate::") else path
            items.append(f"use crate::{path}::{name};\n")
    for name in sorted(set(re.findall(r"\b[A-Z][A-Z_]+\b", re.sub(r"//[^\n]*", "", body)))):
        items += re.findall(rf"^(?:pub )?const {name}: [^\n]*;\n", source, re.M)
    return items


def lay_types(crate, folder):
    """A module for each file of a crate that has a type; the types of its lib.rt stand in the crate's own module."""
    files, own = [], ""
    for source in sorted((ROOT / "crates" / crate / "src").glob("*.rt")):
        text = source.read_text()
        body = "".join(types_of(text))
        if body and source.stem == "lib":
            own = "".join(named_in(body, crate, text)) + body
        elif body and source.stem != "main":
            (folder / "src" / crate).mkdir(exist_ok=True)
            (folder / "src" / crate / source.name).write_text("".join(named_in(body, crate, text)) + body)
            files.append(source.stem)
    if files or own:
        (folder / "src" / f"{crate}.rt").write_text("".join(f"pub mod {name};\n" for name in files) + own)
    return bool(files or own)


def renamed(match):
    """A module of a crate, in the one folder."""
    crate, module = match.group(1), match.group(2)
    if crate not in crates():
        return match.group(0)
    if module.startswith("declared."):
        return f"Rattle.pinned.specs.declared.{crate}.{module[len('declared.'):]}"
    return f"Rattle.pinned.specs.{crate}.{module}"


def laid(text):
    """A file of definitions in the one folder, where every definition computes."""
    text = re.sub(r"Rattle\.(\w+)\.specs\.(\S+)", renamed, text)
    text = re.sub(r"^unfoldable pub use ", "pub use ", text, flags=re.M)
    return re.sub(r"^unfoldable ", "abbrev ", text, flags=re.M)


def as_theorems(text, wanted):
    """The rows of a file, each a theorem of its own where they are wanted; none of a file that only joins the rows of others."""
    found = re.search(r"^pub record \w+ : Type 0 where\n(.*≡.*)\Z", text, re.S | re.M)
    if not found:
        return text if "abbrev" in text else ""
    if not wanted:
        return text[: found.start()]
    rows = re.findall(r"^  pub ([^\s:]+) : (.*?)(?=^  (?:pub|--)|\Z)", found.group(1), re.S | re.M)
    theorems = "\n".join(f"row_{name} : {by_test(claim.strip())}\nrow_{name} = refl\n" for name, claim in rows)
    imports = f"use {PRELUDE}.{{refl}}\nuse {PRELUDE} as Answer\nuse {SAME_LISTS} as Lists\nuse "
    return re.sub(r"^use ", imports, text[: found.start()], count=1, flags=re.M) + theorems


def by_test(claim):
    """A row whose answer is a list, as a test: that two long lists differ is found at once, and is not printed."""
    asked, answer = re.split(r"\s+≡ ", claim, maxsplit=1)
    if answer.startswith("record") or not re.search(r"∷|^\[\]$|^\w+_(?:numbers|output|saved)$", answer):
        return claim
    kind = "integers" if re.search(r"pos|negsuc", answer) else "numbers"
    return f"Lists.{kind} ({asked}) ({answer}) ≡ Answer.true"


def lay(folder, stage):
    """All definitions, their types and the rows of a stage."""
    shutil.rmtree(folder, ignore_errors=True)
    (folder / "src").mkdir(parents=True)
    (folder / "specs").mkdir()
    names = crates()
    (folder / "src" / "lib.rt").write_text("".join(f"pub mod {name};\n" for name in names if lay_types(name, folder)))
    for name in names:
        (folder / "specs" / name).mkdir()
        files = [f for f in sorted((ROOT / "crates" / name / "specs").glob("*.antt")) if f.stem != "Lib"]
        for file in files:
            text = laid(file.read_text())
            (folder / "specs" / name / file.name).write_text(as_theorems(text, (file.stem in LATER) == (stage == "later")) if name in ROWS else text)
        (folder / "specs" / f"{name}.antt").write_text("".join(f"pub mod {f.stem}\n" for f in files))
    (folder / "specs" / "SameLists.antt").write_text(SAME_LISTS_TEXT)
    (folder / "specs" / "Lib.antt").write_text("".join(f"pub mod {name}\n" for name in names + ["SameLists"]))


def has_type(folder, path, name):
    """Whether a type is laid at a crate, or at a module of one."""
    file = (folder / "src").joinpath(*path).with_suffix(".rt")
    return file.is_file() and re.search(rf"\b(?:struct|enum|type) {name}\b", file.read_text()) is not None


def unlaid(folder):
    """The types that the laid files speak of and that are not laid."""
    asked = set()
    for file in (folder / "specs").rglob("*.antt"):
        for place in re.findall(r"Rattle\.pinned\.specs\.declared\.([\w.]*\w)", file.read_text()):
            *path, name = [part for part in place.split(".") if part != "TheVariants"]
            asked.add((tuple(path), name))
    for file in (folder / "src").rglob("*.rt"):
        asked.update((tuple(path.split("::")), name) for path, name in re.findall(r"^use crate::([\w:]+)::(\w+);", file.read_text(), re.M))
    return sorted("::".join((*path, name)) for path, name in asked if not has_type(folder, path, name))
