"""Wrong definitions, made from the right ones. For tools/pins."""
import re
import sys

from definitions_folder import PRELUDE, ROOT, ROWS, crates, laid

EDITS = ROOT / "tools" / "pins.edits"

TOKEN = re.compile(r"--[^\n]*|[(){};,]|[^\s(){};,]+")
NUMERAL = re.compile(r"0x[0-9A-Fa-f_]+$|[0-9][0-9_]*$")
OTHER = {
    "leb": ["ltb"], "ltb": ["leb"], "eqb": ["leb"], "le_z": ["lt_z"], "lt_z": ["le_z"], "min": ["max"], "max": ["min"], "+": ["-"], "-": ["+"],
    "*": ["+"], "/": ["%"], "%": ["/"], "&&": ["||"], "||": ["&&"], "true": ["false"], "false": ["true"], "not": [""], "+ℤ": ["-ℤ"], "-ℤ": ["+ℤ"],
}
HOME = {"le_z": "Rattle.std.specs.Int.Signed", "lt_z": "Rattle.std.specs.Int.Signed"}
IMPORTED = ["leb", "ltb", "le_z", "lt_z", "min", "max", "+", "-", "/", "%", "&&", "||", "true", "false", "+ℤ", "-ℤ"]


def definitions(text):
    """The definitions of a file that compute something, each by its name and where its clauses stand; a claim computes nothing."""
    text = re.sub(r"--[^\n]*", lambda comment: " " * len(comment.group(0)), text)
    for head in re.finditer(r"^(?:abbrev|unfoldable) (?:pub )?(\S+) (?:\{[^}]*\} )?: (.*)$", text, re.M):
        end = re.search(r"^(?:pub |abbrev |unfoldable |infix)", text[head.end():], re.M)
        stop = head.end() + end.start() if end else len(text)
        if re.search(r"Type \d\s*$", head.group(2)):
            continue
        starts = [m.start() + 1 + head.end() for m in re.finditer(r"\n(?=\S)", text[head.end():stop])]
        clauses = []
        for k, start in enumerate(starts):
            finish = starts[k + 1] if k + 1 < len(starts) else stop
            equals = re.search(r" =(?=\s)", text[start:finish])
            if equals:
                clauses.append((start + equals.end(), finish))
        yield head.group(1), clauses


def tokens(text, begin, end):
    """The tokens of a clause with their places, comments left out."""
    return [(m.group(0), begin + m.start(), begin + m.end()) for m in TOKEN.finditer(text[begin:end]) if not m.group(0).startswith("--")]


def argument(found, at):
    """Where the argument that begins at a token ends: a token, or all between parentheses and the fields that are taken of it."""
    if at >= len(found) or found[at][0] in ");},":
        return None
    depth = 0
    for k in range(at, len(found)):
        depth += {"(": 1, ")": -1, "{": 1, "}": -1}.get(found[k][0], 0)
        if depth == 0:
            of_it = k + 1 < len(found) and found[k + 1][0].startswith(".") and found[k + 1][1] == found[k][2]
            return k + 2 if of_it else k + 1
        if depth < 0:
            return None
    return None


def exchanged(text, one, two):
    """The text with two parts of it exchanged."""
    (a, b), (c, d) = one, two
    return text[:a] + text[c:d] + text[b:c] + text[a:b] + text[d:]


def trimmed(text, begin, end):
    """A part without the white space and comments around it."""
    part = text[begin:end]
    part = re.sub(r"(\s|--[^\n]*(?:\n|\Z))+\Z", "", part)
    lead = len(part) - len(part.lstrip())
    return begin + lead, begin + len(part)


def numerals(text, found):
    for token, begin, end in found:
        if NUMERAL.match(token):
            value = int(token.replace("_", ""), 0)
            for other in (value + 1, value - 1):
                if other >= 0:
                    yield text[:begin] + (hex(other) if token.startswith("0x") else str(other)) + text[end:]


def others(text, found):
    for at, (token, begin, end) in enumerate(found):
        if token == "eqb" and compares_with_zero(found, at):
            continue  # a natural number that is at most 0 is 0
        for other in OTHER.get(token, []):
            yield text[:begin] + other + text[end:]


def compares_with_zero(found, at):
    """Whether the second argument of a comparison is 0."""
    second = argument(found, at + 1)
    return second is not None and second < len(found) and found[second][0] in ("0", "none", "Refusal.none")


def arguments(text, found):
    """The arms of a choice and the arguments of a comparison, exchanged."""
    for at, (token, _, _) in enumerate(found):
        skip = {"cond": 1, "leb": 0, "ltb": 0, "le_z": 0, "lt_z": 0, "or_else": 0}.get(token)
        if skip is None:
            continue
        places, k = [], at + 1
        for _ in range(skip + 2):
            end = argument(found, k)
            if end is None:
                break
            places.append((found[k][1], found[end - 1][2]))
            k = end
        if len(places) == skip + 2:
            yield exchanged(text, places[skip], places[skip + 1])


def parts(found, begin, end, separator):
    """The places between separators at the depth of the first."""
    depth, first, out = 0, begin, []
    for token, start, stop in found:
        if begin <= start < end:
            if token in "({":
                depth += 1
            elif token in ")}":
                depth -= 1
            elif token == separator and depth == 0:
                out.append((first, start))
                first = stop
    out.append((first, end))
    return out


def fields(text, found):
    """Two fields of a record that is written out, exchanged."""
    for at, (token, _, _) in enumerate(found):
        if token == "record" and at + 1 < len(found) and found[at + 1][0] == "{":
            end = argument(found, at + 1)
            if end is None:
                continue
            values = []
            for begin, stop in parts(found[at + 2: end - 1], found[at + 1][2], found[end - 1][1], ";"):
                equals = re.search(r" =(?=\s)", re.sub(r"--[^\n]*", lambda m: " " * len(m.group(0)), text[begin:stop]))
                if equals:
                    values.append(trimmed(text, begin + equals.end(), stop))
            for one in range(len(values)):
                for two in range(one + 1, len(values)):
                    yield exchanged(text, values[one], values[two])


def entries(text, found, begin):
    """Two entries of a list, exchanged; of the register map, the addresses of two rows."""
    opened, lists = [begin], {}
    for token, start, stop in found:
        if token in "({":
            opened.append(stop)
        elif token in ")}":
            opened.pop()
        elif token in (";", "=", "++"):
            opened[-1] = stop
        elif token == "∷":
            lists.setdefault(opened[-1], []).append((start, stop))
    for first, marks in lists.items():
        edges = [trimmed(text, first, marks[0][0])]
        edges += [trimmed(text, marks[k][1], marks[k + 1][0]) for k in range(len(marks) - 1)]
        for one, two in zip(edges, edges[1:]):
            if text[one[0]:one[1]].startswith("row "):
                one, two = [(a + 4, a + 4 + len(text[a + 4:b].split()[0])) for a, b in (one, two)]
            yield exchanged(text, one, two)


def records():
    """The fields of each record and struct, with their types; a whole number of any width is one type."""
    out = {}
    sources = [(p.read_text(), r"^pub record (\w+)[^\n]*where\n((?:  [^\n]*\n)+)", r"^  pub (\w+) : (.*)$") for p in ROOT.glob("crates/*/specs/*.antt")]
    sources += [(p.read_text(), r"^(?:pub )?struct (\w+) \{\n(.*?)^\}", r"^    (?:pub )?(\w+): (.*),$") for p in ROOT.glob("crates/*/src/*.rt")]
    for text, whole, one in sources:
        for name, body in re.findall(whole, text, re.S | re.M):
            out.setdefault(name, {}).update({field: "ℕ" if re.match(r"[ui]\d+$|usize$", kind) else kind for field, kind in re.findall(one, body, re.M)})
    return out


def siblings(known, holders, field):
    """The fields that have the type of a field, in the records that have it and, where these are known, are among the holders."""
    named = [fields for name, fields in known.items() if field in fields and (not holders or name in holders)]
    return sorted({other for fields in named for other in fields if other != field and fields[other] == fields[field]})


def projections(text, found, known):
    """Another field of the same record, in `x.first.second` or, after a parenthesis, in `.first.second`."""
    for token, begin, _ in found:
        if "." not in token or token[0].isupper() or NUMERAL.match(token):
            continue
        names, at = token.split("."), begin
        for before, name in zip(["", *names], names):
            holders = {fields[before] for fields in known.values() if before in fields} if before and at > begin + len(names[0]) + 1 else set()
            for other in siblings(known, holders, name) if at > begin else []:
                yield text[:at] + other + text[at + len(name):]
            at += len(name) + 1


def imported(text):
    """The text with the names that a wrong definition needs among its `use` lines."""
    body = re.sub(r"^use .*$", "", re.sub(r"--[^\n]*", "", text), flags=re.M)
    for name in IMPORTED:
        spelled, home = name if name[0].isalpha() else f"◌{name}◌", HOME.get(name, PRELUDE)
        if re.search(rf"(?<![^\s(]){re.escape(name)}(?![^\s);])", body):
            if not re.search(rf"^use {re.escape(home)}\.\{{[^}}]*(?<![^\s,{{]){re.escape(spelled)}(?![^\s,}}])", text, re.M):
                text = re.sub(r"^use ", f"use {home}.{{{spelled}}}\nuse ", text, count=1, flags=re.M)
    return text


def wrong_in(text, known):
    """The name of each wrong definition of a file, and the file with it."""
    for definition, places in definitions(text):
        tried, makers = set(), []
        clauses = [trimmed(text, *place) for place in places]
        for begin, end in clauses:
            found = tokens(text, begin, end)
            makers += [numerals(text, found), others(text, found), arguments(text, found), fields(text, found)]
            makers += [entries(text, found, begin), projections(text, found, known)]
        makers.append(exchanged(text, one, two) for one, two in zip(clauses, clauses[1:]))
        for maker in makers:
            for changed in maker:
                if changed != text and changed not in tried:
                    tried.add(changed)
                    yield definition, changed


def difference(before, after):
    """What was changed: the lines that differ, one after the other."""
    a, b = before.splitlines(), after.splitlines()
    head = 0
    while head < min(len(a), len(b)) and a[head] == b[head]:
        head += 1
    tail = 0
    while tail < min(len(a), len(b)) - head and a[-1 - tail] == b[-1 - tail]:
        tail += 1
    squeeze = lambda lines: re.sub(r"\s+", " ", " ".join(re.sub(r"--.*", "", line) for line in lines)).strip()
    return f"{squeeze(a[head:len(a) - tail])} => {squeeze(b[head:len(b) - tail])}"


def edited(wanted):
    """The wrong definitions of tools/pins.edits."""
    for block in re.sub(r"^#.*\n", "", EDITS.read_text(), flags=re.M).strip().split("\n\n"):
        title, *lines = block.splitlines()
        (_, where), *changes = [line.split(": ", 1) for line in lines]
        crate, stem = where.split("/")
        text = (ROOT / "crates" / crate / "specs" / f"{stem}.antt").read_text()
        for (_, old), (_, new) in zip(changes[::2], changes[1::2]):
            if text.count(old) != 1:
                sys.exit(f"pins: {title}: its text stands {text.count(old)} times in {where}")
            text = text.replace(old, new)
        if not wanted or crate in wanted or where in wanted:
            yield f"{where} {title}", f"{where}.antt", laid(imported(text))


def wrong_definitions(wanted):
    """Each wrong definition: what tells it from all others, the file, and its text."""
    yield from edited(wanted)
    known = records()
    for crate in crates():
        if crate in ROWS:
            continue
        for file in sorted((ROOT / "crates" / crate / "specs").glob("*.antt")):
            if wanted and crate not in wanted and f"{crate}/{file.stem}" not in wanted:
                continue
            text = file.read_text()
            for name, changed in wrong_in(text, known):
                yield f"{crate}/{file.stem} {name}: {difference(text, changed)}", f"{crate}/{file.name}", laid(imported(changed))
