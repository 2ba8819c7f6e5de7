"""Respells this repository's own definitions and lemmas: words in snake case, facts and types in camel case.

Run once, at the top, right after the kit's own script. It renames what specs/ and proofs/ of a listed crate declare, where
it is declared and where a file imports it. Names that the tool makes, functions, fields and labels of src/, strings and
comments keep their spelling.
"""

import pathlib
import re
import sys

TOP = pathlib.Path(__file__).resolve().parent.parent
CRATES = [line.split(":")[0].split()[0] for line in (TOP / "crates.txt").read_text().splitlines() if ":" in line]
WORD = r"[^\s(){}\[\],;.:\"|]+"
KEBAB = re.compile(r"^[A-Za-z][A-Za-z0-9_']*(-[A-Za-z0-9_']+)+$")
INNER = re.compile(r"^\s+(?:(?:pub|abbrev|unfoldable)\s+)*(" + WORD + r") :\s")
HEAD = re.compile(r"^(?:(?:pub|abbrev|unfoldable|mutual)\s+)*(?:(data|record)\s+)?(" + WORD + r")\s*(?:\(|\{|:)")
FIELD = re.compile(r"^\s+(?:pub )?(" + WORD + r") :")
SKIP = re.compile(r"(--[^\n]*|//[^\n]*|\"(?:[^\"\\]|\\.)*\")")


# Guards-apart would fall together with the refusal of that name.
APART = {"Guards-apart": "GuardsStandApart"}


def new_name(name):
    if name in APART:
        return APART[name]
    if not KEBAB.match(name):
        return name
    if name[0].isupper():
        return "".join(part[0].upper() + part[1:] for part in name.split("-"))
    return name.replace("-", "_")


def module_of(path):
    """The dotted path of an antt file."""
    rel = path.relative_to(TOP / "crates").with_suffix("")
    return "Rattle." + ".".join(rel.parts)


def declared(path):
    """The names that a file declares, also within a module with parameters, and the fields of its records."""
    names, fields = set(), set()
    kind, depth = None, 0
    for line in path.read_text().splitlines():
        if not line.strip() or line.lstrip().startswith("--") or re.match(r"(pub )?(use|mod|open) ", line):
            continue
        indent = len(line) - len(line.lstrip())
        if kind and indent > depth:
            field = FIELD.match(line)
            if field:
                (fields if kind == "record" else names).add(field.group(1))
            continue
        kind = None
        head = HEAD.match(line.strip())
        if not head or re.search(r":\s*goal\.", line):
            continue
        if indent == 0 or head.group(1) or INNER.match(line):
            names.add(head.group(2))
        kind, depth = head.group(1), indent
    return names, fields


def files():
    for crate in CRATES:
        base = TOP / "crates" / crate
        for folder in ("specs", "proofs"):
            yield from sorted((base / folder).rglob("*.antt"))


NAMES, FIELDS = {}, set()
for path in files():
    names, fields = declared(path)
    NAMES[module_of(path)] = names
    FIELDS |= {f for f in fields if KEBAB.match(f)}

USE = re.compile(r"^(?:pub )?(?:ghost )?use ([^\s{;]+?)(?:\.\{([^}]*)\})?(?: as (" + WORD + r"))?;?[ \t]*$", re.M)


def table(text, own):
    """What each bare name of a file becomes, and the names of modules that it cites by an alias."""
    names = {n: new_name(n) for n in own if KEBAB.match(n)}
    modules = {}
    for module, items, alias in USE.findall(text):
        there = NAMES.get(module)
        if alias and there is not None:
            modules[alias] = there
        for item in re.split(r"[,\s]*,[,\s]*", items.strip().strip(",")) if items else []:
            said = item.split(" as ")
            name, local = said[0].strip(), said[-1].strip()
            if there is not None and name in there and KEBAB.match(name):
                names[name] = new_name(name)
            if there is not None and len(said) == 2 and KEBAB.match(local):
                names[local] = new_name(local)
    return names, modules


def respell(text, names, modules):
    out = []
    for part in SKIP.split(text):
        if SKIP.match(part):
            out.append(part)
            continue

        def turn(m):
            word, at = m.group(0), m.start()
            if at and part[at - 1] == ".":
                before = re.search(r"(" + WORD + r")\.$", part[:at])
                if before and before.group(1) in modules:
                    return new_name(word) if word in modules[before.group(1)] else word
                if word in FIELDS:
                    return new_name(word)
                return word
            after = part[m.end() :]
            if word in FIELDS and re.match(r" = | : ", after) and word not in names:
                return new_name(word)
            return names.get(word, word)

        out.append(re.sub(WORD, turn, part))
    return "".join(out)


def clashes():
    """Names of one file that would fall together."""
    bad = 0
    for path in files():
        text = path.read_text()
        names, _ = table(text, NAMES[module_of(path)])
        words = set(re.findall(WORD, re.sub(r"^use [^\n]*", " ", SKIP.sub(" ", text), flags=re.M)))
        for old, new in names.items():
            if new in words:
                print(f"{path.relative_to(TOP)}: {old} would fall together with {new}")
                bad += 1
    for path in sorted(TOP.glob("crates/*/src/*.rt")):
        text = path.read_text()
        names, _ = table(text, set())
        words = set(re.findall(r"[A-Za-z_][A-Za-z0-9_']*", SKIP.sub(" ", text)))
        for old, new in names.items():
            if new in words:
                # A function of src/ is no word of a clause, so the two may share a name.
                print(f"{path.relative_to(TOP)}: {old} is spelled as the function {new}")
    return bad


def edits(tables):
    for edit in sorted(TOP.glob("crates/*/must-fail/*.edit")):
        lines, target = [], None
        for line in edit.read_text().splitlines():
            key, _, text = line.partition(": ")
            if key == "file":
                target = edit.parent.parent / text.strip()
            elif key in ("old", "new") and target in tables:
                line = f"{key}: {respell(text, *tables[target])}"
            lines.append(line)
        edit.write_text("\n".join(lines) + "\n")


def main():
    if clashes():
        sys.exit(1)
    tables = {}
    for path in files():
        tables[path] = table(path.read_text(), NAMES[module_of(path)])
    for path in sorted(TOP.glob("crates/*/src/*.rt")):
        tables[path] = table(path.read_text(), set())
    if "--dry" in sys.argv:
        return
    for path, (names, modules) in tables.items():
        old = path.read_text()
        new = respell(old, names, modules)
        if new != old:
            path.write_text(new)
    edits(tables)


main()
