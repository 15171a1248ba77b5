#!/usr/bin/env python3
"""Makes docs/DEFINITIONS.md, the definitions in words, of the comments over them: `--write` writes the page. Without it sees that the
page is what would be written, and that each definition that a public contract cites has words. Says what is amiss, a line each, and
then ends with 1.

A comment covers the definitions behind it up to the next comment, and the one at the head of a file those before any other. It stands
on the page where a public contract cites one of these, or where it begins with `|`. The head of a file ends with `Source: ..`, unless
its definitions are the project's own. That of specs/Lib.antt is the title of the crate's section, and what is said below it.
"""
import itertools
import pathlib
import re
import sys

ROOT = pathlib.Path(__file__).resolve().parent.parent
CRATES = ROOT / "crates"
PAGE = ROOT / "docs" / "DEFINITIONS.md"
DEFINITION = r"(?:(?:abbrev|unfoldable) pub|pub (?:record|data)) (\S+?)[ :(]"
HEAD = """# Definitions

What is meant, in words: each definition that a public contract cites, and those of which the cited ones are made. The code is proved against the definitions, and they are what a reader has to believe. The crates stand lowest first, and each file behind those of its crate that it cites.

In a contract a text, an id or bytes are the list of their bytes, a key is its two lists of 16 bytes, and a number does not wrap. Behind a file stands the public standard that its definitions come from; where there is none, they are this project's own. What begins with `law:` is no definition but a statement about those above it, which is proved: nobody has to believe it. `tests/definitions.py --write` makes this page of the comments over the definitions.
"""


def crates():
    """The crates that have definitions, lowest first."""
    for name in re.findall(r"^(\w+).*:", (ROOT / "crates.txt").read_text(encoding="utf-8"), re.M):
        if (CRATES / name / "specs" / "Lib.antt").exists():
            yield name


def modules(file):
    """The files that a file of specs names, in its order, each before those that it names itself."""
    folder = file.parent if file.stem == "Lib" else file.with_suffix("")
    for name in re.findall(r"^pub mod (\w+)", file.read_text(encoding="utf-8"), re.M):
        yield folder / f"{name}.antt"
        yield from modules(folder / f"{name}.antt")


def in_order(crate):
    """The files of a crate's specs, each behind those that it cites."""
    specs = CRATES / crate / "specs"
    placed = []

    def place(file):
        if file in placed or not file.exists():
            return
        for cited_file in re.findall(rf"^use Rattle\.{crate}\.specs\.([\w.]+)\.\{{", file.read_text(encoding="utf-8"), re.M):
            place(specs / f"{cited_file.replace('.', '/')}.antt")
        placed.append(file)

    for file in modules(specs / "Lib.antt"):
        place(file)
    return placed


def items(text):
    """The lines at the edge of a file, of a module in it and of definitions that cite each other: no fields, and no bodies."""
    inside = ""
    for line in text.splitlines():
        if line[:1].strip():
            inside = next((kind for kind in ("module", "abbrev mutual") if line.startswith(kind)), "")
            yield line
        elif not line:
            yield line
        elif inside and line[2:3].strip():
            yield re.sub("^pub (?!record|data)", "abbrev pub ", line[2:]) if inside == "abbrev mutual" else line[2:]


def covers(file):
    """The comments of a file with the definitions that each covers, that of the head first."""
    found = [([], [])]
    was_comment = True
    for line in items(file.read_text(encoding="utf-8")):
        if line.startswith("--"):
            if not was_comment:
                found.append(([], []))
            found[-1][0].append(line.lstrip("- "))
        was_comment = line.startswith("--")
        name = re.match(DEFINITION, line)
        if name:
            found[-1][1].append(name[1].strip("◌"))
    return [(" ".join(lines), names) for lines, names in found]


def head_of(file):
    """What the head of a file says, and the public source of its definitions."""
    words, _, source = covers(file)[0][0].partition("Source: ")
    return words.strip(), source.rstrip(".")


def rows(file, cited_names):
    """The comments of a file that the page tells, with the definitions of each."""
    for place, (words, names) in enumerate(covers(file)):
        if names and (words.startswith("|") or cited_names & set(names)):
            yield (words if place else head_of(file)[0]).lstrip("| ").rstrip("."), names


def defined(path):
    """The public definitions of a file; an operator goes by what stands between its places."""
    text = path.read_text(encoding="utf-8")
    found = re.findall(r"^(?:abbrev |unfoldable )?pub (?:record |data )?(\S+?)[ :(]", text, re.M)
    # Those of a module with parameters stand two places in.
    found += re.findall(r"^  (?:abbrev |unfoldable )pub (\S+?)[ :(]", text, re.M)
    for block in re.findall(r"^abbrev mutual\n((?:  .*\n|\n)*)", text, re.M):
        found += re.findall(r"^  pub (\S+?)[ :(]", block, re.M)
    for block in re.findall(r"^pub data .*\n((?:  .*\n)*)", text, re.M):
        found += [name for names in re.findall(r"^  (\w[^:\n]*?) *:", block, re.M) for name in names.split()]
    return {name.strip("◌") for name in found}


def type_of(name, file):
    """The type of which this is a case, or else the definition itself."""
    text = (CRATES / file).read_text(encoding="utf-8") if (CRATES / file).exists() else ""
    for owner, cases in re.findall(r"^pub data (\w+).*\n((?:  .*\n)*)", text, re.M):
        if re.search(rf"^  (?:\w+ )*{re.escape(name)}\b[^:\n]*:", cases, re.M):
            return owner
    return name


def contracts(text):
    """The contracts of public functions and of methods of traits, a text each."""
    for match in re.finditer(r"^(?:    )?(pub )?fn [^\n]*", text, re.M):
        rest = text[match.start():]
        end = re.search(r"\n(?:    )?\{\n|\n(?:    )?\{\}|;\n\n|;\n\}", rest)
        head = rest[: end.start() if end else len(rest)]
        before = text[: match.start()]
        is_trait = not match[1] and re.search(r"^pub trait [^\n]*\{(?:(?!^\}).)*\Z", before, re.M | re.S)
        if match[1] or is_trait:
            yield " ".join(re.findall(r"(?:ensures|requires)[^{\n]*\{([^\n]*)\}", head))


def cited():
    """The definitions that public contracts cite: the name and the file of each."""
    for source in sorted(ROOT.glob("crates/ks_*/src/**/*.rt")):
        text = source.read_text(encoding="utf-8")
        homes = {}
        for crate, module, names in re.findall(r"ghost use Rattle\.(ks_\w+)\.specs\.([\w.]+)\.\{([^}]*)\}", text):
            # What types are is read in the code, and steps are cited by private functions' contracts.
            if module.split(".")[0] in ("declared", "contracts", "steps"):
                continue
            for name in names.split(","):
                name, _, other = name.strip().partition(" as ")
                homes[(other or name).strip("◌")] = name.strip("◌"), f"{crate}/specs/{module.replace('.', '/')}.antt"
        for contract in contracts(text):
            words = set(re.findall(r"[^\s(){}\[\],;.]+", contract))
            for name in words & homes.keys():
                yield type_of(*homes[name]), homes[name][1]


def page(told):
    """The text of the page, where these are the definitions that public contracts cite, by their files."""
    parts = [HEAD]
    for crate in crates():
        title, _, below = head_of(CRATES / crate / "specs" / "Lib.antt")[0].partition(". ")
        section = []
        for file in in_order(crate):
            lines = [f"- {', '.join(f'`{name}`' for name in names)}: {words}\n" for words, names in rows(file, told.get(file, set()))]
            source = head_of(file)[1]
            place = file.relative_to(CRATES / crate / "specs")
            section += [f"### `{place}`{f': {source}' if source else ''}\n\n{''.join(lines)}"] if lines else []
        if section:
            named = title.rstrip(".")
            parts += [f"## `{crate}`{f': {named}' if named else ''}\n", *([f"{below}\n"] if below else []), *section]
    return "\n".join(parts)


def main():
    told, amiss = {}, []
    for name, file in cited():
        told.setdefault(CRATES / file, set()).add(name)
    for file in (file for crate in crates() for file in in_order(crate)):
        names = told.get(file, set())
        covered = {name for words, covered in rows(file, names) if words for name in covered}
        place = file.relative_to(ROOT)
        amiss += [f"{place}: no words for {name}, which a public contract cites" for name in sorted(names - covered)]
        amiss += [f"{place}: no definition behind: {words}" for words, behind in covers(file) if words.startswith("|") and not behind]
    text = page(told)
    if sys.argv[1:] == ["--write"]:
        PAGE.write_text(text, encoding="utf-8")
    elif text != PAGE.read_text(encoding="utf-8"):
        stands = PAGE.read_text(encoding="utf-8").splitlines()
        lines = itertools.zip_longest(stands, text.splitlines(), fillvalue="")
        number, line = next((number, line) for number, (old, line) in enumerate(lines, 1) if old != line)
        amiss.append(f"{PAGE.name}:{number}: `tests/definitions.py --write` writes: {line}")
    print(*amiss, sep="\n", end="\n" if amiss else "")
    return 1 if amiss else 0


if __name__ == "__main__":
    sys.exit(main())
