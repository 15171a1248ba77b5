#!/usr/bin/env python3
"""Sees that each lemma is proved once and cited somewhere: fails where two files state the same, up to the names of variables, or
where nothing cites what a file of lemmas proves. Says what is amiss, a line each, and then ends with 1.

The files of lemmas are crates/*/proofs/*.antt. Examples and vectors, which the check computes, are cited by nothing.
"""
import collections
import pathlib
import re
import sys

ROOT = pathlib.Path(__file__).resolve().parent.parent
WORD = r"[^\W\d][\w'-]*"
# What makes a statement a fact, and no function.
FACTS = ("≡", "≢", "≤", "<", "⊥", "Among", "Decides", "↔")
COMPUTED = ("Examples", "Vectors")
# What stands twice until a crate below both shows it, which proves all crates above it again.
KNOWN = [
    ["all_below_at of crates/ks_aes_cbc/proofs/Fields.antt", "below_at of crates/ks_totp/proofs/LetterLemmas.antt"],
    ["over_zeros of crates/ks_hmac/proofs/HmacLemmas.antt", "over_zeros of crates/ks_totp/proofs/HmacLemmas.antt"],
]
# What nothing cites any more, and goes with the next change of its crate for the same reason.
LEFT = []


def without_comments(path):
    return re.sub(r"--[^\n]*", "", path.read_text(encoding="utf-8"))


def statements(text):
    """The names that a file defines, each with its type."""
    item = r"^(?:(?:abbrev|unfoldable|pub) )*([^\s:(){}]+) *:\s((?:[^\n]*\n)(?:[ \t]+[^\n]*\n)*)"
    for name, said in re.findall(item, text, re.M):
        yield name, said


def without_names(said):
    """A statement with its variables numbered in their order."""
    numbers = {}
    for names in re.findall(rf"[({{] *((?:{WORD} +)*{WORD}) *:", said):
        for name in names.split():
            numbers.setdefault(name, f"${len(numbers)}")
    for name in re.findall(rf"λ *({WORD}) *\.", said):
        numbers.setdefault(name, f"${len(numbers)}")
    return " ".join(re.sub(WORD, lambda word: numbers.get(word[0], word[0]), said).split())


def twins(texts):
    """The statements that stand more than once, each with where."""
    homes = collections.defaultdict(list)
    for path, text in texts.items():
        for name, said in statements(text):
            if "→" in said and any(fact in said for fact in FACTS):
                homes[without_names(said)].append(f"{name} of {path.relative_to(ROOT)}")
    return sorted(found for found in homes.values() if len(found) > 1)


def uncited(texts, words):
    """The lemmas that nothing cites."""
    for path, text in texts.items():
        if any(word in path.name for word in COMPUTED):
            continue
        for name, _ in statements(text):
            outside = words[name] - {path}
            # Its own lines begin with its name.
            inside = re.sub(rf"^(?:(?:abbrev|unfoldable|pub) )*{re.escape(name)}(?= ?[:{{(]| [^\n]*=)", "", text, flags=re.M)
            if not outside and not re.search(rf"(?<![\w'.-]){re.escape(name)}(?![\w'-])", inside):
                yield f"{name} of {path.relative_to(ROOT)}"


def main():
    files = [path for kind in ("rt", "antt") for path in ROOT.glob(f"crates/*/[sp]*/**/*.{kind}")]
    words = collections.defaultdict(set)
    for path in files:
        for word in re.findall(r"[^\s(){}\[\],;.:]+", without_comments(path) if path.suffix == ".antt" else path.read_text(encoding="utf-8")):
            words[word].add(path)
    lemmas = {path: without_comments(path) for path in sorted(ROOT.glob("crates/*/proofs/*.antt")) if path.name != "Lib.antt"}
    faults = [f"proved twice: {', '.join(found)}" for found in twins(lemmas) if found not in KNOWN]
    faults += [f"cited by nothing: {found}" for found in sorted(uncited(lemmas, words)) if found not in LEFT]
    print("\n".join(faults) or f"lemmas: {sum(len(list(statements(text))) for text in lemmas.values())} stand once each, and are cited")
    return 1 if faults else 0


sys.exit(main())
