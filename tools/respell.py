#!/usr/bin/env python3
"""Brings the repository's own definitions, lemmas, fields and bound names of specs/ and proofs/ into snake case.

    tools/respell.py [--show]    run once at the top, on what the kit's port script left; --show lists what falls together

Rust names (functions, fields, variants, locals of src/), names of types and modules, strings and the names of goals stay.
A lemma whose name would become that of a definition gets `_lem`.
"""
import collections
import glob
import re
import sys

# Lemmas that would fall together with a definition, and a bound name that would hide one.
BY_HAND = {
    "days-from": "days_from_lem",
    "in-time": "in_time_lem",
    "is-claim": "is_claim_lem",
    "on-draft": "on_draft_lem",
    "stood-next": "stood_next_lem",
    "claim-of": "claim_at",
}
# The kit's script has turned this lemma already.
IN_FILE = {"crates/values/specs/PeriodSound.antt": {"index_below": "index_below_lem"}}

DECLARED = re.compile(
    r"^\s*(?:abbrev |unfoldable |pub |opaque )*(?:data |record )?([^\s:(){}]+)\s*(?:\([^)]*\)\s*|\{[^}]*\}\s*)*:\s", re.M
)
GOAL = re.compile(r"^(returns|loop-|invariant-|decreases-|overflow|bounds-|slice-bounds|offset-bounds)|-requires|^index-mut")
TOKEN = r"(?<![\w◌'.-])%s(?![\w◌'-])"
AFTER_DOT = r"(?<=\.)%s(?![\w◌'-])"
KEBAB = re.compile(r"(?<![\w.·◌'-])([a-z][\w']*(?:-[\w']+)+)(?![\w◌])")


def snake(name):
    if name in BY_HAND:
        return BY_HAND[name]
    return re.sub(r"(?<=[a-z0-9'_])([A-Z])", lambda m: "_" + m.group(1).lower(), name.replace("-", "_"))


def is_word(name):
    return re.match(r"^[a-z][\w'-]*$", name) and (re.search("[A-Z]", name) or "-" in name)


def proof_of_function(path):
    """Whether the file answers goals: a file two folders or more below proofs/."""
    return re.search(r"/proofs/.+/", path) is not None


def body_of(path):
    """The Rust names that the function whose goals the file answers is written with."""
    crate, rest = re.match(r"(crates/\w+)/proofs/(.*)/\w+\.antt$", path).groups()
    parts = rest.split("/")
    name = parts[-1].lstrip("+")
    mods = [x for x in parts[:-1] if x[0].islower()]
    tries = [f"{crate}/src/{'/'.join(mods)}.rt"] if mods else [f"{crate}/src/main.rt", f"{crate}/src/lib.rt"]
    names = set()
    for file in tries:
        try:
            s = open(file, encoding="utf-8").read()
        except FileNotFoundError:
            continue
        for m in re.finditer(r"\bfn %s\b.*?(?=^    \}$|^\}$)" % re.escape(name), s, re.M | re.S):
            code = "\n".join(l for l in m.group(0).split("\n") if not l.strip().startswith(("ensures", "requires", "//")))
            names |= set(re.findall(r"\b[a-zA-Z]+(?:_[a-zA-Z0-9]+)+\b", code))
    return names


MADE = {"in_ok", "in_err", "in_default", "in_loop", "slice_bounds", "offset_bounds", "index_mut", "invariant_of", "overflow_add", "overflow_sub", "overflow_mul", "overflow_cast", "overflow_step", "as_ref"}


def respelled(name, words):
    """A goal's name or that of a step: its parts are joined by dashes, and a part keeps its spelling in the source."""
    parts, out, i = name.split("-"), [], 0
    while i < len(parts):
        for n in range(len(parts) - i, 0, -1):
            word = "_".join(parts[i : i + n])
            if n == 1 or word in words or word in MADE:
                out.append(word)
                i += n
                break
    return "-".join(out)


def with_goals_respelled(path, s):
    words = body_of(path)
    s = re.sub(r"(?<=\b[cw]\.)([\w'-]*-[\w'-]*)", lambda m: respelled(m.group(1), words), s)
    s = re.sub(r"(?<=\bgoal\.)([\w'-]*-[\w'-]*)", lambda m: respelled(m.group(1), words), s)
    return re.sub(
        r"^((?:abbrev )?(?:pub )?)((?:returns|loop|invariant|decreases|overflow|bounds|slice|offset|index)[\w'-]*-[\w'-]*|[\w'-]*-requires[\w'-]*)",
        lambda m: m.group(1) + respelled(m.group(2), words), s, flags=re.M)


def main():
    show = "--show" in sys.argv
    antt = sorted(glob.glob("crates/*/specs/**/*.antt", recursive=True) + glob.glob("crates/*/proofs/**/*.antt", recursive=True))
    rust = sorted(glob.glob("crates/*/src/**/*.rt", recursive=True))
    text = {p: open(p, encoding="utf-8").read() for p in antt + rust}
    declared = collections.defaultdict(set)
    for p in antt:
        for m in DECLARED.finditer(text[p]):
            name = m.group(1)
            if is_word(name) and not (proof_of_function(p) and GOAL.search(name)):
                declared[name].add(p)
    names = {n: snake(n) for n in declared}
    together = collections.defaultdict(set)
    for old, new in names.items():
        together[new].add(old)
    for new, olds in together.items():
        if len(olds) > 1:
            print("falls together:", new, sorted(olds))
    if show:
        for p in antt:
            for new in sorted(set(names.values())):
                if re.search(TOKEN % re.escape(new), text[p]):
                    print("stands already:", p, new)
    for p in antt + rust:
        s = text[p]
        imported = {x.strip() for m in re.finditer(r"use Rattle\.std\S*?\.\{([^}]*)\}", s) for x in m.group(1).split(",")}
        words = dict(names)
        if p.endswith(".antt"):
            body = re.sub(r"--.*$", "", re.sub(r"^use .*$", "", s, flags=re.M), flags=re.M)
            for t in set(KEBAB.findall(body)):
                if t not in imported and not (proof_of_function(p) and GOAL.search(t)):
                    words.setdefault(t, snake(t))
        for old, new in IN_FILE.get(p, {}).items():
            s = re.sub(TOKEN % re.escape(old), new, s)
        found = set(re.findall(r"[a-z][\w'-]*", s))
        for old in sorted(words, key=len, reverse=True):
            if old in imported or old not in found:
                continue
            if p.endswith(".rt") and "-" in old:
                continue
            s = re.sub(TOKEN % re.escape(old), words[old], s)
            if old in names:
                s = re.sub(AFTER_DOT % re.escape(old), BY_HAND.get(old) and old.replace("-", "_") or words[old], s)
        if p.endswith(".antt") and proof_of_function(p):
            s = with_goals_respelled(p, s)
        if s != text[p] and not show:
            open(p, "w", encoding="utf-8").write(s)


main()
