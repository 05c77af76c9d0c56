#!/usr/bin/env python3
"""Makes crates list only what no other crate of their line passes on. usage: drafts/pass-on.py CRATE ..

For each named crate, lowest first: its line of crates.txt loses each crate of the repository that a crate of PASSING there reaches, its
paths go through that one (`reg_records::Key` becomes `reg_leader::reg_records::Key`, `Rattle.reg_records.specs` becomes
`Rattle.reg_leader.specs.reg_records`), also in wrong bodies, and the crates of PASSING get the `pub use` lines that are missing.
Then run `rt fmt` in each crate that changed.
"""
import functools
import re
import sys
from pathlib import Path

TOP = Path(__file__).resolve().parent.parent
PASSING = """avro_resolve reg_values reg_fold reg_modes reg_rules reg_leader reg_requests reg_http reg_conversation reg_connection reg_serve
    reg_service reg_shared reg_pen reg_desk reg_join_desk reg_alike""".split()
# What has to be listed all the same, since an impl of it is used.
LISTED = {"reg_service": ["reg_shared", "reg_node"], "reg_join_service": ["reg_shared", "reg_node"]}

text = (TOP / "crates.txt").read_text()
lines = {line.split(":")[0].split()[0]: line.split(":")[1].split() for line in text.splitlines() if ":" in line.split("#")[0]}
named = {crate: [it for it in words if it in lines] for crate, words in lines.items()}


@functools.cache
def below(crate):
    return frozenset(it for one in named[crate] for it in {one} | below(one))


@functools.cache
def reach(crate):
    """What the crate lists, and what those pass on."""
    return frozenset(named[crate]) | frozenset(it for one in named[crate] if one in PASSING for it in reach(one))


def through(crate):
    """Each crate that needn't be listed, and the one that it is reached through."""
    dropped = {it for it in named[crate] if it not in LISTED.get(crate, ())
               and any(it != other and other in PASSING and it in reach(other) for other in named[crate])}
    kept = [it for it in named[crate] if it not in dropped]
    return {it: min((o for o in kept if o in PASSING and it in reach(o)), key=lambda o: (len(below(o)), o)) for it in dropped}


def root_file(crate, part):
    return TOP / "crates" / crate / ("src/lib.rt" if part == "src" else f"{part}/Lib.antt")


def pass_on(crate, it, part):
    """Has the crate pass on another one in that part, unless it does."""
    file = root_file(crate, part)
    code = file.read_text() if file.exists() else ""
    alias = f"{it}_proofs" if part == "proofs" else it
    ends = ";" if part == "src" else "$"
    if any(re.search(rf"\b{alias}\b", use) for use in re.findall(rf"(?ms)^pub use (.*?){ends}", code)):
        return
    by = None if it in named[crate] else min((o for o in named[crate] if o in PASSING and it in reach(o)), key=lambda o: (len(below(o)), o))
    if part == "src":
        use = f"pub use {it};" if by is None else f"pub use {by}::{it};"
    elif by is None:
        use = f"pub use Rattle.{it}.{part} as {alias}"
    else:
        use = f"pub use Rattle.{by}.{part}.{alias}"
    file.parent.mkdir(exist_ok=True)
    file.write_text(code.rstrip("\n") + "\n" * bool(code.strip()) + use + "\n")
    if by is not None:
        pass_on(by, it, part)


def rewrite(crate, ways):
    names = "|".join(sorted(ways, key=len, reverse=True))
    path = re.compile(rf"\bRattle\.({names})\.(specs|proofs)\b|(?<![\w:.])({names})::(?:(proofs|specs)::)?")
    wanted = {(ways[it], it, "src") for it in ways}

    def new(found):
        it, part = (found[1], found[2]) if found[1] else (found[3], found[4] or "src")
        wanted.add((ways[it], it, part))
        alias = f"{it}_proofs" if part == "proofs" else it
        if found[1]:
            return f"Rattle.{ways[it]}.{part}.{alias}"
        return f"{ways[it]}::{alias}::" if part == "src" else f"{ways[it]}::{part}::{alias}::"

    for file in (TOP / "crates" / crate).rglob("*"):
        if file.suffix in (".rt", ".antt", ".edit") and "out" not in file.relative_to(TOP / "crates" / crate).parts:
            file.write_text(path.sub(new, file.read_text()))
    return wanted


def main(crates):
    global text
    for crate in sorted(crates, key=lambda it: len(below(it))):
        ways = through(crate)
        if not ways:
            continue
        for by, it, part in sorted(rewrite(crate, ways)):
            pass_on(by, it, part)
        left = " ".join(it for it in lines[crate] if it not in ways)
        text = re.sub(rf"(?m)^{crate}:.*$", f"{crate}: {left}", text)
    (TOP / "crates.txt").write_text(text)


main(sys.argv[1:])
