#!/usr/bin/env python3
"""Writes the package's copyright file: what packaging/copyright says, and the notices of the kit's crates that the programs link, each as it
stands beside the crate: notices.py KIT

Which crates these are follows from crates.txt and, for a crate of the kit, from what it says of itself in rlibs/CRATE.rlib/format. Of a notice
for MIT and one for Apache 2.0, between which one may choose, the first is taken. A crate whose folder or whose list is missing is an error."""
import re
import sys
import textwrap
from pathlib import Path

TOP = Path(__file__).resolve().parent.parent
PROGRAMS = ("registryd", "registrylog")


def lines_of_crates():
    """Each crate of this repository, and those that it names."""
    lines = [line.partition("#")[0].partition(":") for line in (TOP / "crates.txt").read_text(encoding="utf-8").splitlines()]
    return {crate.strip(): below.split() for crate, colon, below in lines if colon}


def linked_crates(kit):
    """The crates of the kit that the programs stand on, in order."""
    ours, seen, rest = lines_of_crates(), set(), list(PROGRAMS)
    while rest:
        crate = rest.pop()
        if crate not in seen:
            seen.add(crate)
            rest += ours[crate] if crate in ours else named_in(kit / "rlibs" / f"{crate}.rlib" / "format")
    return sorted(seen - set(ours))


def named_in(path):
    if not path.is_file():
        sys.exit(f"notices.py: {path} is missing, which lists what a crate stands on")
    return re.findall(r"^dep (\S+)$", path.read_text(encoding="utf-8", errors="replace"), re.MULTILINE)


def notices_of(folder):
    """The files with a crate's notices."""
    if not folder.is_dir():
        sys.exit(f"notices.py: {folder} is missing, which may have notices")
    names = sorted(it.name for it in folder.iterdir() if re.match(r"(UN)?LICEN[CS]E|COPYING|COPYRIGHT|NOTICE", it.name))
    return [name for name in names if not (name.endswith("-APACHE") and "LICENSE-MIT" in names)]


def stanza(crate, name, text):
    """A part of the file, as Debian's form for it wants it: a line without text has a point."""
    holders = [match[1] for match in re.finditer(r"^\s*Copyright (?:\(c\) )?((?:\d|Individual).*)", text, re.MULTILINE)]
    if text.split()[:4] == ["Apache", "License", "Version", "2.0,"]:
        text = "On Debian systems the text is in /usr/share/common-licenses/Apache-2.0."
    lines = [f" {line}" if line.strip() else " ." for line in (line.rstrip().replace("\t", "    ") for line in text.strip().splitlines())]
    holder = "\n ".join(holders) or f"the authors of the Rust crate {crate.replace('_', '-')}"
    return "\n".join([f"Files: kit/{crate}/*", f"Copyright: {holder}", f"License: {crate}-{name}", *lines])


def main():
    kit = Path(sys.argv[1])
    crates = linked_crates(kit)
    found = {crate: notices_of(kit / "rattle" / crate) for crate in crates}
    without = ", ".join(crate for crate in crates if not found[crate])
    wrapped = textwrap.fill(without, 78, initial_indent=" ", subsequent_indent=" ")
    print((TOP / "packaging" / "copyright").read_text(encoding="utf-8").replace(" @without@", wrapped).strip())
    for crate in crates:
        for name in found[crate]:
            text = (kit / "rattle" / crate / name).read_text(encoding="utf-8")
            print("\n" + stanza(crate, name, text))


if __name__ == "__main__":
    main()
