#!/usr/bin/env python3
"""Does the first lines of README.md on a fresh clone of what is committed, and compares what they print.

    examples/try-first-lines.py

It needs the toolchain's `rt`, curl, and port 8081 of 127.0.0.1. The commands are those of README's first block with `$ `; the first of
them builds and starts the registry. It says how many seconds passed until that answered a registration. Then the registry is ended by
TERM, has to leave nothing that runs, and is started once more, without --new: its log has to be whole. The status is 1 where anything
differs.
"""
import os
import re
import signal
import subprocess
import sys
import tempfile
import time
from importlib.util import module_from_spec, spec_from_file_location
from pathlib import Path

TOP = Path(__file__).resolve().parent.parent
PATIENCE = 1800  # seconds until it serves: a busy machine takes long
made = spec_from_file_location("check_commands", TOP / "docs/check-commands.py")
pages = module_from_spec(made)
made.loader.exec_module(pages)


def first_block(text):
    """README's first block that has commands."""
    return next(block[0] for block in re.finditer(r"(?ms)^```\n.*?^```$", text) if "\n$ " in block[0])


def start(command, clone, said):
    """Starts the first command, and waits until it says where it listens."""
    program = subprocess.Popen(["bash", "-c", f"exec {command.strip().removesuffix('&')}"], cwd=clone, stdin=subprocess.DEVNULL,
                               stdout=said, stderr=subprocess.STDOUT, start_new_session=True)
    until = time.monotonic() + PATIENCE
    while b": listening on " not in Path(said.name).read_bytes():
        if program.poll() is not None or time.monotonic() > until:
            raise SystemExit(f"try-first-lines: it doesn't serve; it said:\n{Path(said.name).read_text()}")
        time.sleep(0.1)
    return program


def end(program):
    """Ends the program, and says what of its session is still there, if anything is."""
    program.send_signal(signal.SIGTERM)
    program.wait(30)
    time.sleep(1)
    found = subprocess.run(["ps", "-o", "stat=,pid=,args=", "-s", str(program.pid)], capture_output=True, text=True).stdout
    left = [line for line in found.splitlines() if not line.startswith("Z")]
    return [f"what is left running: {line}" for line in left]


def main():
    faults = []
    with tempfile.TemporaryDirectory(prefix="first-lines-") as room:
        clone = Path(room, "clone")
        subprocess.run(["git", "clone", "-q", str(TOP), str(clone)], check=True)
        commands = list(pages.commands_of(first_block((clone / "README.md").read_text())))
        (_, begun, _), rest = commands[0], commands[1:]
        with open(Path(room, "said"), "wb") as said:
            before = time.monotonic()
            program = start(begun, clone, said)
            for number, (_, command, wanted) in enumerate(rest):
                came = subprocess.run(["bash", "-c", command], cwd=clone, capture_output=True, text=True).stdout.rstrip("\n")
                if not number:
                    print(f"a registration was answered after {time.monotonic() - before:.0f} s")
                if came != wanted:
                    faults.append(f"{command.strip()}\nwanted: {wanted}\ncame:   {came}")
            faults += end(program)
        with open(Path(room, "again"), "wb") as again:
            before = time.monotonic()
            program = start(begun.replace(" --new ", " "), clone, again)
            print(f"a second start took {time.monotonic() - before:.0f} s")
            if b"serving 1 records" not in Path(again.name).read_bytes():
                faults.append(f"the log isn't whole: {Path(again.name).read_text()}")
            faults += end(program)
    print("\n".join(faults) or f"{len(commands)} commands, all as README says")
    return 1 if faults else 0


sys.exit(main())
