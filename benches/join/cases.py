#!/usr/bin/python3
"""Tells `registrylog join` what stands in the cases beside this script, and compares what comes of it: cases.py REGISTRYLOG.

Between two cases stands a line `====`. First come the bytes that the adapter tells, each TAB as `|`; then a line `comes to`, and then what the
process says on standard error, and `ends with STATUS`. It asks for nothing. A line that begins with `# ` is a remark, and a line has no LF
where it ends with `(no LF)`. The status is 1 where a case goes otherwise."""
import os
import subprocess
import sys

from registries import free_port

HERE = os.path.join(os.path.dirname(os.path.realpath(__file__)), "cases")


def told(text):
    lines = [line for line in text.split("\n")[:-1] if not line.startswith("# ")]
    return "".join(line[:-7] if line.endswith("(no LF)") else line + "\n" for line in lines).replace("|", "\t").encode()


def come_of(program, data):
    words = [program, "join", "--listen", "127.0.0.1:%d" % free_port()]
    run = subprocess.run(words, input=data, stdout=subprocess.PIPE, stderr=subprocess.PIPE, timeout=60, check=False)
    return run.stdout.decode() + run.stderr.decode() + "ends with %d\n" % run.returncode


def main():
    if len(sys.argv) != 2:
        print(__doc__)
        return 2
    tried = others = 0
    for name in sorted(os.listdir(HERE)):
        with open(os.path.join(HERE, name), encoding="utf-8") as file:
            cases = file.read().split("====\n")
        for case in cases:
            text, wanted = case.split("comes to\n")
            came = come_of(os.path.abspath(sys.argv[1]), told(text))
            tried += 1
            if came != wanted:
                others += 1
                print("%s:\n%s-- wanted\n%s-- came\n%s" % (name, text, wanted, came))
    print("%d cases, %d went otherwise" % (tried, others))
    return 1 if others else 0


if __name__ == "__main__":
    sys.exit(main())
