"""A process that decides nothing: it hands on what the adapter gives it, and the requests that the test makes.

    puppet.py SOCKET RULES              connects to the test, and carries bytes both ways
    puppet.py SOCKET RULES --rules      prints RULES"""
import os
import socket
import sys
import threading


def carry(read, write):
    while True:
        data = read(1 << 16)
        if not data:
            return
        view = memoryview(data)
        while view:
            view = view[write(view):]


def main():
    path, rules = sys.argv[1:3]
    if sys.argv[-1] == "--rules":
        print(rules)
        return
    line = socket.socket(socket.AF_UNIX)
    line.connect(path)

    def carry_in():
        carry(lambda size: os.read(0, size), line.send)
        os._exit(0)
    threading.Thread(target=carry_in, daemon=True).start()
    carry(line.recv, lambda data: os.write(1, data))


main()
