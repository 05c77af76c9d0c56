"""Runs an adapter whose requests, to the store and to the registry, meet faults.

    faulty.py killed NUMBER WORDS..         it is killed once so many requests were answered
    faulty.py undone 0 WORDS..              every third request isn't sent, and has no answer
    faulty.py unanswered 0 WORDS..          every third request is done, and has no answer
    faulty.py refused 0 WORDS..             the registry answers every third request by 503"""
import os
import signal
import sys

from programs import load

COUNT = [0]


def with_faults(mode, number, do, no_answer, refusal=None):
    """The same call, with the faults of a mode."""
    def call(*words, **more):
        COUNT[0] += 1
        is_struck = COUNT[0] % 3 == 0
        if is_struck and mode == "refused" and refusal:
            return refusal
        answer = None if is_struck and mode == "undone" else do(*words, **more)
        if mode == "killed" and COUNT[0] == number:
            os.kill(os.getpid(), signal.SIGKILL)
        if is_struck and mode in ("undone", "unanswered"):
            raise no_answer("made up")
        return answer
    return call


def main():
    mode, number, path = sys.argv[1], int(sys.argv[2]), sys.argv[3]
    program = load(path)
    place = sys.modules["place"]
    place.Registry.once = with_faults(mode, number, place.Registry.once, OSError, (503, {"message": "made up"}))
    if hasattr(program, "Etcd"):
        program.Connection.post = with_faults(mode, number, program.Connection.post, program.Unreachable)
        store = program.Etcd
    else:
        program.Postgres.execute = with_faults(mode, number, program.Postgres.execute, program.psycopg2.OperationalError)
        store = program.Postgres
    sys.argv[:] = sys.argv[3:]
    program.run(program.make_parser(), store)


main()
