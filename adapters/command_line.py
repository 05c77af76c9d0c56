"""The commands of every adapter: init, serve, dump, rebase, trim."""
import argparse
import signal
import subprocess
import sys
import time
import traceback

from copies import Copy
from faults import Anew, Broken, Declined, NotDone, Unreachable
from joining import Adapter, follow, rules_of, say
from logs import end_line, has_floor, offset_of, read_log, read_whole
from place import make_place

COMMANDS = """\
what to do:
  init     puts a log in as the base, once. Either a new one
             ADAPTER init --empty -- registrylog join < /dev/null
           or one that is there, of which a line at its end says that nothing was cut off:
             registrylog compact --whole FILE | ADAPTER init -- registrylog join
           The process behind -- is only asked for the number of its rules (--rules), which is kept with the log.
  serve    starts a process and serves it: ADAPTER serve -- registrylog join --listen 0.0.0.0:8081
           It waits for a store that can't be reached, and ends when the process does.
  dump     writes the log to standard output, as registryd fold and registrylog check read it: ADAPTER dump > LOG
           With --whole a line at its end says how many lines of records it has, and the next offset.
  rebase   puts a shorter log in place of all lines below its next offset, while processes go on. Either
             ADAPTER rebase --registry http://127.0.0.1:8081 -- registrylog base --below {}
           has the registry make a place where that may be done (a registration and its deletion, under a subject of its own), gives the
           lines below that offset to the command, of which {} stands for the offset, with --whole behind it, and puts in what it
           writes. If it doesn't come to its end, run it again: it finishes what was begun. Or
             ADAPTER rebase < LOG
           puts in a log that was made by hand, with the line at its end.
  trim     drops what the base stands for: a day after a rebase, say. Processes that are behind it then have to begin anew.

exit status:
  0    done
  1    the store can't be reached, or the process ended: start it again
  2    a person has to look: there is no log, or it isn't the one that was given; no rights; other rules; the command line is none
"""


def add_commands(parser):
    """Adds what all adapters' command lines have."""
    parser.formatter_class = argparse.RawDescriptionHelpFormatter
    parser.usage = "%(prog)s OPTIONS {init,serve,dump,rebase,trim} [-- COMMAND ...]"
    parser.epilog = COMMANDS.replace("ADAPTER", parser.prog + " ..")
    parser.add_argument("--patience", type=float, default=10, metavar="SECONDS",
                        help="how long a store that doesn't answer is tried (10). A process waits 30 seconds for an answer")
    parser.add_argument("--poll", type=float, default=1, metavar="SECONDS", help="how often is looked without a hint of the store (1)")
    parser.add_argument("--copy", metavar="FILE", help="serve: keep a copy of the log in this file, so that the next start needn't read it all")
    parser.add_argument("--registry", metavar="URL", help="rebase: a process that serves this log")
    parser.add_argument("--whole", action="store_true", help="dump: write a line behind the log that says where it ends")
    parser.add_argument("--empty", action="store_true", help="init, rebase: put in an empty log")
    parser.add_argument("do", choices=["init", "serve", "dump", "rebase", "trim"], help="what to do, as below")


def run(parser, make_store):
    """Does what the command line says, and ends with the status of that."""
    signal.signal(signal.SIGINT, signal.SIG_DFL)
    words = sys.argv[1:]
    behind = words.index("--") if "--" in words else len(words)
    options, command = parser.parse_args(words[:behind]), words[behind + 1:]
    if options.do in ("init", "serve") and not command:
        parser.error("%s needs the process's command behind --" % options.do)
    for option, deeds in ("whole", ("dump",)), ("empty", ("init", "rebase")), ("copy", ("serve",)):
        if getattr(options, option) and options.do not in deeds:
            parser.error("--%s is an option of %s" % (option, " and ".join(deeds)))
    if options.do == "rebase" and bool(options.registry) != bool(command):
        parser.error("rebase --registry URL needs a command behind --, and nothing else does")
    try:
        status = DEEDS[options.do](make_store(options), options, command)
    except BrokenPipeError:
        status = 1
    except (Broken, Declined) as fault:
        say("error: %s" % fault)
        status = 2
    except Anew as fault:
        say("error: %s. Begin anew" % fault)
        status = 1
    except Unreachable as fault:
        say("error: store unreachable: %s" % fault)
        status = 1
    except Exception as fault:                  # nonsense that nobody thought of: one line, and where it was met
        place = traceback.extract_tb(fault.__traceback__)[-1]
        say("error: %s: %s (%s, line %d)" % (type(fault).__name__, " ".join(str(fault).split()), place.filename, place.lineno))
        status = 1
    sys.exit(status)


def opened(option, path):
    """A file that an option names, to be read."""
    try:
        return open(path, "rb")
    except OSError as fault:
        raise Broken("%s %s: %s" % (option, path, fault.strerror))


def patiently(do, options, faults=Unreachable):
    """Does what may be done twice, for as long as patience lasts from the first fault on."""
    until = None
    while True:
        try:
            return do()
        except faults:
            until = until or time.monotonic() + options.patience
            if time.monotonic() > until:
                raise
            time.sleep(0.5)


class Patient:
    """What is read of a store, patiently."""

    def __init__(self, store, options):
        self.store, self.options = store, options

    def read(self, at, token):
        return patiently(lambda: self.store.read(at, token), self.options)


def beginning(text, options):
    """The log that these bytes are, where it may be a base."""
    log = read_log(text) if options.empty and not text else read_whole(text)
    if log.next == 0 and not options.empty:
        raise Broken("the log is empty. With --empty an empty one is put in")
    if log.next > 0 and options.empty:
        raise Broken("the log isn't empty, and --empty is there")
    return log


def init(store, options, command):
    log, rules = beginning(sys.stdin.buffer.read(), options), rules_of(command)
    patiently(lambda: store.init(log, rules), options, NotDone)
    say("base of %d bytes, next offset %d, rules %d" % (len(log.text), log.next, rules))
    return 0


def serve(store, options, command):
    copy = Copy(options.copy, say) if options.copy else None
    return Adapter(store, command, options.patience, options.poll, copy).serve()


def dump(store, options, command):
    base = patiently(store.begin, options)
    following, lines = base.next, -1 if base.pieces and has_floor(base.pieces[0]) else 0
    for piece in base.pieces:
        sys.stdout.buffer.write(piece)
        lines += piece.count(b"\n")
    for batch in follow(Patient(store, options), base):
        sys.stdout.buffer.write(batch.lines)
        following, lines = batch.next, lines + batch.next - batch.first
    if options.whole:
        sys.stdout.buffer.write(end_line(lines, following))
    sys.stdout.buffer.flush()
    return 0


def rebase(store, options, command):
    text = compacted(store, options, command) if options.registry else sys.stdin.buffer.read()
    log = beginning(text, options)
    patiently(lambda: store.rebase(log), options)
    say("base of %d bytes, next offset %d" % (len(log.text), log.next))
    return 0


def compacted(store, options, command):
    """What the command writes of the lines below the place that the registry made."""
    base = patiently(store.begin, options)
    subject = make_place(options.registry, options.patience)
    lines, end = list(base.pieces), None
    for batch in follow(Patient(store, options), base):
        lines.append(batch.lines)
        if deletes_for_good(batch, subject):
            end = batch.next
            break
    if end is None:
        raise Broken("what %s was asked for doesn't stand in this log: is it a process of it?" % options.registry)
    command = [*(word.replace("{}", str(end)) for word in command), *([] if "--whole" in command else ["--whole"])]
    done = subprocess.run(command, input=b"".join(lines), stdout=subprocess.PIPE)
    if done.returncode != 0:
        raise Broken("%s: status %d" % (" ".join(command), done.returncode))
    return done.stdout


def deletes_for_good(batch, subject):
    """Whether the batch deletes that subject, or its only version, for good."""
    last = batch.lines.splitlines()[-1].split(b"\t")
    return offset_of(last[0]) is not None and subject.encode() in last[1] and last[2] == b"null"


def trim(store, options, command):
    say("%d pieces dropped" % patiently(store.trim, options))
    return 0


DEEDS = {"init": init, "serve": serve, "dump": dump, "rebase": rebase, "trim": trim}
