"""Slips of operators with `registrylog keep`: slips.py REGISTRYLOG [NAME..]. Each trial registers schemas, makes a slip, asks again, reads
what the program says, puts it right as docs/KEEPING.md says, and starts the program again. It prints what it does. A line `WRONG ..` is
printed, and the status is 1, if an id names two schemas among all answers of a trial, a write that was acknowledged is missing though the
disk has it, or anything is done or said in another way than it should be. Each trial ends by itself. It runs as root, for file systems of
its own, in a new folder where it is started (or in SLIPS_FOLDER), which is removed unless something is wrong.

While the program runs the file is
`rename`       renamed                          `put_back`   renamed, and renamed back before a write
`remove`       removed                          `folder`     in a folder that is renamed
`sed`          edited by `sed -i`               `covered`    in a folder over which another file system is mounted
`copy`         replaced by a copy of itself     `appended`   written to by another program
`restore`      replaced by an older copy        `emptied`    emptied by the shell, as by `compact log > log`
`overwritten`  written over by an older copy, by `cp`
`copied`       emptied, and the process, which answers lookups, copied by tools/copy-registry
`compaction`   replaced right before a compaction, which must not write over the other file
`uncompacted`  appended to by another program, after a compaction found no room
`unlocked`     served by a second process, after its lock was removed
`linked`       served by a second process, under another name of the same file
A start finds
`missing`      no file, an empty one, a link that leads nowhere, a pipe
`unmounted`    an empty folder, since the disk isn't mounted
`new`          a log, with --new; or --new comes twice, one after the other and at once
`cut`          bytes behind the log, beside links and an older file where they are put; modes and owners
`recipe`       an old backup, after KEEPING's commands for one
`moved_in`     another registry's topic, in which a delete superseded the greatest id
The log is full
`full`         of 1,000,000 lines, and a mark of ids is due; then KEEPING's commands for it
`no_room`      of 999,999 lines
`fills`        while it is served; then it is started twice
The disk is full
`disk_cut`     at a start with bytes behind the log
`disk_end`     at a start without an empty line
`disk_mark`    at a start that owes a mark of ids
`disk`         while it is served, and at the start after that
The system fails
`sync`         a sync, while it is served and at a start (wants `cc`)
`names`        opening, locking, listening, writing: names of errors, and statuses"""
import hashlib, os, re, resource, shutil, signal, socket, stat, subprocess, sys, threading

from served import (FOLDER, IS_LOG, MARK, NO_LOG, PROGRAM, TOP, UNSETTLED, USED_UP, WRONG, Clients, Kept, again, bad, begin, commands_of,
                    do_commands, fill, lost, mode, mounted, put_right, read, refused, run, same, say, small_disk, text, version_line, write)

NOBODY = 65534
GONE = "{} was renamed, removed or replaced: put back the file that was kept, then restart"
LENGTH = "another program changed the length of {}: stop it, then restart"
SHORTER = "another program cut {}: only this process has all that was acknowledged, so copy it before you stop it"
NO_LINE = "log is full: no line is left for the mark of ids. Lookups are served, commands are declined until a start over a smaller log"
NO_DISK = ("StorageFull: the log couldn't be made ready for commands. Lookups are served, commands are declined until a start with room on "
           "the disk")


# ---- While it runs

def rename():
    registry, clients = begin("rename")
    path = registry.path
    os.rename(path, path + ".bak")
    lost(registry, clients, GONE.format(path))
    same("whether a file is at the path", False, os.path.exists(path))
    registry.end()
    refused(NO_LOG.format(path), path)
    os.rename(path + ".bak", path)
    again(path, clients).end()


def remove():
    registry, clients = begin("remove")
    os.remove(registry.path)
    lost(registry, clients, GONE.format(registry.path))
    put_right(registry, clients)


def put_back():
    registry, clients = begin("put_back")
    path = registry.path
    os.rename(path, path + ".bak")
    clients.look(registry)
    os.rename(path + ".bak", path)
    same("writes after it was put back", [(200, "registered")], clients.register(registry, 3))
    same("/ready", (200, "ready"), registry.ready())
    os.rename(path, path + ".bak")
    lost(registry, clients, GONE.format(path))
    os.rename(path + ".bak", path)
    same("writes after it was put back too late", [UNSETTLED], clients.register(registry, 2))
    registry.end()
    again(path, clients).end()


def folder():
    registry, clients = begin("folder")
    place = os.path.dirname(registry.path)
    os.rename(place, place + ".old")
    lost(registry, clients, GONE.format(registry.path))
    registry.end()
    refused(NO_LOG.format(registry.path), registry.path)
    os.rename(place + ".old", place)
    again(registry.path, clients).end()


def covered():
    registry, clients = begin("covered")
    place = os.path.dirname(registry.path)
    with mounted(place, "-t", "tmpfs", "tmpfs"):
        lost(registry, clients, GONE.format(registry.path))
        registry.end()
        refused(NO_LOG.format(registry.path), registry.path)
    again(registry.path, clients).end()


def replaced(name, slip, writes_between):
    """The file is replaced by another one, which `slip` makes and puts in its place. What was acknowledged in between is in the file that
    the program has alone; the other one stays as it is."""
    registry, clients = begin(name)
    path = registry.path
    shutil.copyfile(path, path + ".copy")
    same("writes before the slip", [(200, "registered")], clients.register(registry, writes_between))
    slip(path)
    before = read(path), os.stat(path).st_ino
    lost(registry, clients, GONE.format(path))
    same("whether the other file is as it was", True, before == (read(path), os.stat(path).st_ino))
    put_right(registry, clients)


def sed():
    replaced("sed", lambda path: run("sed", "-i", "s/no such text/none/", path), 1)


def copy():
    replaced("copy", lambda path: (run("cp", path, path + ".other"), run("mv", path + ".other", path)), 1)


def restore():
    replaced("restore", lambda path: run("mv", path + ".copy", path), 3)


def appended():
    registry, clients = begin("appended")
    with open(registry.path, "a") as file:
        file.write("somebody else\n")
    lost(registry, clients, LENGTH.format(registry.path))
    registry.end()
    again(registry.path, clients, "14 bytes behind the log were put into %s.cut" % registry.path).end()


def emptied():
    registry, clients = begin("emptied")
    path = registry.path
    shutil.copyfile(path, path + ".backup")
    same("writes after the backup", [(200, "registered")], clients.register(registry, 2))
    write(path, b"")
    lost(registry, clients, SHORTER.format(path))
    registry.end()
    refused(NO_LOG.format(path), path)
    from_backup(path + ".backup", clients)


def copied():
    registry, clients = begin("copied")
    write(registry.path, b"")
    lost(registry, clients, SHORTER.format(registry.path))
    other = Kept(registry.path + ".other", "--new")
    urls = ["http://127.0.0.1:%d" % one.port for one in (registry, other)]
    words = [sys.executable, TOP + "/tools/copy-registry", "--quiet", "--mark", "1000000", "--end-mode", "READWRITE", *urls]
    ran = subprocess.run(words, capture_output=True, text=True, timeout=300)
    if ran.returncode:
        bad("copy-registry ends with", ran.returncode, ran.stdout, ran.stderr)
    say(ran.stdout.strip().splitlines()[-1:])
    registry.end()
    other.end()
    registry = again(other.path, clients)
    same("whether new ids are above the mark", True, min(sorted(clients.kept.values())[-2:]) > 1_000_000)
    registry.end()


def overwritten():
    registry, clients = begin("overwritten")
    path = registry.path
    shutil.copyfile(path, path + ".backup")
    same("writes after the backup", [(200, "registered")], clients.register(registry, 2))
    run("cp", path + ".backup", path)
    lost(registry, clients, SHORTER.format(path))
    registry.end()
    from_backup(path, clients)


FILLER = '0\t{"keytype":"CONFIG","subject":"filler","magic":0}\t{"compatibilityLevel":"NONE"}\n'


def long_log(name, more=0):
    """A log of superseded lines that is compacted after some 1,000 more, which takes more than a start is made ready for. It has so many
    bytes more."""
    place = "%s/%s" % (FOLDER, name)
    os.makedirs(place, exist_ok=True)
    pad = '0\t{"keytype":"NOOP","magic":0}\t"%s"\n' % ("x" * more)
    write(place + "/log", (FILLER * 98_990 + pad + version_line(1, "s1", 1) + "2\t%s\t{\"id\":1}\n\n" % MARK).encode())
    registry = Kept(place + "/log")
    same("/ready", (200, "ready"), registry.ready())
    return registry, Clients(1)


def set_levels(registry, count):
    """Sets a level so often, but no more once the file is compacted; gives how often."""
    before = os.stat(registry.path).st_ino
    for n in range(count):
        same("setting a level", 200, registry.ask("PUT", "/config/t", {"compatibility": "FULL"})[0])
        if os.stat(registry.path).st_ino != before:
            return n + 1
    return count


def compaction():
    registry, clients = long_log("compacts")
    needed = set_levels(registry, 1_200)
    same("whether few lines are left", True, registry.number("registry_log_lines") < 100)
    say("without a slip the write number %d compacts the file to %s lines" % (needed, registry.number("registry_log_lines")))
    registry.end()
    again(registry.path, clients).end()
    registry, clients = long_log("compaction")
    path = registry.path
    same("the writes before the slip", needed - 1, set_levels(registry, needed - 1))
    run("cp", path, path + ".other")
    with open(path + ".other", "a") as file:
        file.write("what only the other file has\n")
    run("mv", path + ".other", path)
    before = hashlib.sha256(read(path)).digest(), os.stat(path).st_ino
    lost(registry, clients, GONE.format(path))
    same("whether the other file is as it was", True, before == (hashlib.sha256(read(path)).digest(), os.stat(path).st_ino))
    same("whether the compaction left its own", False, os.path.exists(path + ".new"))
    put_right(registry, clients)


def uncompacted():
    """The disk has no room for a compaction, but the file's last page for some writes: another program's is told from that."""
    registry, _ = long_log("fits")
    before = os.path.getsize(registry.path)
    needed = set_levels(registry, 1_200)
    registry.end()
    registry, _ = long_log("counts")
    set_levels(registry, needed - 1)
    size = os.path.getsize(registry.path)
    registry.end()
    same("whether the levels took room", True, size > before)
    with small_disk("uncompacted", "16m") as place:
        registry, clients = long_log("uncompacted", (1_000 - size) % 4096)
        same("the writes before the disk is full", needed - 1, set_levels(registry, needed - 1))
        fill(place)
        same("setting a level on the full disk", 1, set_levels(registry, 1))
        same("what it says", ["log not compacted: StorageFull"], registry.lines()[1:])
        with open(registry.path, "a") as file:
            file.write("somebody else\n")
        lost(registry, clients, LENGTH.format(registry.path))
        os.remove(place + "/ballast")
        registry.end()
        again(registry.path, clients)


class Writer(threading.Thread):
    """Registers a schema at the same moment as another one does elsewhere."""
    def __init__(self, registry, subject, moment):
        super().__init__(daemon=True)
        self.registry, self.subject, self.moment, self.answer = registry, subject, moment, None

    def run(self):
        self.registry.ask("GET", "/mode")
        self.moment.wait(60)
        self.answer = self.registry.ask("POST", "/subjects/%s/versions" % self.subject, {"schema": text(self.subject)})


def write_at_once(registries, clients, turn):
    """How many of these processes over one file acknowledge writes that come at the same moment."""
    moment = threading.Barrier(len(registries))
    writers = [Writer(one, "u%d_%d" % (turn, k), moment) for k, one in enumerate(registries)]
    [writer.start() for writer in writers]
    [writer.join(120) for writer in writers]
    for writer in writers:
        status, got = writer.answer
        if status == 200:
            clients.learn(writer.subject, got["id"])
            clients.kept[writer.subject] = got["id"]
        else:
            same("a write that isn't acknowledged", UNSETTLED, (status, got.get("message")))
    return sum(writer.answer[0] == 200 for writer in writers)


def served_twice(name, slip):
    """A second process is started over the file, after a slip that gives it a lock of its own or a path. If it serves, both get writes at
    the same moment, over and over."""
    registry, clients = begin(name)
    path, told = registry.path, []
    registry.end()
    for turn in range(40):
        first = Kept(path)
        second = Kept(slip(path))
        if not second.serves():
            same("the second process", (2, ["log is in use"]), (second.process.returncode, second.lines()))
            same("writes to the first one", [(200, "registered")], clients.register(first, 2))
            first.end()
            break
        told.append(write_at_once([first, second], clients, turn))
        first.end()
        second.end()
    say("the second process: %s" % "; ".join(second.lines()))
    if told:
        bad("a second process serves the file; of two writes at once both were acknowledged %d times of %d" % (told.count(2), len(told)))
    if os.path.lexists(path + ".other"):
        os.remove(path + ".other")
    again(path, clients).end()


def without_lock(path):
    os.remove(path + ".lock")
    return path


def other_name(path):
    if not os.path.exists(path + ".other"):
        os.link(path, path + ".other")
    return path + ".other"


def unlocked():
    served_twice("unlocked", without_lock)


def linked():
    served_twice("linked", other_name)


# ---- What a start finds

def missing():
    place = FOLDER + "/missing"
    os.mkdir(place)
    refused(NO_LOG.format(place + "/log"), place + "/log")
    refused(NO_LOG.format("log"), "log", cwd=place)
    refused(NO_LOG.format(place + "/none/log"), place + "/none/log")
    write(place + "/empty", b"")
    refused(NO_LOG.format(place + "/empty"), place + "/empty")
    os.symlink(place + "/nowhere", place + "/link")
    refused(NO_LOG.format(place + "/link"), place + "/link")
    os.mkfifo(place + "/pipe")
    refused(NO_LOG.format(place + "/pipe"), place + "/pipe")
    write(place + "/line", b"\n")
    registry = Kept(place + "/line")
    same("what a file of an empty line says", ["serving 0 records, next offset 0, 1 bytes"], registry.lines())
    same("writes to it", [(200, "registered")], Clients().register(registry, 2))
    registry.end()


def unmounted():
    store, place = FOLDER + "/store", FOLDER + "/place"
    os.mkdir(store), os.mkdir(place)
    path, clients = place + "/log", Clients()
    with mounted(place, "--bind", store):
        registry = Kept(path, "--new")
        same("the first answers", [(200, "registered")], clients.register(registry, 3))
    refused(NO_LOG.format(path), path)
    same("what is in the folder", [], os.listdir(place))
    with mounted(place, "--bind", store):
        again(path, clients)
    run("mount", "--bind", store, place)
    registry = Kept(path)
    run("umount", "--lazy", place)
    lost(registry, clients, GONE.format(path))
    registry.end()
    with mounted(place, "--bind", store):
        again(path, clients)


def new():
    registry, clients = begin("new")
    path = registry.path
    refused(IS_LOG.format(path), path, "--new")
    registry.end()
    refused(IS_LOG.format(path), path, "--new")
    refused(IS_LOG.format("log"), "log", "--new", cwd=os.path.dirname(path))
    again(path, clients).end()
    os.truncate(path, 1)
    refused(IS_LOG.format(path), path, "--new")
    write(path + "2", b"")
    os.chmod(path + "2", 0o640)
    registry = Kept(path + "2", "--new")
    same("--new over an empty file", ["made a new log", "serving 0 records, next offset 0, 1 bytes"], registry.lines())
    same("the mode of an empty file that was there", 0o640, mode(path + "2"))
    same("the file", b"\n", read(path + "2"))
    registry.end()
    registry = Kept(path + "3", "--new", umask=0o027)
    same("the mode of a new log", 0o640, mode(path + "3"))
    registry.end()
    registry = Kept(os.path.dirname(path) + "/none/log", "--new")
    same("--new in no folder", (1, ["log file: NotFound"]), (registry.process.returncode, registry.lines()))
    begun = [threading.Thread(target=Kept, args=(path + "4", "--new"), daemon=True) for _ in range(2)]
    [one.start() for one in begun]
    [one.join(120) for one in begun]
    both = Kept.running[-2:]
    ended = [(one.process.returncode, one.lines()) for one in both if not one.serves()]
    same("how many of two --new at once serve", 1, sum(one.serves() for one in both))
    same("whether the other says why", True, ended in ([(2, [IS_LOG.format(path + "4")])], [(2, ["log is in use"])]))
    say("of two --new at once one serves, and the other says: %s" % ended)
    [one.end() for one in both if one.serves()]


def cut():
    place = FOLDER + "/cut"
    os.mkdir(place)
    path, precious = place + "/log", place + "/precious"
    write(precious, b"of somebody else\n")
    log = (version_line(0, "s1", 1) + "1\t%s\t{\"id\":1}\n" % MARK).encode()
    cases = [("nothing", None, None), ("a link at FILE.cut", "link", None), ("an older FILE.cut", "older", None),
             ("a link at FILE.cut.new", None, "link"), ("a part in FILE.cut.new", "older", "part")]
    for (what, old, unfinished), rights, owner in zip(cases, (0o600, 0o640, 0o644, 0o600, 0o600), (0, 0, 0, 0, NOBODY)):
        write(path, log + b"\nbytes behind the log\n")
        os.chmod(path, rights), os.chown(path, owner, owner)
        for name, kind in ((path + ".cut", old), (path + ".cut.new", unfinished), (path + ".new", "link")):
            if os.path.lexists(name):
                os.remove(name)
            if kind == "link":
                os.symlink(precious, name)
            elif kind:
                write(name, b"an older one\n")
        if os.path.exists(path + ".lock"):
            os.chmod(path + ".lock", 0o644)
        registry = again(path, Clients(1), "21 bytes behind the log were put into %s.cut" % path)
        registry.end()
        say("beside %s, over a log of mode %o" % (what, rights))
        same("the other file", b"of somebody else\n", read(precious))
        same("what was cut", b"bytes behind the log\n", read(path + ".cut"))
        about = os.lstat(path + ".cut")
        same("its kind, mode and owner", (True, rights, owner), (stat.S_ISREG(about.st_mode), mode(path + ".cut"), about.st_uid))
        same("the mode of the lock", 0o600, mode(path + ".lock"))
        same("which unfinished ones are left", (False, False), (os.path.lexists(path + ".cut.new"), os.path.lexists(path + ".new")))


def from_backup(backup, clients):
    """Starts over an older file by KEEPING's commands for a backup. What it lacks of what was acknowledged is gone, and its ids too."""
    place = os.path.dirname(backup) + "/again"
    os.mkdir(place)
    shutil.copyfile(backup, place + "/registry.backup")
    *commands, last = commands_of("### Backup")
    do_commands(commands, place)
    same("the last command", "registrylog keep registry.log &", last)
    clients.loses(place + "/registry.log")
    registry = again(place + "/registry.log", clients)
    same("the ids after the mark", [1_000_001, 1_000_002], sorted(clients.kept.values())[-2:])
    registry.end()


def recipe():
    registry, clients = begin("recipe")
    shutil.copyfile(registry.path, registry.path + ".backup")
    same("writes after the backup", [(200, "registered")], clients.register(registry, 5))
    registry.end()
    from_backup(registry.path + ".backup", clients)


# ---- A full log

def full_log(path, lines, subjects, marked, deletes=0, soft=0):
    """A log of so many lines of which none is superseded: versions, deletes of levels, a mark where it has one, and levels."""
    with open(path, "w") as file:
        offset = 0
        for n in range(1, subjects + soft + 1):
            file.write(version_line(offset, "s%d" % n if n <= subjects else "soft%d" % n, n, "false" if n <= subjects else "true"))
            offset += 1
        if marked:
            file.write("%d\t%s\t{\"id\":%d}\n" % (offset, MARK, subjects + soft))
            offset += 1
        for n in range(deletes):
            file.write('%d\t{"keytype":"CONFIG","subject":"d%d","magic":0}\tnull\n' % (offset, n))
            offset += 1
        for n in range(offset, lines):
            file.write('%d\t{"keytype":"CONFIG","subject":"c%d","magic":0}\t{"compatibilityLevel":"NONE"}\n' % (n, n))
        file.write("\n")


def declined(registry, clients, answer=USED_UP):
    """Each kind of command that writes is declined, and lookups go on."""
    same("registrations", [answer], clients.register(registry, 2))
    for method, path, body in [("PUT", "/config", {"compatibility": "FULL"}), ("PUT", "/mode", {"mode": "READONLY"}),
                               ("DELETE", "/subjects/s1", None)]:
        status, got = registry.ask(method, path, body)
        same("%s %s" % (method, path), answer, (status, got.get("message") if isinstance(got, dict) else got))
    clients.look(registry)


def moved_in():
    place = FOLDER + "/moved_in"
    os.mkdir(place)
    path = place + "/log"
    version = version_line(1, "t1", 2)
    lines = (version_line(0, "s1", 1) + version + "2\t%s\tnull\n" % version.split("\t")[1]).encode()
    marked = lines + ("3\t%s\t{\"id\":2}\n" % MARK).encode()
    write(path, lines)
    registry, clients = Kept(path), Clients(1)
    same("what it says", ["mark of ids 2 appended: the log had none, and 2 is the highest id that its lines name",
                          "serving 4 records, next offset 4, %d bytes" % (len(marked) + 1)], registry.lines())
    same("the file", marked + b"\n", read(path))
    clients.register(registry, 1)
    same("the id of the next schema", 3, max(clients.kept.values()))
    registry.end()
    registry = again(path, clients)
    same("what it says of the mark later", [], [line for line in registry.lines() if "mark" in line])
    registry.end()


def full():
    place = FOLDER + "/full"
    os.mkdir(place)
    path = place + "/registry.log"
    full_log(path, 1_000_000, 5, False, deletes=20)
    before, clients = hashlib.sha256(read(path)).digest(), Clients(5)
    registry = Kept(path, wait=600)
    same("what it says", [NO_LINE, "serving 1000000 records, next offset 1000000, %d bytes" % os.path.getsize(path)], registry.lines())
    say("; ".join(registry.lines()))
    same("/ready", (503, "full"), registry.ready())
    declined(registry, clients)
    same("/ready", (503, "full"), registry.ready())
    registry.end()
    same("whether the file is as it was", True, before == hashlib.sha256(read(path)).digest())
    commands = commands_of("### A full log")
    do_commands(commands, place)
    again(path, clients, wait=600).end()
    os.remove(path)


def no_room():
    place = FOLDER + "/no_room"
    os.mkdir(place)
    path = place + "/log"
    full_log(path, 999_999, 5, True)
    clients, registry = Clients(5), Kept(path, wait=600)
    say("; ".join(registry.lines()))
    declined(registry, clients)
    same("/ready", (503, "full"), registry.ready())
    same("what it says", ["serving 999999 records, next offset 999999, %d bytes" % os.path.getsize(path)], registry.lines())
    registry.end()
    os.remove(path)


def fills():
    place = FOLDER + "/fills"
    os.mkdir(place)
    path = place + "/log"
    full_log(path, 999_990, 5, True, soft=1)
    clients = Clients(5)
    clients.learn("soft6", 6)
    registry = Kept(path, wait=600)
    same("/ready", (200, "ready"), registry.ready())
    same("writes while there is room", [(200, "registered")], clients.register(registry, 8))
    status, got = registry.ask("DELETE", "/subjects/soft6?permanent=true")
    same("a delete of two lines, for which one is left", USED_UP, (status, got.get("message") if isinstance(got, dict) else got))
    same("/ready then", (503, "full"), registry.ready())
    same("a write of one line", [(200, "registered")], clients.register(registry))
    same("/ready then", (200, "ready"), registry.ready())
    declined(registry, clients)
    same("/ready then", (503, "full"), registry.ready())
    same("the lines", 999_999, registry.number("registry_log_lines"))
    registry.end()
    # The first start writes a mark, and the second one drops the older mark.
    for start, lines in (("the start after it filled up", 1_000_000), ("the start after that", 999_999)):
        registry = Kept(path, wait=600)
        say("; ".join(registry.lines()))
        same("whether it serves", True, registry.serves())
        declined(registry, clients)
        same("/ready at " + start, (503, "full"), registry.ready())
        same("the lines at " + start, lines, registry.number("registry_log_lines"))
        registry.end()
    os.remove(path)


# ---- A full disk

def padded(front, end):
    """Lines that fill whole pages together with what comes behind them, so that the next byte takes a new page."""
    offset = front.count("\n")
    line = '%d\t{"keytype":"NOOP","magic":0}\t"%%s"\n' % offset
    rest = len(front) + len(line % "") + len(end)
    return (front + line % ("x" * (-rest % 4096)) + end).encode()


def on_full_disk(name, log, ready_file, older=False):
    """A start over a log that has to write, on a full disk, then with room."""
    with small_disk(name) as place:
        path, clients = place + "/log", Clients(5)
        write(path, log)
        write(path + ".lock", b"")
        if older:
            write(path + ".cut", b"an older one\n")
        fill(place)
        registry = Kept(path)
        say("; ".join(registry.lines()))
        same("what it says", [NO_DISK], registry.lines()[:-1])
        same("/ready", (503, "declined"), registry.ready())
        declined(registry, clients)
        same("/ready", (503, "declined"), registry.ready())
        same("whether the file is as it was", True, read(path) == log)
        if older:
            same("the older FILE.cut", b"an older one\n", read(path + ".cut"))
        registry.end()
        os.remove(place + "/ballast")
        registry = again(path, clients)
        same("the file before the writes", True, read(path).startswith(ready_file))
        if older:
            same("FILE.cut", log.partition(b"\n\n")[2], read(path + ".cut"))
        same("whether an unfinished FILE.cut is left", False, os.path.lexists(path + ".cut.new"))


VERSIONS = "".join(version_line(n - 1, "s%d" % n, n) for n in range(1, 6))
MARKED = VERSIONS + "5\t%s\t{\"id\":5}\n" % MARK


def disk_cut():
    log = (MARKED + "\n").encode()
    on_full_disk("disk_cut", log + b"what a killed write left\n" * 300, log[:-1], older=True)


def disk_end():
    log = padded(MARKED, "")
    on_full_disk("disk_end", log, log)


def disk_mark():
    log = padded(VERSIONS, "\n")
    on_full_disk("disk_mark", log, log[:-1] + ("6\t%s\t{\"id\":5}\n" % MARK).encode())


def disk():
    with small_disk("disk") as place:
        registry, clients = Kept(place + "/log", "--new"), Clients()
        path = registry.path
        write(place + "/ballast", bytes(128 << 10))
        for _ in range(2_000):
            if clients.register(registry) != [(200, "registered")]:
                break
        kept = len(clients.kept)
        lines = [line for line in registry.lines() if line.startswith("log lost")]
        same("what it says", ["log lost at offset %d: StorageFull: make room on the disk, then restart" % kept], lines)
        say("after %d schemas: %s" % (kept, "; ".join(lines)))
        same("writes then", [UNSETTLED], clients.register(registry, 3))
        same("/ready", (503, "lost"), registry.ready())
        clients.look(registry)
        os.remove(place + "/ballast")
        same("writes with room, before a restart", [UNSETTLED], clients.register(registry, 2))
        same("/ready", (503, "lost"), registry.ready())
        fill(place)
        registry.end()
        registry = Kept(path)
        say("at a start on the full disk: %s" % "; ".join(registry.lines()))
        same("whether it serves", True, registry.serves())
        clients.look(registry)
        same("/ready", (503, "declined"), registry.ready())
        declined(registry, clients)
        registry.end()
        os.remove(place + "/ballast")
        again(path, clients)


# ---- The system fails

FAILS = r"""
#define _GNU_SOURCE
#include <errno.h>
#include <stdlib.h>
#include <sys/syscall.h>
#include <unistd.h>
static int fails(long number, int fd) {
    if (access(getenv("FAILS"), F_OK) == 0) { errno = EIO; return -1; }
    return syscall(number, fd);
}
int fsync(int fd) { return fails(SYS_fsync, fd); }
int fdatasync(int fd) { return fails(SYS_fdatasync, fd); }
"""


def sync():
    place = FOLDER + "/sync"
    os.mkdir(place)
    write(place + "/fails.c", FAILS.encode())
    run("cc", "-shared", "-fPIC", "-o", place + "/fails.so", place + "/fails.c")
    how = {"env": {**os.environ, "LD_PRELOAD": place + "/fails.so", "FAILS": place + "/now"}}
    path, clients = place + "/log", Clients()
    registry = Kept(path, "--new", **how)
    same("the first answers", [(200, "registered")], clients.register(registry, 3))
    write(place + "/now", b"")
    lost(registry, clients, "EIO: restart the machine, or serve a copy of the file")
    registry.end()
    registry = Kept(path, **how)
    say("at a start whose syncs fail: %s" % "; ".join(registry.lines()))
    same("how it ends", (1, ["log file: EIO"]), (registry.process.returncode, registry.lines()))
    os.remove(place + "/now")
    shutil.copyfile(path, path + ".copy")
    again(path + ".copy", clients, **how).end()


def fails(wanted, path, *words, **how):
    """A start that fails with one of these lines and status 1."""
    registry = Kept(path, *words, **how)
    if registry.serves():
        registry.end()
    lines = registry.lines()
    if registry.process.returncode != 1 or len(lines) != 1 or lines[0] not in wanted:
        bad("a start over", path, "ends with", registry.process.returncode, lines, "and should say", wanted)
    say("%s: status %s" % ("; ".join(lines), registry.process.returncode))


def names():
    place = FOLDER + "/names"
    os.mkdir(place)
    log = (MARKED + "\n").encode()
    path = place + "/log"
    write(path, log)
    nobody = {"user": NOBODY, "group": NOBODY, "extra_groups": []}
    os.chmod(path, 0o600)
    fails(["log file: PermissionDenied"], path, **nobody)
    os.chown(path, NOBODY, NOBODY)
    fails(["log file: PermissionDenied"], path, **nobody)  # no lock can be made in the folder
    fails(["log file: PermissionDenied"], place + "/other", "--new", **nobody)
    fails(["log file: IsADirectory"], place)
    fails(["log file: NotADirectory"], path + "/log")
    os.symlink(place + "/round", place + "/round")
    fails(["log file: FilesystemLoop", "log file: ELOOP", "log file: os error 40"], place + "/round")
    fails(["log file: InvalidFilename", "log file: ENAMETOOLONG", "log file: os error 36"], place + "/" + "n" * 300)
    os.mkdir(place + "/fixed")
    write(place + "/fixed/log", log)
    run("mount", "--bind", place + "/fixed", place + "/fixed")
    try:
        run("mount", "-o", "remount,bind,ro", place + "/fixed")
        fails(["log file: ReadOnlyFilesystem"], place + "/fixed/log")
    finally:
        run("umount", place + "/fixed")
    with socket.socket() as taken:
        taken.bind(("127.0.0.1", 0))
        taken.listen()
        port = taken.getsockname()[1]
        ran = subprocess.run([PROGRAM, "keep", "--listen", "127.0.0.1:%d" % port, "--quiet", path], capture_output=True, text=True, timeout=60)
        same("a port in use", (1, "port %d: AddrInUse\n" % port), (ran.returncode, ran.stderr))
    write(place + "/fault", MARKED.encode() + b"x\n")
    registry = Kept(place + "/fault")
    same("a line with a fault", (2, ["line 7: BadTabs"]), (registry.process.returncode, registry.lines()))
    too_large()


def too_large():
    """A limit on the size of files is met."""
    def limit():
        signal.signal(signal.SIGXFSZ, signal.SIG_IGN)
        resource.setrlimit(resource.RLIMIT_FSIZE, (4096, 4096))
    place = FOLDER + "/too_large"
    os.mkdir(place)
    registry, clients = Kept(place + "/log", "--new", preexec_fn=limit), Clients()
    for _ in range(100):
        if clients.register(registry) != [(200, "registered")]:
            break
    lines = [line for line in registry.lines() if line.startswith("log lost")]
    if len(lines) != 1 or not re.fullmatch(r"log lost at offset %d: FileTooLarge: .+" % len(clients.kept), lines[0]):
        bad("a file past its limit:", lines)
    say("; ".join(lines))
    clients.look(registry)
    registry.end()
    again(place + "/log", clients).end()


NAMES = ("rename remove put_back folder covered sed copy restore appended emptied overwritten copied compaction uncompacted unlocked linked missing unmounted new cut recipe moved_in "
         "full no_room fills disk_cut disk_end disk_mark disk sync names").split()


def main():
    os.chmod(FOLDER, 0o755)
    for name in sys.argv[2:] or NAMES:
        print(name, flush=True)
        try:
            globals()[name]()
        except (AssertionError, LookupError, OSError, TypeError, ValueError, subprocess.SubprocessError) as error:
            bad("the trial ended:", repr(error))
        for registry in Kept.running:
            if registry.serves():
                registry.end()
        Kept.running.clear()
    print("all as it should be" if not WRONG else "%d WRONG, in %s" % (len(WRONG), FOLDER))
    if not WRONG:
        shutil.rmtree(FOLDER)
    sys.exit(1 if WRONG else 0)


main()
