"""Runs whose files and streams are not what they should be: closed, full, without end, gone in mid-answer, not read, or
interrupted."""
import array
import contextlib
import copy
import fcntl
import os
import resource
import shutil
import signal
import subprocess
import tempfile
import termios
import threading
import time

from helpers import wait_until
from runs import TRIANGLE, WON, Run, checked, ended_run, refused

SESSION = b"look\nlend a\ncommit\ncommit\nlend z\ngift a 0\nclaim\n"
ANSWERS = (b"0 looked 0 a=2 b=-1 c=-1\n1 moved a=0 b=0 c=0\n2 winnable by a=0 b=0 c=0 to a=0 b=0 c=0\nbad look\nbad name\n"
           b"3 refused gift\n4 won\n")
WRITE, READ, THREAD = (refused(text, status) for text, status in ((b"write fault", 5), (b"read fault", 5), (b"no thread", 4)))
NOBODY = 65534
# When a run in rank tests has taken so much processor time, it is in the midst of them.
TICKS = 5

# A test of seven dollars takes some milliseconds on this cycle of double edges: each of its 170,544 trials wins. With single
# edges and half the dollars the genus is 1 and the degree 8, so the rank is 7: any seven vertices can have a dollar there, and
# so two here.
SLOW = ('{"vertices":[%s],"edges":[%s,["a","p",2]],"amounts":[%s16],"q":"a"}' % (
    ",".join('"%s"' % name for name in "abcdefghijklmnop"),
    ",".join('["%s","%s",2]' % ends for ends in zip("abcdefghijklmno", "bcdefghijklmnop")), "0," * 15)).encode()


def commands(checks):
    """A run of each command that prints something, with its words."""
    table, steps = checks.put("triangle", TRIANGLE), checks.put("steps", b"1 lend a\n")
    return table, steps, [
        ("judge", table), ("rank", table, "1"), ("rr", table), ("greedy", table, "3"), ("rehearse", table, steps),
        ("party", table, checks.put("script", b"claim\n")), ("--help",), ("--version",)]


def outputs(checks):
    """Standard output or standard error is closed, or full. What is said of a fault may be lost, and the status is the same."""
    table, _, runs = commands(checks)
    session, missing = checks.put("session", SESSION), os.path.join(checks.folder, "missing")
    for how in "closed", "full":
        for words in runs:
            checks.ends("%s, output %s" % (words[0], how), WRITE, *words, stdout=how)
        checks.ends("serve, output %s" % how, WRITE, "serve", table, typed=session, stdout=how)
        checks.ends("faults %s" % how, Run(5, b"", b""), "judge", missing, stderr=how)
        checks.ends("an answer, faults %s" % how, Run(0, WON, b""), "judge", table, stderr=how)


def left_by_its_reader(child, got):
    """How a run ends whose reader has taken so much, and goes away."""
    child.stdout.close()
    with child.stderr as faults:
        said = faults.read()
    return Run(child.wait(), got, said)


def broken_pipes(checks):
    """The reader of a pipe goes away: before the answer, in the middle of one that is longer than a pipe, and between two
    answers of a session. It is a write fault, whether or not the signal for it is ignored; what was read is a beginning."""
    table, steps = checks.put("triangle", TRIANGLE), checks.put("long_steps", b"1 claim\n" * 65536)
    whole = b"".join(b"%d not won\n" % i for i in range(65536))
    for name, before in (("", None), (", signal ignored", lambda: signal.signal(signal.SIGPIPE, signal.SIG_IGN))):
        for taken in (0, 1, 10, 5000):
            child = checks.start("rehearse", table, steps, before=before)
            run = left_by_its_reader(child, child.stdout.read(taken))
            checks.same("a reader that takes %d bytes%s" % (taken, name), WRITE._replace(output=whole[:taken]), run)
        with checks.start("serve", table, before=before, stdin=subprocess.PIPE, bufsize=0) as child:
            child.stdin.write(b"look\n")
            got = child.stdout.readline()
            child.stdout.close()
            child.stdin.write(b"claim\n")
            run = left_by_its_reader(child, got)
        checks.same("a session whose reader goes away%s" % name, WRITE._replace(output=ANSWERS[:len(got)]), run)


def inputs(checks):
    """Standard input is closed, a folder, or has nothing yet and does not wait."""
    table, _, runs = commands(checks)
    for words in runs[:6]:
        checks.ends("%s, input closed" % words[0], checks.run(*words), *words, stdin="closed")
    checks.ends("serve, input closed", READ, "serve", table, stdin="closed")
    checks.ends("judge /dev/stdin, input closed", READ, "judge", "/dev/stdin", stdin="closed")
    folder, (ready, end) = os.open(checks.folder, os.O_RDONLY), os.pipe()
    checks.ends("serve, a folder as input", READ, "serve", table, stdin=folder)
    os.set_blocking(ready, False)
    os.write(end, b"claim\n")
    checks.ends("serve, an input that does not wait", READ._replace(output=b"0 not won\n"), "serve", table, stdin=ready)
    for opened in folder, ready, end:
        os.close(opened)


def files(checks):
    """A folder, a device without end, an empty one, and a file that is not there or may not be read, as each of the files."""
    table, steps, _ = commands(checks)
    folder, long = checks.folder, refused(b"file too long", 3)
    circle = os.path.join(folder, "circle")
    os.symlink(circle, circle)
    for what, path, run in (
            ("a folder", folder, READ), ("no file", os.path.join(folder, "missing"), READ), ("no name", "", READ),
            ("a file below a file", os.path.join(table, "below"), READ), ("a link to itself", circle, READ),
            ("a name of 300 letters", os.path.join(folder, "x" * 300), READ), ("zeros without end", "/dev/zero", long),
            ("numbers without end", "/dev/urandom", long), ("a file whose reads fail", "/proc/self/mem", READ)):
        checks.ends("%s as FILE" % what, run, "judge", path)
        checks.ends("%s as STEPS" % what, run, "rehearse", table, path)
        checks.ends("%s as SCRIPT" % what, run, "party", table, steps, path)
    checks.ends("nothing as FILE", refused(b"not JSON", 3), "judge", "/dev/null")
    checks.ends("nothing as STEPS", Run(0, b"", b""), "rehearse", table, "/dev/null")
    checks.ends("zeros without end as a session", refused(b"long line", 3), "serve", table, typed="/dev/zero")
    # A file is read to its end where that is now.
    checks.ends("a file of the system, of unknown length", refused(b"not JSON", 3), "judge", "/proc/self/status")


def fifos(checks):
    """A FIFO is read as it is written: in parts, with nothing in it, and with more than a file may have. Each file is read once,
    since a FIFO that is opened again has no writer; and none is opened before those that come first."""
    table, fifo = checks.put("triangle", TRIANGLE), os.path.join(checks.folder, "fifo")
    lines, script = checks.put("lines", b"2 -1 -1\n"), checks.put("script", b"claim\n")
    party = Run(0, b"0 1 not won\nentries 1\ngifts 0\nposition a=2 b=-1 c=-1\nseat 1 calls 1\n", b"")
    os.mkfifo(fifo)
    for what, words, parts, wanted in (
            ("in one part", ("judge", fifo), [TRIANGLE], Run(0, WON, b"")),
            ("byte by byte", ("judge", fifo), [bytes([byte]) for byte in TRIANGLE], Run(0, WON, b"")),
            ("with nothing in it", ("judge", fifo), [], refused(b"not JSON", 3)),
            ("cut off", ("judge", fifo), [TRIANGLE[:50]], refused(b"not JSON", 3)),
            ("with too much", ("judge", fifo), [b" " * 65536] * 17, refused(b"file too long", 3)),
            ("with steps", ("rehearse", table, fifo), [b"1 lend a\n"], Run(0, b"0 moved a=0 b=0 c=0\n", b"")),
            ("for a session", ("serve", fifo), [TRIANGLE], Run(0, b"", b"")),
            ("for a party", ("party", fifo, script), [TRIANGLE], party),
            ("with a script", ("party", table, fifo), [b"claim\n"], party),
            ("for amounts", ("judge", fifo, "--divisors", lines), [TRIANGLE], Run(0, WON, b"")),
            ("with amounts", ("judge", table, "--divisors", fifo), [b"2 -1 -1\n"], Run(0, WON, b"")),
            ("with tables", ("judge", "--lines", fifo), [TRIANGLE, b"\n"], Run(0, WON, b""))):
        child = checks.start(*words)
        with contextlib.suppress(BrokenPipeError), open(fifo, "wb", buffering=0) as end:
            for part in parts:
                end.write(part)
                time.sleep(0.001)
        checks.same("a FIFO %s" % what, wanted, ended_run(child))
    bad, missing = checks.put("bad", b"{"), os.path.join(checks.folder, "missing")
    for what, wanted, words in (
            ("STEPS, and FILE is refused", refused(b"not JSON", 3), ("rehearse", bad, fifo)),
            ("LINES, and FILE is refused", refused(b"not JSON", 3), ("judge", bad, "--divisors", fifo)),
            ("SCRIPT, and FILE is not read", READ, ("party", missing, fifo)),
            ("FILE, and there are 65 scripts", refused(b"too many seats", 3), ("party", fifo, *[script] * 65))):
        checks.ends("a FIFO without a writer as %s" % what, wanted, *words)


def changing_files(checks):
    """A file is cut, written anew and made longer while it is read, again and again. What comes is the whole answer to one of
    the texts, or the fault of a cut one, and never a mixture."""
    poor = TRIANGLE.replace(b"[2,-1,-1]", b"[1,-1,-1]")
    lost = b"unwinnable by a=0 b=-1 c=-1 to a=-1 b=0 c=0\n"
    path, done = checks.put("changing", TRIANGLE.rjust(300000)), threading.Event()

    def change():
        while not done.is_set():
            for text in (TRIANGLE.rjust(300000), poor.rjust(290000), poor.ljust(900000), TRIANGLE[:60],
                         TRIANGLE.ljust(1100000)):
                with open(path, "r+b") as file:
                    file.truncate(0 if len(text) < 300000 else len(text))
                    file.write(text)
    allowed = {Run(0, WON, b""), Run(0, lost, b""), refused(b"not JSON", 3), refused(b"file too long", 3)}
    changing = threading.Thread(target=change)
    changing.start()
    try:
        for turn in range(100):
            run = checks.run("judge", path)
            checks.holds("a file that changes, %d" % turn, run in allowed, run)
    finally:
        done.set()
        changing.join()


def without_threads():
    """Leaves this process no room for a thread. Who may start as many as he likes becomes somebody who may not."""
    if os.geteuid() == 0:
        os.setgroups([])
        os.setgid(NOBODY)
        os.setuid(NOBODY)
    resource.setrlimit(resource.RLIMIT_NPROC, (0, 0))


def are_threads_refused():
    """Whether a process is refused a thread so."""
    child = os.fork()
    if child == 0:
        try:
            without_threads()
            threading.Thread(target=int).start()
        except RuntimeError:
            os._exit(1)
        finally:
            os._exit(0)
    return os.waitstatus_to_exitcode(os.waitpid(child, 0)[1]) == 1


def threads(checks):
    """There is no room for a thread. The program lies where whoever has none may read it."""
    table, script = checks.put("triangle", TRIANGLE), checks.put("script", b"claim\n")
    os.chmod(checks.folder, 0o755)
    checks = copy.copy(checks)
    checks.program = shutil.copy(checks.program, os.path.join(checks.folder, "program"))
    if not are_threads_refused() or checks.run("judge", table, before=without_threads) != Run(0, WON, b""):
        print("left out: runs without room for a thread, for want of a limit on processes that refuses one")
        return
    told, typed = b"0 looked 0 a=2 b=-1 c=-1\nbad trials\n", b"look\nrank 631\nrank 1\nclaim\n"
    alone = b"0 1 not won\nentries 1\ngifts 0\nposition a=2 b=-1 c=-1\nseat 1 calls 1\n"
    for wanted, words in [
            (THREAD, ("party", table, script, script)), (Run(0, alone, b""), ("party", table, script)),
            *((THREAD, ("rank", table, "1", "--workers", workers)) for workers in ("2", "4", "16")),
            (Run(0, b"rank below 1 at a=0 b=0 c=1\n", b""), ("rank", table, "1")),
            (THREAD._replace(output=told), ("serve", table, "--workers", "2")),
            (Run(0, told + b"1 rank below 1 at a=0 b=0 c=1\n2 not won\n", b""), ("serve", table))]:
        checks.ends("%s without threads" % " ".join(words), wanted, *words, typed=typed, before=without_threads)


def interrupts(checks):
    """An interrupt ends a run at once, without a word: nothing is printed of an answer that is not whole yet, and a session
    has written its answers in whole lines."""
    table, slow = checks.put("triangle", TRIANGLE), checks.put("slow", SLOW)
    steps, fifo = checks.put("ranks", b"1 look\n1 rank 7\n" * 20000), os.path.join(checks.folder, "silent")
    os.mkfifo(fifo)
    for number in (signal.SIGINT, signal.SIGTERM):
        ended = Run(-number, b"", b"")
        for words in (("rank", slow, "7"), ("rank", slow, "7", "--workers", "4")):
            interrupted_ranks(checks, number, words)
        child = checks.start("rehearse", slow, steps)
        wait_until(lambda: told_of(child)[1] > TICKS)
        child.send_signal(number)
        checks.same("rehearse, interrupted", ended, ended_run(child))
        child = checks.start("judge", fifo)
        # It is opened when the program opens it too.
        with open(fifo, "wb"):
            child.send_signal(number)
            checks.same("judge that waits for a FIFO, interrupted", ended, ended_run(child))
        for what, board, typed, answers, more, ticks in (
                ("a session", table, SESSION + b"look\n", ANSWERS + b"5 looked 0 a=0 b=0 c=0\n", b"ran", -1),
                ("a session in rank tests", slow, b"claim\n", b"0 won\n", b"look\nrank 7\n" * 2000, TICKS)):
            child = checks.start("serve", board, stdin=subprocess.PIPE, bufsize=0)
            child.stdin.write(typed)
            got = b"".join(child.stdout.readline() for _ in answers.splitlines())
            child.stdin.write(more)
            wait_until(lambda: told_of(child)[1] > ticks)
            child.send_signal(number)
            checks.same("%s, interrupted" % what, ended._replace(output=answers), ended_run(child, got))


def interrupted_ranks(checks, number, words):
    """Rank tests that are interrupted sooner or later: each is over, or has printed nothing, or had printed the whole answer of
    a run that nobody interrupts and was not over yet."""
    whole, ended, endings = checks.run(*words), Run(-number, b"", b""), set()
    checks.same("%s answers" % " ".join(words), Run(0, b"rank at least 7\n", b""), whole)
    for turn in range(40):
        child = checks.start(*words)
        time.sleep(turn / 2000)
        child.send_signal(number)
        endings.add(ended_run(child))
    allowed = {whole, ended, ended._replace(output=whole.output)}
    checks.holds("%s, interrupted" % " ".join(words), ended in endings and endings <= allowed, endings)


def told_of(child):
    """What the system tells of a run: its state, S if it waits, and how many ticks of processor time it took."""
    with open("/proc/%d/stat" % child.pid) as file:
        fields = file.read().rpartition(")")[2].split()
    return fields[0], int(fields[11]) + int(fields[12])


def held_by(output):
    """How many bytes are in a pipe."""
    held = array.array("i", [0])
    fcntl.ioctl(output, termios.FIONREAD, held)
    return held[0]


LOOKS, TURNS, TABLES = 20000, 65536, 20000


def long_answers(checks):
    """Runs whose answers are longer than a pipe holds: the words, a file for the input or None, and all that they print."""
    table, circle = checks.put("triangle", TRIANGLE), checks.put("poor", TRIANGLE.replace(b"[2,-1,-1]", b"[-1,1,0]"))
    looks, steps = checks.put("looks", b"look\n" * LOOKS), checks.put("look_steps", b"1 look\n" * LOOKS)
    tables = checks.put("tables", (TRIANGLE + b"\n") * TABLES)
    seen = b"".join(b"%d looked 0 a=2 b=-1 c=-1\n" % entry for entry in range(LOOKS))
    seat = b"".join(b"%d 1 looked 0 a=2 b=-1 c=-1\n" % entry for entry in range(LOOKS))
    # The first in debt borrows, and after three turns all is as it was: -1 1 0, then 1 0 -1, then 0 -1 1.
    turns = b"".join(b"%d moved %s\n" % (turn, (b"a=1 b=0 c=-1", b"a=0 b=-1 c=1", b"a=-1 b=1 c=0")[turn % 3])
                     for turn in range(TURNS))
    return [
        (("serve", table), looks, seen), (("serve", table, "--seats", "1"), steps, seen),
        (("rehearse", table, steps), None, seen),
        (("party", table, looks), None, seat), (("greedy", circle, str(TURNS)), None, turns),
        (("judge", "--lines", tables), None, WON * TABLES),
        (("rank", "--lines", tables, "0"), None, b"rank at least 0\n" * TABLES),
        (("rr", "--lines", tables), None, b"degree 0 genus 1 rank 0 dual 0\n" * TABLES)]


def unread_answers(checks):
    """A reader that waits while the program is interrupted gets a beginning of the answers, which may end within a line, and no
    word of a fault."""
    cut = 0
    for words, given, whole in long_answers(checks):
        for number in (signal.SIGINT, signal.SIGTERM):
            with open(given or os.devnull, "rb") as typed:
                child = checks.start(*words, stdin=typed)
                wait_until(lambda: held_by(child.stdout) > 0 and told_of(child)[0] == "S")
                held = held_by(child.stdout)
                child.send_signal(number)
                run = ended_run(child)
            what = "%s, interrupted, whose reader waits" % " ".join(words[:2] if words[1] == "--lines" else words[:1])
            checks.same(what, (-number, b""), (run.status, run.faults))
            checks.holds("%s: the output" % what, held <= len(run.output) < len(whole) and whole.startswith(run.output),
                         len(run.output))
            cut += not run.output.endswith(b"\n")
    checks.holds("an output that is cut within a line", cut > 0)


def file_limits(checks):
    """A file that may not grow: the signal for it ends the program without a word, and where that is ignored the end is a write
    fault; the file has the first bytes of the answer either way."""
    words, _, whole = long_answers(checks)[2]
    for name, action, status, faults in (("", signal.SIG_DFL, -signal.SIGXFSZ, b""),
                                         (", signal ignored", signal.SIG_IGN, WRITE.status, WRITE.faults)):
        def limited():
            signal.signal(signal.SIGXFSZ, action)
            resource.setrlimit(resource.RLIMIT_FSIZE, (1000, 1000))

        with tempfile.TemporaryFile() as output:
            run = checks.run(*words, before=limited, stdout=output)
            output.seek(0)
            checks.same("an output that may have 1,000 bytes%s" % name, Run(status, whole[:1000], faults),
                        run._replace(output=output.read()))


def other_names(checks):
    """A program whose file has another name says the same, also in its usage."""
    table, link = checks.put("triangle", TRIANGLE), os.path.join(checks.folder, "another")
    os.symlink(os.path.realpath(checks.program), link)
    for words in (["--help"], ["judge"], ["judge", "--help"], ["judge", table, "x"], ["judge", "--workers", "2", table], ["juge"]):
        own, other = (subprocess.run([name, *words], stdin=subprocess.DEVNULL, stdout=subprocess.PIPE, stderr=subprocess.PIPE)
                      for name in (checks.program, link))
        checks.same("%s by another name" % words[:2], Run(own.returncode, own.stdout, own.stderr),
                    Run(other.returncode, other.stdout, other.stderr))


load_tests = checked(outputs, broken_pipes, inputs, files, fifos, changing_files, threads, interrupts, unread_answers,
                     file_limits, other_names)
