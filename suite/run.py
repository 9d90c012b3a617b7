#!/usr/bin/env python3
"""Runs somebody's interpreter on a folder of programs whose outputs are known, and says which rules it keeps.

A folder is suite/probes/TARGET, or one that suite/make.py made. The command is split as a shell would, and no shell runs; {program}
stands for the program's file and {codel} for the width of a codel in pixels (Piet). --stdin '{program}' is for interpreters that
read the program from standard input, and --after '\\n' for one that writes something of its own after each output. The status is 0 where all passed, 1 where one
did not, 2 where nothing could be run. Python 3 and its standard library are enough.

    suite/run.py suite/probes/brainfuck --command 'beef {program}'
"""
import argparse
import collections
import concurrent.futures
import json
import os
import shlex
import shutil
import signal
import subprocess
import sys
import tempfile
import threading
import time
import xml.etree.ElementTree

import pixels

sys.path.append(os.path.join(os.path.dirname(os.path.abspath(__file__)), "host"))
import hosts

VERDICTS = ("passed", "failed", "late", "left out")
Run = collections.namedtuple("Run", "output status errors late cut")
Result = collections.namedtuple("Result", "entry verdict note seconds extra", defaults=(None,))
# What a shell makes of a command that crashed.
CRASHES = {128 + signal.Signals[name] for name in ("SIGSEGV", "SIGABRT", "SIGFPE", "SIGILL", "SIGBUS") if name in signal.Signals.__members__}


def give_up(line):
    sys.stderr.write(f"run.py: {line}\n")
    sys.exit(2)


# The words of the command line.

class Words(argparse.ArgumentParser):
    def error(self, message):
        give_up(message)


def at_most(text):
    """What stands in `steps=N,tape=N`."""
    try:
        return {name: int(number) for name, number in (part.split("=") for part in text.split(","))}
    except ValueError:
        raise argparse.ArgumentTypeError("wants NAME=NUMBER,..")


def escaped(text):
    """Bytes in which \\n, \\t, \\r and \\xHH are told as in Python."""
    try:
        return text.encode().decode("unicode_escape").encode("latin-1")
    except (UnicodeError, ValueError):
        raise argparse.ArgumentTypeError("wants text with escapes as \\n")


def read_words():
    words = Words(description=__doc__.split("\n")[0], usage="%(prog)s FOLDER --command 'INTERPRETER {program}' [options]")
    words.add_argument("folder")
    words.add_argument("--command", required=True)
    words.add_argument("--jobs", type=int, default=min(4, os.cpu_count() or 1), help="how many run side by side")
    words.add_argument("--seconds", type=float, default=10, help="how long a program may take")
    words.add_argument("--only", help="programs with this word in their name, rule or kind")
    words.add_argument("--at-most", type=at_most, default={}, metavar="steps=N,..", help="leaves out programs that need more")
    words.add_argument("--stdin", metavar="TEXT", default="{input}", help="what standard input holds: {program} and {input} stand for bytes")
    words.add_argument("--after", metavar="TEXT", default="", type=escaped, help="what the interpreter writes after each output, as \\n\\n")
    words.add_argument("--form", help="png, wast or wasi in the place of the plain program")
    words.add_argument("--status", action="store_true", help="the status counts: 0 for a run that ends, and else another one")
    words.add_argument("--strict", action="store_true", help="at open points the suite's own convention is asked for")
    words.add_argument("--all", action="store_true", help="runs programs that lean on another convention, too")
    words.add_argument("--json", metavar="F")
    words.add_argument("--junit", metavar="F")
    given = words.parse_args()
    if given.jobs < 1 or given.seconds <= 0:
        give_up("--jobs and --seconds want more than 0")
    return given


def read_index(folder):
    try:
        with open(os.path.join(folder, "index.json"), encoding="utf-8") as file:
            index = json.load(file)
        return index if index["suite"] == 1 and index["programs"] is not None else give_up(f"{folder} is no suite")
    except (OSError, ValueError, KeyError, TypeError):
        return give_up(f"{folder} is no suite of programs (it has no index.json of one)")


def read_command(given):
    try:
        command = shlex.split(given.command)
    except ValueError as error:
        give_up(f"--command can't be split: {error}")
    if not any("{program}" in word for word in [*command, given.stdin]):
        give_up("--command has no {program}")
    if shutil.which(command[0]) is None:
        give_up(f"{command[0]} isn't there, or can't be run")
    return command


# Running.

class Runner:
    """Runs the command, a program at a time or several, and kills what is left when it is told to stop."""

    def __init__(self, given, command, room):
        self.given, self.command, self.room = given, command, room
        self.lock, self.running, self.stopped = threading.Lock(), set(), False

    def stop(self):
        with self.lock:
            self.stopped = True
            for process in self.running:
                kill(process)

    def run(self, entry, path):
        """What the command writes for a program, and how it ends."""
        command = [word.replace("{program}", path).replace("{codel}", str(entry.get("codel", 1))) for word in self.command]
        with self.stdin_of(entry, path) as stdin, tempfile.TemporaryFile(dir=self.room) as errors:
            with self.lock:
                if self.stopped:
                    raise InterruptedError
                process = subprocess.Popen(command, stdin=stdin, stdout=subprocess.PIPE, stderr=errors, start_new_session=True)
                self.running.add(process)
            timer = threading.Timer(self.given.seconds, self.is_late, [process])
            timer.start()
            try:
                output, cut = read_output(process, self.most(entry))
                status = process.wait()
            finally:
                timer.cancel()
                kill(process)
                process.stdout.close()
                process.wait()
                with self.lock:
                    self.running.discard(process)
            if self.stopped:
                raise InterruptedError
            errors.seek(0)
            if self.given.after and output.endswith(self.given.after):
                output = output[: -len(self.given.after)]
            return Run(output, status, errors.read(4096), getattr(process, "was_late", False), cut)

    def stdin_of(self, entry, path):
        """A file with what the command reads."""
        given = os.path.join(self.given.folder, entry["input"]) if "input" in entry else os.devnull
        if self.given.stdin == "{input}":
            return open(given, "rb")
        made = tempfile.TemporaryFile(dir=self.room)
        with open(path, "rb") as program, open(given, "rb") as read:
            made.write(self.given.stdin.encode().replace(b"{program}", program.read()).replace(b"{input}", read.read()))
        made.seek(0)
        return made

    def is_late(self, process):
        process.was_late = True
        kill(process)

    def most(self, entry):
        """How many bytes of output are read: some more than there should be."""
        return 65536 + max((len(output) for output in self.wanted(entry).values()), default=0)

    def wanted(self, entry):
        """The outputs of a program, by convention; a program that is no open point has one."""
        if entry["kind"] == "point":
            return {name: text.encode("latin-1") for name, text in entry["outputs"].items()}
        with open(os.path.join(self.given.folder, entry["output"]), "rb") as file:
            return {"": file.read()}


def kill(process):
    """A process and its children, which are a group of their own where the system has such."""
    try:
        if hasattr(os, "killpg"):
            os.killpg(process.pid, signal.SIGKILL)
        else:
            process.kill()
    except (ProcessLookupError, PermissionError):
        pass


def read_output(process, most):
    """What a process writes, to its end or to a limit, at which it is killed."""
    parts, size = [], 0
    while size <= most:
        part = os.read(process.stdout.fileno(), 65536)
        if not part:
            return b"".join(parts), False
        parts.append(part)
        size += len(part)
    kill(process)
    return b"".join(parts), True


def file_of(given, entry, room):
    """The file of a program in the form that is asked for, or None where there is none."""
    if given.form is None:
        return os.path.abspath(os.path.join(given.folder, entry["program"]))
    if given.form in entry:
        return os.path.abspath(os.path.join(given.folder, entry[given.form]))
    if given.form == "png" and entry["program"].endswith(".ppm"):
        with open(os.path.join(given.folder, entry["program"]), "rb") as file:
            rows = pixels.read_ppm(file.read())
        path = os.path.join(room, entry["name"] + ".png")
        if rows is not None:
            with open(path, "wb") as file:
                file.write(pixels.png(rows))
            return path
    if given.form == "wasi" and entry["program"].endswith(".wasm") and entry["ends"] != "refused":
        with open(os.path.join(given.folder, entry["program"]), "rb") as file:
            module = hosts.for_host(file.read(), hosts.Wasi())
        path = os.path.join(room, entry["name"] + ".wasm")
        with open(path, "wb") as file:
            file.write(module)
        return path if b"wasi_snapshot_preview1" in module else None
    return None


# Judging.

def shown(byte):
    return f"0x{byte:02x}" + (f" '{chr(byte)}'" if 32 < byte < 127 else "")


def difference(got, wanted):
    """The first byte that differs, in words."""
    at = next((k for k in range(min(len(got), len(wanted))) if got[k] != wanted[k]), min(len(got), len(wanted)))
    if at == len(got):
        return f"the output ends after {at} bytes, and byte {at + 1} should be {shown(wanted[at])}"
    if at == len(wanted):
        return f"byte {at + 1} is {shown(got[at])}, and the output should have ended"
    return f"byte {at + 1} is {shown(got[at])}, and should be {shown(wanted[at])}"


def crash_of(status):
    if status < 0:
        return signal.Signals(-status).name if -status in [s.value for s in signal.Signals] else f"signal {-status}"
    return signal.Signals(status - 128).name if status in CRASHES else None


def last_words(run):
    """The first line that the command wrote on standard error."""
    line = run.errors.decode("utf-8", "replace").strip().split("\n")[0]
    return f"; it says: {line[:150]}" if line else ""


def late_note(run, wanted, given):
    note = f"it didn't end in {given.seconds:g} seconds"
    if run.output == wanted:
        return note + ", though the output is right so far"
    return note if wanted.startswith(run.output) else f"{note}: {difference(run.output, wanted)}"


def wrong_note(run, entry, wanted, crash):
    """What there is to say of an output that isn't the one that is wanted."""
    if run.output == wanted + b"\n":
        return "the output is right, but for a line feed of its own at the end"
    if run.output and run.output + b"\n" == wanted:
        return "the output is right, but for the line feed at the end"
    if crash and wanted.startswith(run.output):
        return f"it crashed ({crash}) after {len(run.output)} of {len(wanted)} bytes, which are right"
    if entry["ends"] == "refused":
        return "it was run, and should have been refused: " + difference(run.output, wanted)
    return difference(run.output, wanted)


def status_note(run, entry):
    """What there is to say of a status that isn't as it should be; None of others."""
    if (run.status == 0) == (entry["ends"] == "ends"):
        return None
    told = {"ends": "the program ends", "fault": "the program meets a fault", "refused": "the program is to be refused"}
    return f"the output is right, and the status {run.status}: {told[entry['ends']]}"


def judge(run, entry, wanted, given):
    """Whether a run is as wanted, and what there is to say."""
    if run.late:
        return "late", late_note(run, wanted, given)
    if given.form == "wast":
        return ("passed", "") if run.status == 0 else ("failed", f"status {run.status}" + last_words(run))
    crash = None if run.cut else crash_of(run.status)
    if run.output != wanted:
        return "failed", wrong_note(run, entry, wanted, crash) + last_words(run)
    if crash and entry["ends"] == "ends":
        return "failed", f"the output is right, and then it crashed ({crash})" + last_words(run)
    if given.status and status_note(run, entry):
        return "failed", status_note(run, entry) + last_words(run)
    return "passed", f"status {run.status}" if run.status != 0 and entry["ends"] == "ends" else ""


def is_unfed(entry, given):
    """A program whose input can't be given."""
    is_fed = "{input}" in given.stdin or "input" not in entry or os.path.getsize(os.path.join(given.folder, entry["input"])) == 0
    return None if is_fed else "its input can't be given"


def needs_more(entry, limits):
    return next((f"needs {name}={entry['needs'][name]}" for name, most in limits.items() if entry.get("needs", {}).get(name, 0) > most), None)


def extra_of(run, wanted):
    """Blanks and line feeds that come after a right output."""
    extra = run.output[len(wanted) :] if run.output.startswith(wanted) else b""
    return extra if extra and not extra.strip() else None


class Session:
    """A run over a folder: the conventions that were met, and the results so far."""

    def __init__(self, given, index, runner):
        self.given, self.runner, self.rules = given, runner, index["rules"]
        self.met, self.results, self.point_runs = {}, [], {}
        chosen = [entry for entry in index["programs"] if self.is_chosen(entry)]
        # Open points are met first, also where only some programs are chosen, since programs lean on them.
        points = [entry for entry in index["programs"] if entry["kind"] == "point"]
        self.points = points if given.form != "wast" else []
        self.chosen, self.count = chosen, len(chosen)

    def is_chosen(self, entry):
        word = self.given.only
        return word is None or any(word in entry[key] for key in ("name", "rule", "kind"))

    def run_entry(self, entry):
        begun = time.monotonic()
        path = file_of(self.given, entry, self.runner.room)
        reason = "it isn't there in this form" if path is None else None
        reason = reason or is_unfed(entry, self.given) or needs_more(entry, self.given.at_most) or self.other_convention(entry)
        if reason:
            return Result(entry, "left out", reason, 0)
        if entry["kind"] == "point" and self.given.form != "wast":
            return self.meet(entry, path, begun)
        wanted = next(iter(self.runner.wanted(entry).values())) if entry["kind"] != "point" else b""
        run = self.runner.run(entry, path)
        verdict, note = judge(run, entry, wanted, self.given)
        if verdict == "failed" and entry["program"].endswith((".b", ".sq")) and not self.is_ended_by_line_feed(path):
            note += self.with_line_feed(entry, path, wanted)
        return Result(entry, verdict, note, time.monotonic() - begun, extra_of(run, wanted))

    def is_ended_by_line_feed(self, path):
        with open(path, "rb") as file:
            return file.read().endswith(b"\n")

    def with_line_feed(self, entry, path, wanted):
        """Whether a program passes once its file ends with a line feed."""
        copy = os.path.join(self.runner.room, "ended-" + os.path.basename(path))
        with open(path, "rb") as file, open(copy, "wb") as other:
            other.write(file.read() + b"\n")
        passes = judge(self.runner.run(entry, copy), entry, wanted, self.given)[0] == "passed"
        return "; it passes with a line feed at the end of the file" if passes else ""

    def meet(self, entry, path, begun):
        """Which convention an open point's probe shows."""
        run = self.runner.run(entry, path)
        wanted = self.runner.wanted(entry)
        found = [name for name, output in wanted.items() if output == run.output and not run.late]
        if found:
            self.met[entry["point"]] = found[0]
        if self.given.strict:
            verdict, note = judge(run, {**entry, "ends": entry.get("ends", "ends")}, wanted[entry["own"]], self.given)
        elif found:
            verdict, note = "passed", f"{entry['point']}: {found[0]}"
        else:
            verdict, note = judge(run, entry, wanted[entry["own"]], self.given)
            note = "none of the conventions that are known: " + note
        return Result(entry, verdict, note, time.monotonic() - begun)

    def other_convention(self, entry):
        if self.given.strict or self.given.all:
            return None
        if entry["kind"] == "point":
            return None
        others = [point for point, convention in entry["leans"].items() if self.met.get(point, convention) not in (convention, *convention.split("|"))]
        return f"leans on {others[0]}: {entry['leans'][others[0]]}, and here it is {self.met[others[0]]}" if others else None

    def go(self, pool):
        first = list(self.points)
        rest = [entry for entry in self.chosen if entry not in first]
        for entries in (first, rest):
            waiting = {pool.submit(self.run_entry, entry) for entry in entries}
            for done in concurrent.futures.as_completed(waiting):
                result = done.result()
                if result.entry in self.chosen:
                    self.results.append(result)
                    self.progress()

    def progress(self):
        if sys.stderr.isatty():
            wrong = sum(result.verdict in ("failed", "late") for result in self.results)
            sys.stderr.write(f"\r{len(self.results)} of {self.count}, {wrong} not passed \r")
            sys.stderr.flush()


# Telling.

def counts_of(results):
    counts = collections.Counter(result.verdict for result in results)
    return {verdict: counts[verdict] for verdict in VERDICTS}


def tell_table(results):
    by_rule = {}
    for result in results:
        by_rule.setdefault(result.entry["rule"], []).append(result)
    width = max([len(rule) for rule in by_rule] + [4])
    print(f"{'rule':{width}}" + "".join(f"{verdict:>10}" for verdict in VERDICTS))
    for rule, mine in by_rule.items():
        print(f"{rule:{width}}" + "".join(f"{count:10}" for count in counts_of(mine).values()))


def tell_failures(results, rules):
    for result in results:
        if result.verdict in ("failed", "late"):
            entry = result.entry
            print(f"\n{result.verdict.upper()} {entry['name']}: {result.note}")
            print(f"    tests: {entry['tests']}\n    rule {entry['rule']}: {rules[entry['rule']]}")


def tell_points(session):
    for entry in session.points:
        met = session.met.get(entry["point"])
        if met is not None:
            print(f"open point {entry['point']}: {met}" + ("" if met == entry["own"] else f" (the suite's own is {entry['own']})"))


def tell_habits(results):
    """What is odd at many programs."""
    noted = [result.entry["name"] for result in results if result.verdict == "passed" and result.note.startswith("status ")]
    if noted:
        names = ", ".join(noted[:5]) + (" .." if len(noted) > 5 else "")
        print(f"\n{len(noted)} programs passed with a status other than 0, though they end (it counts with --status): {names}")
    extra = collections.Counter(result.extra for result in results if result.extra).most_common(1)
    if extra and extra[0][1] > 1:
        print(f"\n{extra[0][1]} outputs are right but for what comes after them: --after {ascii(extra[0][0].decode('latin-1'))} allows for it")
    ending = [result for result in results if result.entry["ends"] == "ends" and result.verdict != "left out"]
    if len(ending) > 1 and all(result.verdict == "failed" and "ends after 0 bytes" in result.note for result in ending):
        print("\nIt wrote nothing for any program that ends: perhaps it isn't there, or wants other words")


def tell(session, given, interrupted):
    order = {entry["name"]: at for at, entry in enumerate(session.chosen)}
    results = sorted(session.results, key=lambda result: order[result.entry["name"]])
    if sys.stderr.isatty():
        sys.stderr.write(" " * 40 + "\r")
    tell_table(results)
    tell_failures(results, session.rules)
    tell_habits(results)
    print()
    tell_points(session)
    counts = counts_of(results)
    print(("interrupted: " if interrupted else "") + ", ".join(f"{count} {verdict}" for verdict, count in counts.items()) + f", of {session.count}")
    write_reports(given, session, results, counts)
    if interrupted:
        return 130
    return 0 if counts["passed"] > 0 and counts["failed"] + counts["late"] == 0 else 1


def write_reports(given, session, results, counts):
    if given.json:
        programs = [{"name": result.entry["name"], "rule": result.entry["rule"], "verdict": result.verdict, "note": result.note,
                     "seconds": round(result.seconds, 3)} for result in results]
        with open(given.json, "w", encoding="utf-8") as file:
            json.dump({"command": given.command, "counts": counts, "conventions": session.met, "programs": programs}, file, indent=1)
            file.write("\n")
    if given.junit:
        numbers = {"tests": len(results), "failures": counts["failed"] + counts["late"], "skipped": counts["left out"]}
        suite = xml.etree.ElementTree.Element("testsuite", {"name": given.folder, **{name: str(number) for name, number in numbers.items()}})
        for result in results:
            told = {"classname": result.entry["rule"], "name": result.entry["name"], "time": f"{result.seconds:.3f}"}
            case = xml.etree.ElementTree.SubElement(suite, "testcase", told)
            if result.verdict != "passed":
                xml.etree.ElementTree.SubElement(case, "skipped" if result.verdict == "left out" else "failure", message=result.note)
        xml.etree.ElementTree.ElementTree(suite).write(given.junit, encoding="utf-8", xml_declaration=True)


def interrupt(*_):
    """The first signal ends the run, and what it had is told; further ones don't hinder that."""
    signal.signal(signal.SIGINT, signal.SIG_IGN)
    signal.signal(signal.SIGTERM, signal.SIG_IGN)
    raise KeyboardInterrupt


def main():
    given = read_words()
    sys.stdout.reconfigure(errors="replace")
    index, command = read_index(given.folder), read_command(given)
    signal.signal(signal.SIGINT, interrupt)
    signal.signal(signal.SIGTERM, interrupt)
    with tempfile.TemporaryDirectory() as room:
        runner = Runner(given, command, room)
        session = Session(given, index, runner)
        if session.count == 0:
            give_up(f"no program has {given.only} in its name, rule or kind")
        interrupted = False
        pool = concurrent.futures.ThreadPoolExecutor(given.jobs)
        try:
            session.go(pool)
        except KeyboardInterrupt:
            interrupted = True
        except OSError as error:
            give_up(f"{command[0]} can't be run: {error.strerror}")
        finally:
            runner.stop()
            pool.shutdown(wait=True, cancel_futures=True)
        return tell(session, given, interrupted)


if __name__ == "__main__":
    try:
        sys.exit(main())
    except BrokenPipeError:
        os.dup2(os.open(os.devnull, os.O_WRONLY), 1)
        sys.exit(1)
