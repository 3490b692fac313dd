"""Runs image_tool many times. There are three kinds of programs: the program itself, which runs in parallel; the second implementation
in reference/, which runs in processes of the tool (second.py); and examples/unproved, which makes many calls at once.

All files are in one folder of the caller. A Run carries out some lines on an image of this folder.
"""
import concurrent.futures
import contextlib
import os
import re
import signal
import subprocess
import sys
from concurrent.futures.process import BrokenProcessPool
from dataclasses import dataclass
from typing import Optional

TOP = os.path.dirname(os.path.dirname(os.path.dirname(os.path.abspath(__file__))))
BUILT = os.path.join(TOP, "crates", "image_tool", "out", "image_tool")
SECOND = os.path.join(TOP, "reference", "tool")
NOT_BUILT = "there is no built program; (cd crates/image_tool && rt run) proves and builds it"


class ProgramFailed(Exception):
    """The program cannot be run, or it ends in a way that no input explains."""


@dataclass
class Run:
    """Lines on an image: the names of the files in the folder. The image that is left is kept if it has a name."""
    image: str
    lines: list
    out: Optional[str] = None
    command: str = "run"


@dataclass
class Ended:
    status: int
    text: str

    def answers(self):
        """The answer to the opening mount, and to each line: the texts of one answer are joined by '; '."""
        found, answer = [], []
        for line in self.text.splitlines():
            answer.append(line)
            if line.split(" ")[0] not in ("give", "have", "record"):
                found.append("; ".join(answer))
                answer = []
        return found


def script_of(lines):
    return "".join(line + "\n" for line in lines)


def write_script(folder, name, lines):
    with open(os.path.join(folder, name), "w", encoding="utf-8", newline="\n") as file:
        file.write(script_of(lines))


def call(program, folder, words):
    """Calls the program in the folder."""
    try:
        ended = subprocess.run([program, *words], cwd=folder, stdin=subprocess.DEVNULL, capture_output=True, check=False)
    except OSError as error:
        raise ProgramFailed(f"{program}: {error.strerror}") from error
    if ended.returncode not in (0, 2, 3, 4):
        said = (ended.stdout[-200:] + ended.stderr[-200:]).decode(errors="replace").strip()
        raise ProgramFailed(f"{program} {' '.join(words)}: status {ended.returncode} {said}".replace("\n", " "))
    return Ended(ended.returncode, ended.stdout.decode(errors="replace"))


ENDS = (signal.SIGINT, signal.SIGTERM)


def hold(how):
    """Holds signals back, or lets them through. Windows has no such call, and its processes get no signals here."""
    if hasattr(signal, "pthread_sigmask"):
        signal.pthread_sigmask(getattr(signal, how), ENDS)


@contextlib.contextmanager
def signals_held():
    hold("SIG_BLOCK")
    try:
        yield
    finally:
        hold("SIG_UNBLOCK")


def begin_process():
    """Begins each process of a pool, which starts with its signals held. ^C ends the first process alone, which then ends these."""
    signal.signal(signal.SIGINT, signal.SIG_IGN)
    signal.signal(signal.SIGTERM, signal.SIG_DFL)
    hold("SIG_UNBLOCK")


def in_parallel(carry_out_one, tasks, jobs, progress):
    """Carries out tasks in processes of their own. The results are in the order of the tasks."""
    ended = []
    if not tasks:
        return ended
    chunk = max(1, min(32, len(tasks) // (4 * jobs)))
    with concurrent.futures.ProcessPoolExecutor(jobs, initializer=begin_process) as pool:
        try:
            with signals_held():
                results = pool.map(carry_out_one, tasks, chunksize=chunk)
            for one in results:
                ended.append(one)
                progress(len(ended), len(tasks))
        except BrokenProcessPool as fault:
            raise ProgramFailed("a process of this tool was ended from outside") from fault
        finally:
            pool.shutdown(cancel_futures=True)
    return ended


def carry_out(task):
    """Carries out one Run, in a process of the pool."""
    program, folder, run = task
    own = str(os.getpid())
    write_script(folder, f"{own}.txt", run.lines)
    return call(program, folder, [run.command, run.image, f"{own}.txt", run.out or f"{own}.img"])


class Program:
    """The program itself. Runs that do not depend on each other are carried out in parallel."""

    def __init__(self, program, folder, jobs=None):
        self.program, self.folder, self.jobs = os.path.abspath(program), folder, jobs or os.cpu_count() or 1
        self.by = f"the program {program}"

    def build(self, image, spec):
        return call(self.program, self.folder, ["build", image, spec])

    def chain(self, runs):
        """Carries out runs one after another, each on what the one before left."""
        return [carry_out((self.program, self.folder, run)) for run in runs]

    def runs(self, runs, progress=lambda done, all_of_them: None):
        """Carries out runs in any order. The results are in the order of the runs."""
        return in_parallel(carry_out, [(self.program, self.folder, run) for run in runs], self.jobs, progress)


class Unproved:
    """The program by examples/unproved: one build carries out the runs of a call one after another."""
    by = "examples/unproved, which checks no contract"

    def __init__(self, program, folder):
        self.program, self.folder, self.builds = os.path.abspath(program), folder, []

    def build(self, image, spec):
        """Notes the call. It is made before the next runs, by the same build, since a build takes minutes."""
        self.builds.append(["build", image, spec])
        return Ended(0, "")

    def chain(self, runs):
        return self.runs(runs)

    def runs(self, runs, progress=lambda done, all_of_them: None):
        if not runs:
            return []
        words = []
        for at, run in enumerate(runs):
            write_script(self.folder, f"{at}.txt", run.lines)
            words.append([run.command, run.image, f"{at}.txt", run.out or "left.img"])
        progress(0, len(runs))
        ended = self.calls(words)
        progress(len(runs), len(runs))
        return ended

    def calls(self, words):
        """Makes the noted calls of `build`, and then these calls."""
        builds, self.builds = self.builds, []
        ended = self.calls_at_once([*builds, *words])
        for build, each in zip(builds, ended):
            if each.status != 0:
                raise ProgramFailed(f"'{build[2]}' is not a SPEC that image_tool builds")
        return ended[len(builds):]

    def calls_at_once(self, words):
        given = script_of([" ".join(each) for each in words])
        ran = subprocess.run([self.program], cwd=self.folder, input=given, capture_output=True, text=True, check=False)
        parts = re.split(r"^\$ image_tool .*\n", ran.stdout, flags=re.MULTILINE)[1:]
        if len(parts) != len(words):
            raise ProgramFailed(f"{self.program}: status {ran.returncode} {ran.stdout[-300:]}{ran.stderr[-300:]}".replace("\n", " "))
        return [self.ended(part) for part in parts]

    @staticmethod
    def ended(part):
        found = re.search(r"^\(status (\w+)\)\n\Z", part, flags=re.MULTILINE)
        status = int(found.group(1)) if found and found.group(1).isdigit() else 5 if found else 0
        if status not in (0, 2, 3, 4):
            raise ProgramFailed(f"a call ended with status {status}: {part[-200:]}".replace("\n", " "))
        return Ended(status, part[:found.start()] if found else part)


def look_at_program(path):
    """Fails unless this file is a program that refuses a call without words as image_tool does."""
    if not os.path.isfile(path) or not os.access(path, os.X_OK):
        raise ProgramFailed(f"'{path}' is not an executable file")
    try:
        ended = subprocess.run([os.path.abspath(path)], stdin=subprocess.DEVNULL, capture_output=True, check=False, timeout=60)
    except OSError as error:
        raise ProgramFailed(f"{path}: {error.strerror}") from error
    except subprocess.TimeoutExpired as error:
        raise ProgramFailed(f"{path} is not image_tool: a call without words does not end") from error
    if ended.returncode != 2 or not ended.stdout.startswith(b"usage: image_tool "):
        raise ProgramFailed(f"{path} is not image_tool: a call without words does not print its usage")


def chosen(path):
    """The path of the PROGRAM of a call; without one the built program, and without that the second implementation."""
    return path if path is not None else os.path.relpath(BUILT if os.path.exists(BUILT) else SECOND)


def is_second(path):
    return os.path.exists(path) and os.path.samefile(path, SECOND)


def is_unproved(path):
    return os.path.isfile(path) and os.access(path, os.X_OK) and os.path.basename(path) == "unproved"


def program_at(given, folder, jobs=None, proved=False):
    """The program of a call, of one of the three kinds; `given` is its PROGRAM, or nothing. `proved` wants the program itself."""
    path = chosen(given)
    if proved and (is_second(path) or is_unproved(path)):
        raise ProgramFailed(f"--proved: {NOT_BUILT if given is None else path + ' is not a proved program'}")
    if is_second(path):
        from .second import Second
        return Second(path, folder, jobs)
    if is_unproved(path):
        return Unproved(path, folder)
    look_at_program(path)
    return Program(path, folder, jobs)


class Progress:
    """A bar on a terminal; nothing elsewhere."""

    def __init__(self, what):
        self.what, self.shown, self.is_on = what, -1, sys.stderr.isatty()

    def __call__(self, done, total):
        part = 30 * done // max(1, total)
        if self.is_on and (part != self.shown or done == total):
            self.shown = part
            end = "\n" if done == total else ""
            print(f"\r{self.what} [{'#' * part}{'.' * (30 - part)}] {done} of {total}", end=end, file=sys.stderr, flush=True)
