"""The second implementation in reference/ as a program of the tools. It runs in the processes of the pool: no run starts Python."""
import os
import sys

from .programs import Ended, ProgramFailed, in_parallel, script_of

TOP = os.path.dirname(os.path.dirname(os.path.dirname(os.path.abspath(__file__))))
REFERENCE = os.path.join(TOP, "reference")
sys.path.append(REFERENCE)

from image_tool.flash import Bench  # noqa: E402
from image_tool.host import RealHost, TooLong  # noqa: E402
from image_tool.tool import Tool  # noqa: E402

# Words for the script in memory and for an image that nobody keeps. No file has these names.
SCRIPT, NO_IMAGE = "\0script", "\0image"


class FolderHost(RealHost):
    """The files of a folder. The script is in memory, and so is what is printed."""

    def __init__(self, folder, script=b""):
        self.folder, self.script, self.printed = folder, script, b""

    def read_whole(self, name, limit):
        if name != SCRIPT:
            return super().read_whole(os.path.join(self.folder, name), limit)
        if len(self.script) > limit:
            raise TooLong
        return self.script

    def write_whole(self, name, raw):
        if name != NO_IMAGE:
            super().write_whole(os.path.join(self.folder, name), raw)

    def print(self, raw):
        self.printed += raw


def call_here(folder, words, script=b""):
    """Makes one call in this process."""
    host, shown = FolderHost(folder, script), " ".join(words).replace("\0", "")
    try:
        status = Tool(host, Bench()).main(words)
    except Exception as fault:
        raise ProgramFailed(f"the second implementation fails at {shown}: {type(fault).__name__} {fault}") from fault
    if status not in (0, 2, 3, 4):
        raise ProgramFailed(f"the second implementation ends with status {status} at {shown}")
    return Ended(status, host.printed.decode(errors="replace"))


def carry_out_here(task):
    """Carries out one Run."""
    folder, run = task
    return call_here(folder, [run.command, run.image, SCRIPT, run.out or NO_IMAGE], script_of(run.lines).encode())


class Second:
    """The second implementation, with the calls of Program."""
    by = "the second implementation, which random tests compare with the proved program"

    def __init__(self, program, folder, jobs=None):
        self.program, self.folder, self.jobs = program, folder, jobs or os.cpu_count() or 1

    def build(self, image, spec):
        return call_here(self.folder, ["build", image, spec])

    def chain(self, runs):
        """Carries out runs one after another, each on what the one before left."""
        return [carry_out_here((self.folder, run)) for run in runs]

    def runs(self, runs, progress=lambda done, all_of_them: None):
        """Carries out runs in any order. The results are in the order of the runs."""
        return in_parallel(carry_out_here, [(self.folder, run) for run in runs], self.jobs, progress)
