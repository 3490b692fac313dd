"""What the scripts have in common in how they are called: how they end, the words of a call, PROGRAM, and output files."""
import argparse
import os
import signal
import sys
import tempfile

from .programs import BUILT, NOT_BUILT, ProgramFailed, look_at_program


# ---- how a script ends

def interrupted(*_):
    """Ends the script by a signal. A second signal changes nothing, so that no file is left behind."""
    for number in (signal.SIGINT, signal.SIGTERM):
        signal.signal(number, signal.SIG_IGN)
    raise KeyboardInterrupt


def catch_signals():
    for number in (signal.SIGINT, signal.SIGTERM):
        if signal.getsignal(number) != signal.SIG_IGN:
            signal.signal(number, interrupted)


def place_of(fault):
    """Where a fault of a script itself was raised: the file and the line."""
    last = fault.__traceback__
    while last.tb_next:
        last = last.tb_next
    return f"{os.path.basename(last.tb_frame.f_code.co_filename)}, line {last.tb_lineno}"


def status_of(main):
    """The status that a script returns or exits with, once all that it printed is written."""
    catch_signals()
    if sys.stdout is None:
        raise OSError("standard output is closed")
    try:
        status = main()
    except SystemExit as ended:
        status = ended.code
    sys.stdout.flush()
    return status


def say_why(why):
    """One line on standard error. Nothing more is written to standard output, which may be a full disk."""
    if sys.stdout is not None:
        os.dup2(os.open(os.devnull, os.O_WRONLY), sys.stdout.fileno())
    if sys.stderr is not None:
        print(f"{os.path.basename(sys.argv[0])}: {why}".replace("\n", " "), file=sys.stderr)
    return 2


def run_tool(main):
    """Runs a script and ends with its status. What it cannot go on with is one line and status 2; a closed pipe is no line."""
    try:
        status = status_of(main)
    except KeyboardInterrupt:
        status = say_why("interrupted")
    except BrokenPipeError:
        os.dup2(os.open(os.devnull, os.O_WRONLY), sys.stdout.fileno())
        status = 2
    except OSError as error:
        status = say_why(f"'{error.filename}': {error.strerror}" if error.filename else error.strerror or error)
    except MemoryError:
        status = say_why("there is not enough memory")
    except Exception as fault:
        status = say_why(f"a fault of this script, {type(fault).__name__} in {place_of(fault)}: {fault}")
    sys.exit(status)


# ---- words

class Parser(argparse.ArgumentParser):
    """Reads the words of a call. A wrong call gets one line and status 2; --help begins with the text of the script."""

    def __init__(self, text):
        form = argparse.RawDescriptionHelpFormatter
        super().__init__(description=text, usage=argparse.SUPPRESS, formatter_class=form, allow_abbrev=False)

    def print_help(self, file=None):
        """As that of argparse, which does not say that the text cannot be written."""
        print(self.format_help(), end="", file=file)

    def refuse(self, why):
        print(f"{self.prog}: {why}".replace("\n", " "), file=sys.stderr)
        sys.exit(2)

    def error(self, message):
        self.refuse(f"{message} (see --help)")


def positive(text):
    """A number of at least 1, as argparse asks for it."""
    value = int(text)
    if value < 1:
        raise ValueError(text)
    return value


def natural(text):
    """A number of at least 0, as argparse asks for it."""
    value = int(text)
    if value < 0:
        raise ValueError(text)
    return value


def processes(text):
    """A number of processes, as argparse asks for it."""
    value = positive(text)
    if value > 1024:
        raise ValueError(text)
    return value


positive.__name__ = natural.__name__ = "number"
processes.__name__ = "number of processes"


# ---- PROGRAM: the first word of a call, which may be left out

def add_program(parser, wanted):
    """Adds the words of a call, as `SPEC SCRIPT`, with PROGRAM before them, and --proved."""
    parser.add_argument("words", nargs="*", metavar="WORD", help=f"[PROGRAM] {wanted}")
    parser.add_argument("--proved", action="store_true", help="run the built program alone, not the second implementation")


def is_spec(word):
    return word.startswith(("bank=", "version="))


def program_words(parser, words, wanted):
    """PROGRAM, or nothing if it is left out, and the wanted words of a call. Only a SPEC begins with `bank=` or `version=`."""
    form, names = f"[PROGRAM] {wanted}", wanted.split()
    if not len(names) <= len(words) <= len(names) + 1:
        parser.error(f"give {form}, not {len(words)} words")
    program, rest = (words[0], words[1:]) if len(words) > len(names) else (None, list(words))
    for name, word in zip(names, rest):
        if name == "SPEC" and os.path.isfile(word) and not is_spec(word):
            parser.error(f"give {form}: '{word}' is a file and not a SPEC")
    return [program, *rest]


def program_in(parser, given=None):
    """The whole path of PROGRAM, or of the built program if the call has none; a file that is not image_tool is refused."""
    if given is None and not os.path.exists(BUILT):
        parser.refuse(NOT_BUILT)
    path = BUILT if given is None else given
    try:
        look_at_program(path)
    except ProgramFailed as why:
        parser.refuse(why)
    return os.path.abspath(path)


# ---- files

def look_at_outputs(parser, outputs, inputs):
    """Refuses an output that is an input, is named twice, or cannot be made, before anything is done."""
    named = [path for path in outputs if path is not None]
    places = [os.path.realpath(path) for path in named]
    given = {os.path.realpath(path) for path in inputs if path}
    for path, place in zip(named, places):
        if place in given or places.count(place) > 1:
            parser.error(f"{path} would be overwritten: the call names it twice")
        folder = os.path.dirname(place)
        if not path or os.path.isdir(place) or not os.path.isdir(folder):
            parser.error(f"'{path}' is a folder, or its folder does not exist")
        if not os.access(place if os.path.exists(place) and not os.path.isfile(place) else folder, os.W_OK):
            parser.refuse(f"{path} cannot be written")


def read_text(parser, path):
    try:
        with open(path, encoding="utf-8", newline="\n") as file:
            return file.read()
    except OSError as error:
        return parser.refuse(f"'{path}': {error.strerror}")
    except UnicodeDecodeError:
        return parser.refuse(f"{path} is not text in UTF-8")


def write_text(parser, path, text):
    """Writes a whole file or leaves the old one: the text goes to a new file beside it, which is then renamed."""
    try:
        if os.path.exists(path) and not os.path.isfile(path):
            with open(path, "w", encoding="utf-8") as file:
                file.write(text)
            return
        handle, part = tempfile.mkstemp(dir=os.path.dirname(os.path.abspath(path)), prefix=".part-")
    except OSError as error:
        parser.refuse(f"{path}: {error.strerror}")
    try:
        with os.fdopen(handle, "w", encoding="utf-8") as file:
            file.write(text)
        os.chmod(part, mode_of(path))
        os.replace(part, os.path.realpath(path))
    except OSError as error:
        os.unlink(part)
        parser.refuse(f"{path}: {error.strerror}")
    except BaseException:
        os.unlink(part)
        raise


def mode_of(path):
    """The mode of the file that is there, or that of a new file."""
    if os.path.exists(path):
        return os.stat(path).st_mode & 0o777
    mask = os.umask(0)
    os.umask(mask)
    return 0o666 & ~mask
