"""The commands of tools/, each a module with `main`, and what they share: how they end, and the option --version."""
from __future__ import annotations

import argparse
import os
import sys
from collections.abc import Callable

from .. import __version__
from ..json_text import printable
from ..plan import WordsError


def parser(name: str, words: str) -> argparse.ArgumentParser:
    """A parser of a command's words, with --version; `words` is what --help says, printed as it stands."""
    made = argparse.ArgumentParser(prog=name, description=words, formatter_class=argparse.RawDescriptionHelpFormatter)
    made.add_argument("--version", action="version", version=f"%(prog)s {__version__}")
    return made


def say(name: str, words: str) -> None:
    """A sentence on standard error; control characters in it, as names of files may have them, are shown as escapes."""
    told = "\n".join(printable(line, 4000) for line in words.split("\n"))
    # in one piece, since others may say something at the same time
    print(f"{name}: {told}\n", end="", file=sys.stderr)


def end(name: str, main: Callable[[], int]) -> None:
    """Runs a command and ends with its status; whatever stops it is said in a sentence: 1, or 130 by the user."""
    status = 1
    try:
        if sys.stdout is None:
            raise WordsError("standard output is closed")
        status = main()
        sys.stdout.flush()
    except BrokenPipeError:
        # who read went away; nothing more is to be said
        os.dup2(os.open(os.devnull, os.O_WRONLY), sys.stdout.fileno())
    except WordsError as error:
        say(name, str(error))
    except OSError as error:
        say(name, f"{error.filename}: {error.strerror}" if error.filename else str(error))
    except KeyboardInterrupt:
        say(name, "stopped")
        status = 130
    except MemoryError:
        say(name, "there is not enough memory")
    except RecursionError:
        say(name, "the input is nested too deeply")
    sys.exit(status)
