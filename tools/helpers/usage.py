"""What every tool does with its words: a usage line and status 2 for `--help` and for wrong ones, and never a traceback.

A tool's doc string has its usage in lines from `Use: ` on, up to the next empty line. Nothing is started before the words are read.
"""
import argparse
import os
import pathlib
import shutil
import sys

HOME = pathlib.Path(__file__).resolve().parent.parent.parent
WRONG = 2
STOPPED = 130


def usage_of(text):
    """The usage lines of a doc string."""
    lines, found = text.split("\n"), []
    start = next(place for place, line in enumerate(lines) if line.startswith("Use: "))
    for line in lines[start:]:
        if not line.strip():
            break
        found.append(line.rstrip())
    return "\n".join(found)


def fail(why):
    """Ends the tool with what is wrong, and status 2."""
    print(f"{pathlib.Path(sys.argv[0]).name}: {why}", file=sys.stderr)
    sys.exit(WRONG)


class Parser(argparse.ArgumentParser):
    """The words of a tool, by its doc string."""

    def __init__(self, text):
        super().__init__(add_help=False, allow_abbrev=False)
        self.text = text

    def error(self, message):
        print(f"{usage_of(self.text)}\n{message}", file=sys.stderr)
        sys.exit(WRONG)

    def read(self, words=None):
        words = sys.argv[1:] if words is None else words
        if {"--help", "-h"} & set(words[:words.index("--")] if "--" in words else words):
            print(self.text.strip())
            sys.exit(WRONG)
        return self.parse_intermixed_args(words)


def no_words(text):
    """For a tool that takes no words."""
    return Parser(text).read()


def numbers(text, **usual):
    """For a tool whose words are numbers: their values, by name, each with the one that counts where it is absent."""
    parser = Parser(text)
    for name, value in usual.items():
        parser.add_argument(name, type=number, nargs="?", default=value)
    return list(vars(parser.read()).values())


def number(text):
    """A whole number without a sign."""
    if not text.isascii() or not text.isdigit():
        raise argparse.ArgumentTypeError(f"{text!r} is no number")
    return int(text)


def file(text):
    """A file that can be read."""
    path = pathlib.Path(text)
    if not path.is_file():
        raise argparse.ArgumentTypeError(f"there is no file {text}")
    return path


def folder(text):
    path = pathlib.Path(text)
    if not path.is_dir():
        raise argparse.ArgumentTypeError(f"there is no folder {text}")
    return path


def program(text):
    """A built program, by its whole path."""
    path = pathlib.Path(text).resolve()
    if not path.is_file() or not os.access(path, os.X_OK):
        raise argparse.ArgumentTypeError(f"there is no program {text}")
    return path


def kit():
    """The path of the kit's `rt`; ends the tool where there is none."""
    found = shutil.which("rt")
    if found is None:
        fail("the kit's `rt` isn't on the PATH; README.md says which kit it is (`rt version` tells)")
    return pathlib.Path(found).resolve()


def start(main):
    """Ends the process with the status of a tool's `main`: a stop by hand and a closed pipe are no faults of the tool."""
    try:
        status = main()
        sys.stdout.flush()
    except KeyboardInterrupt:
        print("stopped", file=sys.stderr)
        status = STOPPED
    except BrokenPipeError:
        os.dup2(os.open(os.devnull, os.O_WRONLY), sys.stdout.fileno())
        status = 0
    except OSError as fault:
        fail(fault)
    sys.exit(status)
