"""The stored scripts and the examples, by their names."""
import argparse

import usage

SCRIPTS = usage.HOME / "tests" / "scripts"
EXAMPLES = usage.HOME / "examples"


def names():
    """All of them: the stored ones, then the examples."""
    return sorted(path.stem for path in SCRIPTS.glob("*.out")) + sorted(path.parent.name for path in EXAMPLES.glob("*/script"))


def is_example(name):
    return (EXAMPLES / name / "script").is_file()


def input_of(name):
    """The file with a script's standard input, which a stored one without any lacks."""
    return EXAMPLES / name / "script" if is_example(name) else SCRIPTS / f"{name}.in"


def report_of(name):
    return EXAMPLES / name / "report" if is_example(name) else SCRIPTS / f"{name}.out"


def named(text):
    """A word that is such a name."""
    if not report_of(text).is_file():
        raise argparse.ArgumentTypeError(f"no script in tests/scripts and no example is named {text}")
    return text


def with_input(text):
    """The name of one that has a standard input."""
    if not input_of(named(text)).is_file():
        raise argparse.ArgumentTypeError(f"{text} has no input")
    return text
