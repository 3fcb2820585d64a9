"""The stored inputs of a running cluster and the examples of it, by their names."""
import argparse

import usage

INPUTS = usage.HOME / "tests" / "live"
EXAMPLES = usage.HOME / "examples"


def names():
    """All of them: the stored ones, then the examples."""
    return sorted(path.stem for path in INPUTS.glob("*.out")) + sorted(path.parent.name for path in EXAMPLES.glob("*/input"))


def path_of(name, ending):
    """The file of an input, as that of a stored script: `in`, `out`, `args`, `err`, `status`."""
    folder = EXAMPLES / name
    if (folder / "input").is_file():
        return folder / {"in": "input", "out": "output"}.get(ending, ending)
    return INPUTS / f"{name}.{ending}"


def named(text):
    """A word that is such a name."""
    if not path_of(text, "out").is_file():
        raise argparse.ArgumentTypeError(f"no input in tests/live and no example is named {text}")
    return text


def text_of(name, ending):
    path = path_of(name, ending)
    return path.read_bytes().decode(errors="surrogateescape") if path.exists() else ""


def is_outside(name):
    """Whether a device stands for an input or an output."""
    return any(path_of(name, ending).exists() for ending in ("source", "sink"))


def ends_well(name):
    """Whether an input's run ends with status 0, and has a journal."""
    return not path_of(name, "status").exists()
