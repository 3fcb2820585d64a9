"""The built programs of this repository: proved ones in their crates' folders, and unproved ones that `tools/build` keeps outside of git."""
import dataclasses
import hashlib
import os
import pathlib

import usage

KEPT = usage.HOME / "out" / "unproved"


@dataclasses.dataclass
class Program:
    """A program that can be run, and what it is, in words."""
    path: pathlib.Path
    what: str


def proved_path(name):
    return usage.HOME / "crates" / name / "out" / name


def kept_path(name):
    return KEPT / name


def sources():
    """All files that a build reads."""
    return [usage.HOME / "crates.txt", *sorted((usage.HOME / "crates").glob("*/src/**/*.rt"))]


def stamp():
    """One number of all sources: an unproved build is taken again only where it is the same."""
    told = hashlib.sha256()
    for path in sources():
        told.update(str(path.relative_to(usage.HOME)).encode() + b"\0" + path.read_bytes() + b"\0")
    return told.hexdigest()


def proved(name):
    path = proved_path(name)
    if not os.access(path, os.X_OK):
        return None
    older = any(path.stat().st_mtime < source.stat().st_mtime for source in sources())
    return Program(path, "the proved program" + (", built before some source was changed" if older else ""))


def unproved(name):
    """The kept unproved build, where it is one of the present sources."""
    path, told = kept_path(name), kept_path(f"{name}.of")
    if not os.access(path, os.X_OK) or not told.exists() or told.read_text() != stamp():
        return None
    return Program(path, "an unproved build")


def why_none(name):
    """Why there is no built program of a crate."""
    if os.access(kept_path(name), os.X_OK):
        return "whose unproved build is of other sources"
    return "which isn't built"


def found(name):
    """The built program of a crate, or none."""
    return proved(name) or unproved(name)


def needed(name, given=None):
    """A program that was given, or the built one; ends the tool where there is none, and says what builds one."""
    if given is not None:
        return given
    built = found(name)
    if built is None:
        usage.fail(f"{name}, {why_none(name)}, is needed: `tools/build {name}` builds it unproved in about five minutes, and in crates/{name} `../../tools/rt run` proves it")
    return built.path
