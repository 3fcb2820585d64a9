"""The program that plays many scripts, one after the other, built unproved."""
import hashlib
import os
import pathlib

import building
import programs

SOURCE = pathlib.Path(__file__).with_name("rt_batch.source")
LIBRARIES = ["rt_base", "rt_play"]


def stamp():
    """One number of all sources of the program and of the crates."""
    return hashlib.sha256(programs.stamp().encode() + SOURCE.read_bytes()).hexdigest()


def built():
    """The path of the program, which is built where it isn't kept."""
    kept, told = programs.kept_path(SOURCE.stem), programs.kept_path(f"{SOURCE.stem}.of")
    if not os.access(kept, os.X_OK) or not told.exists() or told.read_text() != stamp():
        building.build_beside(SOURCE, LIBRARIES, stamp())
    return kept
