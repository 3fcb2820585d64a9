"""Builds programs unproved, once, and keeps them outside of git.

The kit's `rt try` makes the module of a program and runs it by itself, anew each time; here the kit's compiler gets that module, optimizes
it and links it.
"""
import os
import pathlib
import shutil
import subprocess
import sys
import tempfile
import time

import programs
import usage

TARGET = "x86_64-unknown-linux-gnu"
# When it is given up, on a machine with much other work.
SECONDS = 3_600
# An empty module comes first; that of a program has more bytes than this.
EMPTY = 100_000
# In the place of the kit's compiler: keeps the module of the program, and goes no further.
KEEPER = """#!/bin/sh
for word in "$@"; do
    case $word in *.bc) [ "$(wc -c <"$word")" -gt {empty} ] && cp "$word" '{kept}.part' && mv '{kept}.part' '{kept}' && exit 1;; esac
done
exec '{compiler}' "$@"
"""


def shadow(kit, folder, kept):
    """A folder as the kit's, whose compiler keeps the module that it is given."""
    for name in os.listdir(kit):
        if name not in ("bin", "toolchain"):
            os.symlink(kit / name, folder / name)
    (folder / "bin").mkdir()
    for name in os.listdir(kit / "bin"):
        if name in ("rt", "rtlib.py"):
            shutil.copy(kit / "bin" / name, folder / "bin" / name)
        else:
            os.symlink(kit / "bin" / name, folder / "bin" / name)
    (folder / "toolchain" / "bin").mkdir(parents=True)
    os.symlink(kit / "toolchain" / "lib", folder / "toolchain" / "lib")
    for name in os.listdir(kit / "toolchain" / "bin"):
        if name != "clang":
            os.symlink(kit / "toolchain" / "bin" / name, folder / "toolchain" / "bin" / name)
    compiler = folder / "toolchain" / "bin" / "clang"
    compiler.write_text(KEEPER.format(empty=EMPTY, kept=kept, compiler=kit / "toolchain" / "bin" / "clang"))
    compiler.chmod(0o755)


def make_module(home, folder, kept):
    """Has `rt try` make the module of the program in a crate's folder; ends the tool with what it says where it makes none."""
    how = {"cwd": home, "stdin": subprocess.DEVNULL, "stdout": subprocess.PIPE, "stderr": subprocess.STDOUT}
    how["env"] = {**os.environ, "PATH": f"{folder / 'bin'}{os.pathsep}{os.environ['PATH']}"}
    running, begun = subprocess.Popen([usage.HOME / "tools" / "rt", "try", "--", "none"], **how), time.monotonic()
    while True:
        try:
            said = running.communicate(timeout=1)[0]
            break
        except subprocess.TimeoutExpired:
            passed = int(time.monotonic() - begun)
            if sys.stderr.isatty():
                print(f"\r{home.name}: {passed} s of about 120", end="", file=sys.stderr, flush=True)
            if kept.exists() or passed > SECONDS:
                running.terminate()
    if sys.stderr.isatty():
        print(file=sys.stderr)
    if not kept.exists():
        usage.fail(f"`rt try` made no module of {home.name}: {said.decode(errors='replace').strip()[-400:]}")


def run(words):
    """Runs a program of the kit; ends the tool with what it said where it fails."""
    ran = subprocess.run(words, stdout=subprocess.PIPE, stderr=subprocess.STDOUT, check=False)
    if ran.returncode != 0:
        usage.fail(f"{words[0].name} ended with status {ran.returncode}: {ran.stdout.decode(errors='replace').strip()[-400:]}")


def compile_module(kit, module, program):
    toolchain, thing = kit / "toolchain", module.with_suffix(".o")
    plain = ["-mllvm", "-no-trap-after-noreturn", "-ffunction-sections", "-fdata-sections", "-mllvm", "-trap-unreachable"]
    driver = ["--no-default-config", "-no-canonical-prefixes", "-fintegrated-cc1", "-fno-crash-diagnostics"]
    run([toolchain / "bin" / "clang", f"--target={TARGET}", f"--sysroot={toolchain}", "-march=x86-64", *plain, *driver,
         "-c", "-x", "ir", module, "-o", thing, "-fPIE", "-O3"])
    run([kit / "bin" / "rattle-link", "--target", TARGET, "--toolchain", toolchain, "-o", program, thing, kit / "c" / "libos_c.a", kit / "c" / "liblibc_c.a"])


def build(home, told):
    """Builds the program in a crate's folder, and keeps it with the stamp of its sources."""
    kit, name = usage.kit().parent.parent, home.name
    print(f"building {name} unproved, which takes about five minutes ..", file=sys.stderr)
    with tempfile.TemporaryDirectory(prefix="unproved-") as made:
        room = pathlib.Path(made)
        (room / "kit").mkdir()
        shadow(kit, room / "kit", room / "module.bc")
        make_module(home, room / "kit", room / "module.bc")
        compile_module(kit, room / "module.bc", room / name)
        programs.KEPT.mkdir(parents=True, exist_ok=True)
        os.replace(shutil.copy(room / name, programs.KEPT / f"{name}.new"), programs.kept_path(name))
        programs.kept_path(f"{name}.of").write_text(told)


def below(name, listed):
    """The crates of this repository that one stands on, and itself."""
    found = {name}
    for part in listed.get(name, []):
        found |= below(part, listed) if part not in found and part in listed else set()
    return found


def build_beside(source, libraries, told):
    """Builds a program that is none of this repository's crates: one file over some of them, in a temporary folder."""
    lines = [line for line in (usage.HOME / "crates.txt").read_text().split("\n") if line and not line.startswith("#")]
    listed = {line.split(":")[0]: line.split(":")[1].split() for line in lines}
    needed = set().union(*(below(name, listed) for name in libraries))
    with tempfile.TemporaryDirectory(prefix="beside-") as made:
        folder = pathlib.Path(made)
        for name in needed:
            shutil.copytree(usage.HOME / "crates" / name, folder / "crates" / name, ignore=shutil.ignore_patterns("out", "must-fail"))
        home = folder / "crates" / source.stem
        (home / "src").mkdir(parents=True)
        shutil.copy(source, home / "src" / "main.rt")
        kept = [line for line in lines if line.split(":")[0] in needed]
        (folder / "crates.txt").write_text("\n".join([*kept, f"{source.stem}: {' '.join(libraries)}", ""]))
        shutil.copy(usage.HOME / "HANDLES", folder)
        subprocess.run(["git", "init", "-q"], cwd=folder, check=True)
        build(home, told)
