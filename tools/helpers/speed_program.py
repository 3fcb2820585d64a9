"""Programs that are only timed, where no line of calls can: made in a temporary folder and gone after their run."""
import os
import shutil
import subprocess
import sys
import tempfile

import usage

ROOT = str(usage.HOME)
RT = os.path.join(ROOT, "tools", "rt")


def make(folder, program, libraries, kit_libraries=(), modules=None):
    """A repository with the program `timed` and the crates below it; answers the program's folder.

    `libraries` are crates of this repository, lowest first, with all that they stand on; `modules` are the program's
    other files, by their paths in its folder.
    """
    home = os.path.join(folder, "crates", "timed")
    for name in libraries:
        shutil.copytree(os.path.join(ROOT, "crates", name), os.path.join(folder, "crates", name),
                        ignore=shutil.ignore_patterns("out"))
    with open(os.path.join(ROOT, "crates.txt")) as listed:
        lines = [line for line in listed if line.split(":")[0].strip() in libraries]
    with open(os.path.join(folder, "crates.txt"), "w") as out:
        out.writelines(lines)
        out.write("timed: " + " ".join([*libraries, *kit_libraries]) + "\n")
    for name, text in {"src/main.rt": program, **(modules or {})}.items():
        path = os.path.join(home, name)
        os.makedirs(os.path.dirname(path), exist_ok=True)
        with open(path, "w") as out:
            out.write(text)
    shutil.copy(os.path.join(ROOT, "HANDLES"), folder)
    subprocess.run(["git", "init", "-q"], cwd=folder, check=True)
    return home


def built(folder, program, libraries, kit_libraries=()):
    """The path of such a program, once it is proved and built."""
    usage.kit()
    home = make(folder, program, libraries, kit_libraries)
    tell(libraries)
    if subprocess.run([RT, "run"], cwd=home, stdin=subprocess.DEVNULL, stdout=subprocess.DEVNULL, check=False).returncode != 0:
        usage.fail("the program that is timed wasn't built")
    return os.path.join(home, "out", "timed")


def tell(libraries):
    """Says what is built, since it takes a while."""
    below = f" and the {len(libraries)} crates below it" if libraries else ""
    print(f"proving and building a program in a temporary folder{below} ..", file=sys.stderr)


def run(text, program, libraries, kit_libraries=(), modules=None):
    """The status of a run of such a program, of a tool that takes no words and has this doc string."""
    usage.no_words(text)
    usage.kit()
    with tempfile.TemporaryDirectory() as folder:
        home = make(folder, program, libraries, kit_libraries, modules)
        tell(libraries)
        return subprocess.run([RT, "run"], cwd=home, check=False).returncode
