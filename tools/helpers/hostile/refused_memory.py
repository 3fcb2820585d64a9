"""Each allocation of some runs refused in turn: the run ends with status 6 behind whole first lines of its report.

Each is refused alone, and together with all that follow. The runs are three commits, for each further kind of line the shortest stored
script that has it, and a small generated run. One whose refusal is made up for by one that asks for less ends as if nothing was
refused, and is counted by itself.
"""
import itertools
import tempfile

import header
import refusing
import running
import scripts

FIRST = ["three-messages-two-consumed", "three-messages-committed", "a-kept-store-fault"]
GENERATED = ["gen", "1", "2", "40"]
HOW = {"alone": {}, "from it on": {"FROM_THEN_ON": "1"}}
# In a quick run one allocation in so many is refused, and the run after the last one is looked for in such steps too.
QUICK = 199


def words_of(path):
    """The first words of a script's lines; `rehearse` has three kinds of line."""
    text = path.read_bytes().decode(errors="surrogateescape")
    kept = [line.split(" ") for _, line in header.kept_lines(text)[3:]]
    return {" ".join(words[:2]).split("=")[0] if words[0] == "rehearse" else words[0] for words in kept}


def chosen():
    """The scripts: the three, and the shortest ones that have each further word, the one with most of them first."""
    paths = {name: scripts.input_of(name) for name in scripts.names()}
    held = {name: (words_of(path), path.stat().st_size) for name, path in paths.items()
            if path.is_file() and not any(path.with_suffix(ending).exists() for ending in (".status", ".args", ".sink"))}
    picked, seen = list(FIRST), set().union(*(words_of(paths[name]) for name in FIRST))
    missing = set().union(*(words for words, _ in held.values())) - seen
    while missing:
        name = max(held, key=lambda name: (len(held[name][0] & missing) / held[name][1], name))
        picked.append(name)
        missing -= held[name][0]
    return picked


def run(given):
    count, refused_of_all, spared_of_all = running.Count("memory"), 0, 0
    step = QUICK if given.quick else 1
    runs = [(name, scripts.input_of(name).read_bytes(), []) for name in chosen()] + [(" ".join(GENERATED), b"", GENERATED)]
    with tempfile.TemporaryDirectory() as folder:
        library = refusing.compiled(folder)
        for (name, script, words), (how, more) in itertools.product(runs, HOW.items()):
            right, spared, wrong = refusing.search(given.program, script, library, "REFUSED_ALLOCATION", words, step, **more)
            count.passed, refused_of_all, spared_of_all = count.passed + right, refused_of_all + right, spared_of_all + spared
            count.case(f"{name}, {how}", wrong)
            print(f"  {name}, {how}: {right} refused, {spared} made up for", flush=True)
    return count.tell(f", {len(runs)} runs, {refused_of_all} allocations refused and {spared_of_all} made up for")
