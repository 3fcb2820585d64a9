"""Scripts made of stored ones, line by line by the grammar, and such lines."""
import re

import forms
import scripts

# A longer script takes longer than it tells.
LONGEST = 20_000
NUMBERS = ["0", "1", "2", "3", "7", "100", "101", "1000", "65535", "4294967294", "4294967295", "4294967296", "9223372036854775807",
           "9223372036854775808",
           "18446744073709551615", "18446744073709551616", "00", "-1", ""]
VALUES = ["1", "-1", "null", "true", '"a"', '""', "1.0", "1e2", "-0", "[]", "{}", '"\\u0041"', '"\\ud800"', '"é"', "9223372036854775808",
          "2147483648", "{\"v\":1}", "01"]
QUERIES = ["SELECT COUNT(*) FROM t", "SELECT k, SUM(v) FROM t GROUP BY k ORDER BY SUM(v) DESC, k LIMIT 3",
           "SELECT MIN(v), MAX(v) FROM t WHERE v BETWEEN 1 AND 5 OR NOT k = 'a'",
           "SELECT COUNT(*) FROM t WHERE k IN ('a','b') AND v <> -1", "SELECT v, COUNT(*) FROM t GROUP BY v LIMIT 0",
           "select max(k) from t", "SELECT COUNT(*) FROM u", "SELECT SUM(w) FROM t"]
# The forms of a line whose pattern has several.
CHOICES = {"fault": ["store lost", "store kept", "deep lost", "deep kept"], "lead": ["cK on", "cK off"], "crash": ["sK", "cK"],
           "restart": ["sK", "cK"], "show": ["meta P/Q", "ideal"], "rehearse": ["servers=N keep=N", "loaded sK P/Q", "step"]}
NUMBER = re.compile(r"(?<![A-Za-z\"])\d+|(?<=\b[scmjqf])\d+")


def stored():
    """The stored scripts and the examples that aren't too long, as bytes."""
    paths = [scripts.input_of(name) for name in scripts.names()]
    return [path.read_bytes() for path in paths if path.is_file() and path.stat().st_size < LONGEST and not path.with_suffix(".args").exists()]


def fresh(draws):
    """A line of the grammar, with small numbers."""
    word = draws.choice(list(forms.FORMS))
    form = draws.choice(CHOICES.get(word, [forms.FORMS[word]]))
    form = re.sub(r"(?<![A-Z])[NPQK](?![A-Z])", lambda _: str(draws.choice([0, 0, 0, 1, 1, 2, 3, 5])), form)
    return f"{word} {form}".rstrip().replace("TEXT", draws.choice(QUERIES)).replace(".*", '{"k":"a","v":%s}' % draws.choice(VALUES))


def renumbered(draws, line):
    """A line with one of its numbers changed."""
    found = list(NUMBER.finditer(line))
    if not found:
        return line + draws.choice(["", " ", " 0"])
    one = draws.choice(found)
    number = str(max(0, int(one[0]) + draws.choice([-1, 1]))) if draws.random() < 0.6 and len(one[0]) < 30 else draws.choice(NUMBERS)
    return line[:one.start()] + number + line[one.end():]


def revalued(draws, line):
    """A line with a value of its JSON changed, or a key given twice."""
    found = list(re.finditer(r":(\"[^\"]*\"|-?\d+|true|false|null)", line))
    if not found:
        return renumbered(draws, line)
    one = draws.choice(found)
    more = draws.choice(["", "", ',"v":1', ',"k":"b"', ',"x":[{}]'])
    return line[:one.start()] + ":" + draws.choice(VALUES) + more + line[one.end():]


def by_grammar(draws, text, other):
    """A script with some lines changed, moved, doubled, left out, or taken from another one or from the grammar."""
    lines = text.decode(errors="surrogateescape").split("\n")
    others = other.decode(errors="surrogateescape").split("\n")
    for _ in range(draws.choice([1, 1, 2, 4, 10])):
        place, kind = draws.randrange(len(lines)), draws.randrange(9)
        if kind < 2:
            lines[place] = renumbered(draws, lines[place])
        elif kind == 2:
            lines[place] = revalued(draws, lines[place])
        elif kind == 3:
            lines.insert(place, draws.choice(lines))
        elif kind == 4:
            lines.insert(place, draws.choice(others))
        elif kind == 5 and len(lines) > 4:
            lines.pop(place)
        elif kind == 6:
            lines.insert(draws.randrange(len(lines) + 1), lines.pop(place))
        elif kind == 7:
            lines = lines[:place] + others[draws.randrange(len(others)):]
            lines = lines or [""]
        else:
            lines.insert(place, fresh(draws))
    return "\n".join(lines).encode(errors="surrogateescape")
