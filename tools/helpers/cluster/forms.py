"""Which lines are lines of a script at all."""
import re

NUMBER = r"(0|[1-9][0-9]{0,19})"
FORMS = {
    "produce": "P .*", "tick": "N", "lead": "cK (?:on|off)", "consume": "sK P/Q N", "force": "sK P/Q", "stop": "sK P/Q", "build": "sK P/Q",
    "report": "sK P/Q", "extend": "sK P/Q N", "deliver": "mN cK", "job": "cK jN", "reply": "mN", "crash": "[sc]K", "restart": "[sc]K", "see": "sK",
    "transit": "sK P/Q", "download": "sK P/Q", "repair": "cK P", "retain": "cK P", "fault": "(?:store|deep) (?:lost|kept)", "ask": "TEXT", "route": "qK P",
    "piece": "qK P/Q sK", "answer": "qK", "show": "(?:meta P/Q|ideal)", "fill": "P N", "query": "TEXT", "exchange": "sK P/Q cK", "settle": "N",
    "latest": "TEXT", "offline": "TEXT", "hybrid": "TEXT", "pause": "", "resume": "", "forceCommit": "", "forceStatus": "fN", "peer": "sK P/Q",
    "rehearse": "(?:servers=N keep=N|loaded sK P/Q|step)",
}
# The letters of a form that stand for numbers, and the greatest of those.
GREATEST = {"N": 2**64 - 1, "P": 4_294_967_294, "Q": 4_294_967_294, "K": 4_294_967_294}


class Form:
    """A line's form, and the greatest value of each number in it."""

    def __init__(self, text):
        self.greatest = [GREATEST[letter] for letter in re.findall(r"(?<![A-Z])[NPQK](?![A-Z])", text)]
        shown = re.sub(r"(?<![A-Z])[NPQK](?![A-Z])", lambda _: NUMBER, text)
        self.pattern = re.compile(shown.replace("TEXT", ".*"), re.DOTALL)
        self.is_query = text == "TEXT"

    def reads(self, text):
        found = self.pattern.fullmatch(text)
        if found is None or (self.is_query and not is_utf8(text)):
            return False
        return all(number is None or int(number) <= most for number, most in zip(found.groups(), self.greatest))


READ = {word: Form(text) for word, text in FORMS.items()}


def is_utf8(text):
    return not any("\ud800" <= letter <= "\udfff" for letter in text)


def is_line(line):
    word, space, rest = line.partition(" ")
    form = READ.get(word)
    return form is not None and bool(space) == (FORMS[word] != "") and form.reads(rest)
