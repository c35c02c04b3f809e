"""What a command prints where that isn't lines that are known to the byte."""

import json
import re


class Json:
    """A line with one JSON object: of these facts, its keys in rising order, without a space outside its texts."""

    def __init__(self, facts):
        self.facts = facts

    def text(self):
        return json.dumps(self.facts, separators=(",", ":"), sort_keys=True, ensure_ascii=False).encode()

    def allows(self, line):
        return line == self.text()


def ending_object(line):
    """The line that ends a command early as the object that `--json` has for it."""
    text = line.decode()
    found = re.fullmatch(r"text fault (\d+) (\d+) (\d+) (.*)", text, re.S)
    if found:
        return Json({"kind": "text fault", "entry": int(found[1]), "line": int(found[2]), "number": int(found[3]), "name": found[4]})
    found = re.fullmatch(r"(\w+) (?:(\d+) )?([^ ]*)(?: (.*))?", text, re.S)
    if not found or not found[2] and found[1] not in ("refused", "fault"):
        return Json({"kind": text})
    parts = {"kind": found[1], "number": found[2] and int(found[2]), "name": found[3], "detail": found[4]}
    return Json({key: value for key, value in parts.items() if value is not None})


class Octets:
    """Bytes that go to standard output, and the line that goes to standard error, where one does."""

    def __init__(self, octets, line=None):
        self.octets, self.line = octets, line
