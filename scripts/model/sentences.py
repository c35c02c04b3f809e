#!/usr/bin/env python3
"""The sentences on standard error that explain refusals and faults; sentences.txt lists them by the beginnings of the lines.

    sentences.py STATUS OUT ERRORS [WORD..]: takes the sentence on what ended the command of these words, whose output is in the
files OUT and ERRORS, out of ERRORS. It prints what is wrong if the sentence isn't there.
"""

import json
import os
import re
import sys


def read_sentences():
    path = os.path.join(os.path.dirname(os.path.realpath(__file__)), "sentences.txt")
    with open(path, "rb") as file:
        rows = [line.rstrip(b"\n").split(b"|") for line in file]
    return sorted(((begin.split(b" "), sentence) for begin, sentence in rows), key=lambda row: -len(row[0]))


SENTENCES = read_sentences()
# A service of whose requests each that failed lacked space, and the sentence on it in place of that on other faults.
FULL = re.compile(rb"dmstack: served \d+ requests of \d+ bytes, 0 with an input/output error, [1-9]")
# Why a session isn't begun: what these names say of its bindings.
UNBEGUN = (b"NotFound", b"NotAllowed", b"TooLarge", b"OtherFault", b"SameFile", b"InUse", b"OutsideFile", b"DuplicateLeaf",
           b"TooMany", b"BadName")


def line_of(text):
    """The line of an object that `--json` prints, or the line itself."""
    if not text.startswith(b'{"') or b'"kind":' not in text:
        return text
    parts = json.loads(text)
    names = ("kind", "entry", "line", "number", "name", "detail")
    return " ".join(str(parts[name]) for name in names if name in parts).encode()


def sentence_on(line):
    """The sentence on a line that ends a command, as a line, or nothing. A text fault has its entry and line before its number."""
    words = line.split(b" ")
    if words[:2] == [b"text", b"fault"]:
        words[2:4] = []
    for begin, sentence in SENTENCES:
        if words[:len(begin)] == begin:
            return b"dmstack: " + sentence + b"\n"
    return b""


def is_reply(out):
    """Whether the output of a session with the status 1 ends with a reply: it has more than the line on its bindings."""
    lines = out.split(b"\n")[:-1]
    return len(lines) != 1 or lines[0].split(b" ")[2:3] not in [[name] for name in UNBEGUN]


def expected(out, errors, status, words):
    """The sentence on what ended a command. A session doesn't end with its last reply, unless the images can't be synced."""
    if status not in (1, 3, 4) or b"--quiet" in words[1:]:
        return b""
    if words[:1] == [b"session"] and status == 1 and is_reply(out):
        return b""
    lines = errors.split(b"\n")[:-1] + [line_of(line) for line in out.split(b"\n")[-2:-1]]
    sentence = next(filter(None, map(sentence_on, lines)), b"")
    is_full = sentence == sentence_on(b"faults 1 requests 1") and any(map(FULL.match, lines))
    return sentence_on(b"faults of a full image") if is_full else sentence


def without_sentence(out, errors, status, words=()):
    """The error output without the sentence; None if it lacks the sentence, or has another one."""
    sentence = expected(out, errors, status, [*words])
    lines = errors.splitlines(keepends=True)
    known = {b"dmstack: " + it + b"\n" for _begin, it in SENTENCES}
    if [line for line in lines if line in known] != [sentence] * (sentence != b""):
        return None
    return b"".join(line for line in lines if line not in known)


def main():
    status, out, errors = sys.argv[1:4]
    with open(out, "rb") as file:
        printed = file.read()
    with open(errors, "rb") as file:
        told = file.read()
    rest = without_sentence(printed, told, int(status), [os.fsencode(word) for word in sys.argv[4:]])
    if rest is None:
        print(f"{errors} has {told[:300]!r}, in place of the sentence on what ended the command")
        return 1
    with open(errors, "wb") as file:
        file.write(rest)
    return 0


if __name__ == "__main__":
    sys.exit(main())
