"""Cuts a case that shows a difference down to a least one that still shows it."""

import re
import time
from dataclasses import replace

from random_parts import Case, Run


def without_lines(parts):
    """Lists with a part taken out, and from where to where: halves first, single parts last."""
    size = max(len(parts) // 2, 1)
    while parts:
        for at in range(0, len(parts), size):
            yield (at, at + size), parts[:at] + parts[at + size:]
        if size == 1:
            return
        size //= 2


def without_parts(parts):
    for _, less in without_lines(parts):
        yield less


def smaller_texts(text):
    """Texts with an entry, a field or a word less, a smaller number, a shorter word or gap."""
    for mark in (b";", b",", b" "):
        parts = text.split(mark)
        if len(parts) > 1:
            for less in without_parts(parts):
                yield mark.join(less)
    for match in re.finditer(rb"\d+", text):
        value = int(match.group()[:40])
        for other in [0, 1] + [value - (value >> shift) for shift in (1, 2, 4, 8)] + [value - 1]:
            if 0 <= other < value:
                yield text[:match.start()] + b"%d" % other + text[match.end():]
    for match in re.finditer(rb"[\x21-\x2b\x2d-\x3a\x3c-\x7e]{2,}|  +|\t|\r| (?=[,;])|(?<=[,;]) |\b0+(?=\d)", text):
        word = match.group()
        for less in (b"", word[:1], word[:len(word) // 2], word[:-1]):
            if len(less) < len(word):
                yield text[:match.start()] + less + text[match.end():]


def smaller_contents(content):
    if not isinstance(content, bytes):
        return
    half = len(content) // 1024 * 512
    for size in (0, 512, 1024, half, len(content) // 512 * 512, len(content) - 512, len(content) - 1):
        if 0 <= size < len(content):
            yield content[:size]
    if len(content) <= 4096:
        yield from smaller_texts(content)
    if content.strip(b"\0"):
        yield bytes(len(content))


def each_run(case, smaller):
    for at, run in enumerate(case.runs):
        for less in smaller(run):
            yield Case(case.files, case.runs[:at] + [less] + case.runs[at + 1:])


def fewer_runs(case):
    for runs in without_parts(case.runs):
        yield Case(case.files, runs)


def fewer_files(case):
    for name in case.files:
        yield Case({other: case.files[other] for other in case.files if other != name}, case.runs)


def fewer_lines(case):
    def smaller(run):
        for messages in without_parts(list(run.messages)):
            yield Run(run.words, messages=tuple(messages))
        if run.messages:
            return
        if run.cuts:
            yield replace(run, cuts=())
        for at, lines in without_lines(run.given.split(b"\n")):
            cuts = tuple((line - max(0, min(line, at[1]) - at[0]), *rest) for line, *rest in run.cuts)
            yield replace(run, given=b"\n".join(lines), cuts=cuts)
    return each_run(case, smaller)


def fewer_words(case):
    def smaller(run):
        for words in without_parts(run.words[1:]):
            yield replace(run, words=run.words[:1] + words)
    return each_run(case, smaller)


def smaller_lines(case):
    def smaller(run):
        for at, message in enumerate(run.messages):
            for less in message.smaller():
                yield replace(run, messages=run.messages[:at] + (less,) + run.messages[at + 1:])
        if run.messages:
            return
        lines = run.given.split(b"\n")
        for at, line in enumerate(lines):
            for less in smaller_texts(line):
                yield replace(run, given=b"\n".join(lines[:at] + [less] + lines[at + 1:]))
    return each_run(case, smaller)


def smaller_words(case):
    def smaller(run):
        for at, word in enumerate(run.words):
            for less in smaller_texts(word):
                yield replace(run, words=run.words[:at] + [less] + run.words[at + 1:])
    return each_run(case, smaller)


def smaller_files(case):
    for name, content in case.files.items():
        for less in smaller_contents(content):
            yield Case({**case.files, name: less}, case.runs)


PHASES = [fewer_runs, fewer_lines, fewer_words, fewer_files, smaller_lines, smaller_words, smaller_files]


def size(case):
    """What gets smaller: runs and files, then bytes, then the numbers' values."""
    texts = [word for run in case.runs for word in run.words + run.input_texts()]
    contents = [content for content in case.files.values() if isinstance(content, bytes)]
    short = texts + [content for content in contents if len(content) <= 4096]
    numbers = sum(int(digits[:40]) for text in short for digits in re.findall(rb"\d+", text))
    octets = sum(len(text) + 1 for text in texts) + sum(map(len, contents))
    octets += sum(len(run.given) for run in case.runs if run.messages)
    unlike = sum(len(content.strip(b"\0")) for content in contents)
    return len(case.runs) + len(case.files), octets, unlike, numbers


def first_smaller(case, phase, differs, end):
    for smaller in phase(case):
        if time.monotonic() > end:
            return None
        if size(smaller) < size(case) and differs(smaller):
            return smaller
    return None


def least(case, differs, seconds):
    """A least case of which `differs` still holds, as far as the time goes."""
    end = time.monotonic() + seconds
    changed = True
    while changed:
        changed = False
        for phase in PHASES:
            smaller = first_smaller(case, phase, differs, end)
            while smaller is not None:
                case, changed = smaller, True
                smaller = first_smaller(case, phase, differs, end)
    return case
