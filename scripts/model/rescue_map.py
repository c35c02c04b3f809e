"""Map files of GNU ddrescue ("Mapfile structure" of its manual): which sectors of a device were had."""

import re

from stack import SECTOR
from tables import WORD

FAULTS = ["Status", "Block", "PartSector", "Gap", "Overlap", "Size"]
UNFINISHED = (b"-", b"?", b"*", b"/")
RANKS = b"?*/-+"  # the less advanced status of a sector's bytes is that of the sector
SCAN_MARK = b"# dmstack scan"


class MapFault(Exception):
    """The first thing that is wrong of a map file."""


def number_of(word):
    """A decimal or a hexadecimal number below 2^64, or None; a zero in front of digits would be octal."""
    if re.fullmatch(rb"0[xX][0-9a-fA-F]+", word):
        value = int(word, 16)
    elif re.fullmatch(rb"0|[1-9][0-9]*", word):
        value = int(word)
    else:
        return None
    return value if value < 2**64 else None


def said_lines(text):
    """The words of the lines that say something: no comment, and not empty."""
    found = [WORD.findall(line) for line in text.split(b"\n")]
    return [words for words in found if words and not words[0].startswith(b"#")]


def is_of_scan(text):
    """Whether a scan made the map: its `+` says that a sector could be read, and not that it was copied."""
    return any(WORD.findall(line) == SCAN_MARK.split() for line in text.split(b"\n"))


def is_status(words):
    return (len(words) in (2, 3) and number_of(words[0]) is not None
            and words[1] in (*UNFINISHED, b"+", b"F", b"G"))


def blocks_in(text, sectors):
    """The blocks of the map of a device, as (size, letter), in bytes: they end in a part of the sector after it at most."""
    lines = said_lines(text)
    if not lines or not is_status(lines[0]):
        raise MapFault("Status")
    blocks, end = [], 0
    for words in lines[1:]:
        numbers = [number_of(word) for word in words[:2]]
        if len(words) != 3 or None in numbers or words[2] not in (*UNFINISHED, b"+"):
            raise MapFault("Block")
        at, size = numbers
        if not size:
            raise MapFault("PartSector")
        if at != end:
            raise MapFault("Gap" if at > end else "Overlap")
        end += size
        if end >= (sectors + 1) * SECTOR:
            raise MapFault("Size")
        blocks.append((size, words[2]))
    if end // SECTOR != sectors:
        raise MapFault("Size")
    return blocks


def letters_of(text, sectors):
    """The letter of each sector, the least advanced one of its bytes; at the end that of a part of a sector, if there is one."""
    bytes_ = b"".join(size * letter for size, letter in blocks_in(text, sectors))
    return [min(bytes_[at : at + SECTOR], key=RANKS.index) for at in range(0, len(bytes_), SECTOR)]


def marks_of(text, sectors):
    """Of each sector whether it was had."""
    return [letter == ord("+") for letter in letters_of(text, sectors)[:sectors]]


def is_finished(text, again):
    """Whether each line after the first is a block that was had or, unless bad ones are read again, is bad."""
    lines = said_lines(text)
    return bool(lines) and all(len(words) == 3 and None not in map(number_of, words[:2]) and
                               (words[2] == b"+" or words[2] == b"-" and not again) for words in lines[1:])


def bad_sectors_of(text, sectors):
    """The sectors that are bad."""
    return [at for at, letter in enumerate(letters_of(text, sectors)[:sectors]) if letter == ord("-")]


def tail_of(text, sectors):
    """The line of the bytes after the device's sectors, if there are any, and of their least advanced letter."""
    size = sum(size for size, _ in blocks_in(text, sectors)) - sectors * SECTOR
    return [b"%d %d %c" % (sectors * SECTOR, size, letters_of(text, sectors)[sectors])] if size else []


def blocks_of(marks):
    """The longest runs of sectors that are alike, as [mark, first, count]."""
    found = []
    for at, mark in enumerate(marks):
        if found and found[-1][0] == mark:
            found[-1][2] += 1
        else:
            found.append([mark, at, 1])
    return found


def text_of(marks, of_scan, tail=()):
    """The map that is written: finished, and of each longest run whether it was had; a scan's is marked. The tail follows."""
    lines = [b"%d %d %s" % (first * SECTOR, count * SECTOR, b"+" if had else b"-") for had, first, count in blocks_of(marks)]
    return b"\n".join([*[SCAN_MARK] * of_scan, b"0 +", *lines, *tail, b""])
