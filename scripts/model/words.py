"""The words of a command line: options, their values, bindings, and what each command takes of them."""

import re
from typing import NamedTuple

from files import WHOLE
from session import Usage
from stack import SECTOR
from tables import digits_of, is_device_argument, is_mapped_name, number, salt_of

MOST_OF_MEMORY = 65536
# The bytes of a part of a file have addresses of 64 bits.
END_OF_PARTS = 2**55
TREE = (b"data-block", b"hash-block", b"blocks", b"salt")
# The options of each command, and those of them without a value.
OPTIONS = {
    "format": (*TREE, b"uuid", b"hash-offset", b"root-hash-file", b"no-superblock", b"grow", b"progress", b"fec",
               b"fec-roots", b"pin"),
    "verify": (*TREE, b"hash-offset", b"root-hash-file", b"no-superblock", b"all", b"json", b"chart", b"progress",
               b"fec", b"fec-roots", b"pin"),
    "dump": (b"hash-offset", b"json", b"pin"),
    "table": (*TREE, b"hash-offset", b"root-hash-file", b"name", b"no-superblock", b"fec", b"fec-roots", b"pin"),
    "repair": (*TREE, b"hash-offset", b"root-hash-file", b"no-superblock", b"check", b"fec", b"fec-roots", b"pin"),
    "update": (b"json", b"no-index", b"progress", b"pin"),
    "load": (b"json", b"tree"), "read": (b"cache",), "write": (b"cache",), "session": (b"cache",), "nbd": (b"cache", b"all"),
    "scan": (b"cache", b"map", b"retries", b"no-scrape", b"progress", b"json", b"chart", b"disk"),
    "copy": (b"cache", b"map", b"retries", b"no-scrape", b"differing", b"progress", b"disk", b"grow"),
    "cat": (b"cache", b"first", b"count", b"progress"), "store": (b"cache", b"first", b"progress"),
    "partitions": (b"sector-size", b"stack", b"root", b"json", b"pin", b"writable", b"fec", b"fec-roots"),
    "diff": (*TREE, b"no-superblock", b"all", b"runs", b"json", b"old-hash-offset", b"hash-offset", b"old-root-hash-file",
             b"root-hash-file", b"old-pin", b"pin"),
    "manual": (), "version": (),
}
OPTIONS = {name: (b"quiet", *options) for name, options in OPTIONS.items()}
FLAGS = (b"quiet", b"all", b"stack", b"no-superblock", b"grow", b"json", b"differing", b"progress", b"check", b"chart", b"tree", b"writable",
         b"disk", b"no-scrape", b"no-index")
# veritysetup's names of options that have another here.
OTHER_NAMES = {b"data-block-size": b"data-block", b"hash-block-size": b"hash-block",
               b"data-blocks": b"blocks", b"fec-device": b"fec"}
UUID = re.compile(rb"[0-9a-f]{8}(-[0-9a-f]{4}){3}-[0-9a-f]{12}", re.IGNORECASE)


def cut_words(words, command):
    """The options by name, and the other words.

    The first of these may begin with `-` behind `--`, and all of them may."""
    options, words, behind_dashes = {}, list(words), False
    while words:
        word = words[0]
        if word == b"-" or not word.startswith(b"-"):
            break
        words.pop(0)
        if word == b"--":
            behind_dashes = True
            break
        name, equals, value = word[2:].partition(b"=")
        name = OTHER_NAMES.get(name, name)
        if not word.startswith(b"--") or name not in OPTIONS[command] or name in options:
            raise Usage
        if name in FLAGS:
            if equals:
                raise Usage
            value = b""
        elif not equals:
            if not words or words[0].startswith(b"-") and words[0] != b"-":
                raise Usage
            value = words.pop(0)
        options[name] = value
    if not behind_dashes and any(word.startswith(b"-") and word != b"-" for word in words[1:]):
        raise Usage
    return options, words


def the_number(word, below=2**64):
    value = number(word, below)
    if value is None:
        raise Usage
    return value


def needed(value):
    if value is None:
        raise Usage
    return value


def exactly(words, count):
    if len(words) != count:
        raise Usage
    return words


def at_least(words, count):
    if len(words) < count:
        raise Usage
    return words[:count], words[count:]


def the_root(word):
    return needed(digits_of(word, 64, 64))


def uuid_of(word):
    """A uuid plain, hyphenated, in braces or behind `urn:uuid:`."""
    if re.fullmatch(rb"[0-9a-fA-F]{32}", word):
        return bytes.fromhex(word.decode())
    inner = word
    if word.startswith(b"urn:uuid:"):
        inner = word[9:]
    elif word.startswith(b"{") and word.endswith(b"}"):
        inner = word[1:-1]
    if not UUID.fullmatch(inner):
        raise Usage
    return bytes.fromhex(inner.replace(b"-", b"").decode())


def part_of(kind):
    """`ro@FIRST+COUNT` or `rw@FIRST+COUNT`: the kind, and the sectors of the part."""
    kind, at, place = kind.partition(b"@")
    if kind not in (b"ro", b"rw") or not at:
        raise Usage
    return kind, sectors_of(place)


def sectors_of(place):
    """`FIRST+COUNT`: the sectors of a part of a file."""
    first, plus, count = place.partition(b"+")
    if not plus:
        raise Usage
    first, count = the_number(first), the_number(count)
    if count < 1 or first + count >= END_OF_PARTS:
        raise Usage
    return first, count


def partition_in(kind):
    """`ro#PARTITION` or `rw#PARTITION`: the kind, and the number, UUID or label."""
    kind, sign, word = kind.partition(b"#")
    if kind not in (b"ro", b"rw") or not sign or not word or b"/" in word:
        raise Usage
    return kind, word


class Mapped(NamedTuple):
    """A file that is bound with its map, which is in another one, or a part of the file."""

    path: bytes
    map_file: bytes
    part: tuple = WHOLE


def binding(word):
    """The name, the kind, and the number of sectors or the file of a binding; of a part of a file, that part too, or the word that
    names a partition; of a file with a map, both files."""
    name, equals, rest = word.partition(b"=")
    kind, colon, value = rest.partition(b":")
    if not equals or not colon:
        raise Usage
    if kind.startswith(b"ro%"):
        return name, b"ro", Mapped(value, kind[3:])
    if kind.startswith(b"ro@") and b"%" in kind:
        place, _, map_file = kind[3:].partition(b"%")
        return name, b"ro", Mapped(value, map_file, sectors_of(place))
    if kind.startswith((b"ro#", b"rw#")):
        kind, word = partition_in(kind)
        return name, kind, (value, word)
    if b"@" in kind:
        kind, part = part_of(kind)
        return name, kind, (value, part)
    if kind not in (b"rw", b"ro", b"zero", b"ramp"):
        raise Usage
    if kind in (b"zero", b"ramp"):
        value = the_number(value, MOST_OF_MEMORY + 1)
        if value == 0:
            raise Usage
    return name, kind, value


def bindings(words):
    return [binding(word) for word in words]


def read_cache(options):
    the_number(options.get(b"cache", b"64"), 65537)


def read_offset(options, name=b"hash-offset"):
    """The sector at which superblock or tree begin."""
    offset = the_number(options.get(name, b"0"))
    if offset % SECTOR:
        raise Usage
    return offset // SECTOR


def read_sizes(options):
    """The block sizes, the number of blocks or None, and the salt or None."""
    sizes = [the_number(options.get(name, b"4096"), 2**32) for name in (b"data-block", b"hash-block")]
    blocks = the_number(options[b"blocks"]) if b"blocks" in options else None
    salt = needed(salt_of(options[b"salt"])) if b"salt" in options else None
    return (*sizes, blocks, salt)


def said_root(options, words):
    """The root (bytes), or the path of the file that has it as `(path,)`, and the words behind it."""
    if b"root-hash-file" in options:
        return (options[b"root-hash-file"],), words
    if not words:
        raise Usage
    return the_root(words[0]), words[1:]


def check_tree_values(options, wanted):
    """What no superblock says is said of a tree without one, and of no other."""
    if b"no-superblock" in options:
        if not all(name in options for name in wanted):
            raise Usage
    elif any(name in options for name in TREE):
        raise Usage


def read_fec(options, refused=()):
    """The path of the parity's file and how many bytes of it a codeword has, or None; these options don't go with it."""
    if b"fec" not in options:
        if b"fec-roots" in options:
            raise Usage
        return None
    if any(name in options for name in refused):
        raise Usage
    roots = the_number(options.get(b"fec-roots", b"2"), 25)
    if roots < 2:
        raise Usage
    return options[b"fec"], roots


def read_copies(data_path, hash_path, words):
    """The paths of the data and of the hashes of each copy of an image."""
    if data_path == hash_path:
        return [(word, word) for word in words]
    if len(words) % 2:
        raise Usage
    return list(zip(words[::2], words[1::2]))


def read_repair(options, words):
    """DATA, HASH, the root, the sizes, the place, the copies, and the parity or None."""
    check_tree_values(options, (b"salt",))
    check_pin(options)
    (data_path, hash_path), rest = at_least(words, 2)
    root, rest = said_root(options, rest)
    copies = read_copies(data_path, hash_path, rest)
    return data_path, hash_path, root, read_sizes(options), read_offset(options), copies, read_fec(options)


def read_update(options, words):
    """DATA, HASH, and the copies, of which the last one is the release."""
    (data_path, hash_path, *release), rest = at_least(words, 4)
    check_pin(options)
    if b"pin" not in options or len(rest) % 2:
        raise Usage
    return data_path, hash_path, [*zip(rest[::2], rest[1::2]), tuple(release)]


def check_pin(options, name=b"pin"):
    """The path of a pin, or of a root hash that is written, isn't empty and no `-`, and the image has a superblock."""
    if name in options and (options[name] in (b"", b"-") or b"no-superblock" in options):
        raise Usage


def read_format(options, words):
    """DATA, HASH, the sizes, the identifier or None, and the place."""
    if b"no-superblock" in options and b"uuid" in options:
        raise Usage
    uuid = uuid_of(options[b"uuid"]) if b"uuid" in options else None
    check_pin(options)
    check_pin(options, b"root-hash-file")
    written = [name for name in (b"pin", b"root-hash-file") if name in options]
    if len(written) == 2:
        raise Usage
    read_fec(options)
    return *exactly(words, 2), read_sizes(options), uuid, read_offset(options)


def read_verify(options, words):
    """DATA, HASH, the root, the sizes, and the place."""
    check_tree_values(options, (b"salt",))
    if b"json" in options and b"all" not in options:
        raise Usage
    if b"chart" in options and (b"all" not in options or b"json" in options):
        raise Usage
    check_pin(options)
    (data_path, hash_path), rest = at_least(words, 2)
    root, rest = said_root(options, rest)
    exactly(rest, 0)
    read_fec(options, (b"all",))
    return data_path, hash_path, root, read_sizes(options), read_offset(options)


def read_table(options, words):
    """HASH, the root, the names of both devices, the sizes, and the place."""
    check_tree_values(options, (b"salt", b"blocks"))
    (hash_path,), rest = at_least(words, 1)
    root, rest = said_root(options, rest)
    names = exactly(rest, 2)
    if not all(map(is_device_argument, names)):
        raise Usage
    if b"name" in options and not is_mapped_name(options[b"name"]):
        raise Usage
    fec = read_fec(options)
    if fec and not is_device_argument(fec[0]):
        raise Usage
    return hash_path, root, names, read_sizes(options), read_offset(options)


def read_on_stack(options, words, positional):
    """The words in front of the bindings, the bindings, the first sector, and how many or None."""
    read_cache(options)
    first = the_number(options.get(b"first", b"0"))
    count = the_number(options[b"count"]) if b"count" in options else None
    # a sector of the model fails always or never, so that a retry finds nothing new
    the_number(options.get(b"retries", b"0"))
    named, rest = at_least(words, positional)
    return named, bindings(rest), first, count


def read_pass(options, words, positional):
    """What a pass reads, the path of a stack and a name, or a disk and None; the positional words after it; and the bindings."""
    if b"disk" not in options:
        if b"grow" in options:
            raise Usage
        (path, name, *named), rest, _, _ = read_on_stack(options, words, 2 + positional)
        return (path, name), named, rest
    (place, *named), rest, _, _ = read_on_stack(options, words, 1 + positional)
    if rest:
        raise Usage
    return (place, None), named, rest


def read_partitions(options, words):
    if sum(name in options for name in (b"pin", b"root", b"stack", b"json")) > 1:
        raise Usage
    if b"writable" in options and not {b"pin", b"root", b"stack"} & {*options}:
        raise Usage
    check_pin(options)
    size = the_number(options.get(b"sector-size", b"512"))
    if size not in (512, 4096):
        raise Usage
    root = the_root(options[b"root"]) if b"root" in options else None
    fec = read_fec(options)
    if fec and not {b"pin", b"root"} & {*options}:
        raise Usage
    return *exactly(words, 1), size, root, fec


def read_tree(options, words, pin, file):
    """A tree's path and its root, which is None if its pin is given, or the path of its file as `(path,)`, and the words behind
    them."""
    (path,), words = at_least(words, 1)
    check_pin(options, pin)
    if pin in options and file in options:
        raise Usage
    if pin in options or file in options:
        return path, (options[file],) if file in options else None, words
    (root,), words = at_least(words, 1)
    return path, the_root(root), words


def read_diff(options, words):
    """Both paths, both places, both roots, the sizes of both trees, and how many runs are printed at most, or None."""
    check_tree_values(options, (b"salt", b"blocks"))
    old_path, old_root, words = read_tree(options, words, b"old-pin", b"old-root-hash-file")
    new_path, new_root, words = read_tree(options, words, b"pin", b"root-hash-file")
    exactly(words, 0)
    most = the_number(options[b"runs"]) if b"runs" in options else None
    if most == 0:
        raise Usage
    firsts = read_offset(options, b"old-hash-offset"), read_offset(options)
    return (old_path, new_path), firsts, (old_root, new_root), read_sizes(options), most
