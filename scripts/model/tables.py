"""Stack texts and tables: their lines, their first fault, their printed form.

Names and texts are bytes; keys, digests and salts are the bytes they spell.
"""

import re
from dataclasses import dataclass, field

KINDS = [
    "NotText", "Fields", "Name", "Flags", "Number", "Target", "ArgCount", "Cipher", "Key",
    "Version", "BlockSize", "Algorithm", "Digest", "Salt", "Option", "StripeCount", "ZeroChunk",
    "StripeNumber",
]
SPACE = b" \t\r\n"
WORD = re.compile(rb"[^ \t\r\n]+")
FOREIGN = re.compile(rb"[^ \t\r\n\x21-\x7e]|\\")
MAPPED_NAME = re.compile(rb"[\x21-\x7e]{1,127}")
LEAF_NAME = re.compile(rb"[\x21-\x7e]{1,255}")
PREFIX = b"/dev/mapper/"
BLOCK_SIZES = (512, 1024, 2048, 4096)
CRYPT_OPTIONS = (
    b"allow_discards", b"same_cpu_crypt", b"submit_from_crypt_cpus", b"no_read_workqueue",
    b"no_write_workqueue",
)
UNIT_OPTIONS = tuple(b"sector_size:%d" % size for size in BLOCK_SIZES)
LARGE_UNITS = b"iv_large_sectors"
ZERO_BLOCKS = b"ignore_zero_blocks"
# What the kernel does on corruption: one of them at most. They change no byte, nor does the last one.
ON_CORRUPTION = (b"restart_on_corruption", b"panic_on_corruption")
TASKLET = b"try_verify_in_tasklet"
# The order in which the kernel prints them.
PRINTED_OPTIONS = (*ON_CORRUPTION, ZERO_BLOCKS, TASKLET)
# A value follows each; a line has all four or none.
PARITY_OPTIONS = (b"use_fec_from_device", b"fec_roots", b"fec_blocks", b"fec_start")
# The description of a key follows it. It changes no byte.
SIGNATURE_OPTION = b"root_hash_sig_key_desc"


class TextFault(Exception):
    """The first fault of a text: entry and line count from 1, 0 where there is none."""

    def __init__(self, kind, entry=0, line=0):
        super().__init__(kind)
        self.kind, self.entry, self.line = kind, entry, line

    def text(self):
        number = KINDS.index(self.kind) + 1
        return "text fault %d %d %d %s" % (self.entry, self.line, number, self.kind)


@dataclass
class Linear:
    device: bytes
    offset: int

    def lower(self):
        return [self.device]

    def words(self):
        return [b"linear", self.device, self.offset]


@dataclass
class Striped:
    chunk: int
    stripes: list

    def lower(self):
        return [device for device, _ in self.stripes]

    def words(self):
        pairs = [word for stripe in self.stripes for word in stripe]
        return [b"striped", len(self.stripes), self.chunk] + pairs


@dataclass
class Zero:
    def lower(self):
        return []

    def words(self):
        return [b"zero"]


@dataclass
class Error:
    def lower(self):
        return []

    def words(self):
        return [b"error"]


@dataclass
class Crypt:
    key: bytes
    iv_offset: int
    device: bytes
    offset: int
    options: list = field(default_factory=list)

    def lower(self):
        return [self.device]

    def unit(self):
        """The sectors of one unit."""
        for option in self.options:
            if option in UNIT_OPTIONS:
                return BLOCK_SIZES[UNIT_OPTIONS.index(option)] // 512
        return 1

    def words(self):
        key = b"0" * (2 * len(self.key))
        words = [b"crypt", b"aes-xts-plain64", key, self.iv_offset, self.device, self.offset]
        return words + counted(self.options)


@dataclass
class Parity:
    device: bytes
    roots: int
    blocks: int
    start: int

    def words(self):
        return [b"use_fec_from_device", self.device, b"fec_blocks", self.blocks, b"fec_start", self.start, b"fec_roots", self.roots]


@dataclass
class Verity:
    device: bytes
    hash_device: bytes
    data_block: int
    hash_block: int
    blocks: int
    start: int
    digest: bytes
    salt: bytes
    options: list = field(default_factory=list)
    parity: Parity | None = None
    signature_key: bytes | None = None

    def lower(self):
        return [self.device, self.hash_device] + ([self.parity.device] if self.parity else [])

    def words(self):
        words = [b"verity", 1, self.device, self.hash_device, self.data_block, self.hash_block]
        words += [self.blocks, self.start, b"sha256", spelled(self.digest), spelled(self.salt)]
        parity = self.parity.words() if self.parity else []
        signature = [SIGNATURE_OPTION, self.signature_key] if self.signature_key else []
        return words + counted(self.options + parity + signature)


@dataclass
class Unstriped:
    stripes: int
    chunk: int
    stripe: int
    device: bytes
    offset: int

    def lower(self):
        return [self.device]

    def place(self, sector):
        """Where a sector stands on the striped device, its offset not counted."""
        chunk, inside = divmod(sector, self.chunk)
        return (chunk * self.stripes + self.stripe) * self.chunk + inside

    def words(self):
        numbers = [self.stripes, self.chunk, self.stripe]
        return [b"unstriped"] + numbers + [self.device, self.offset]


@dataclass
class Line:
    start: int
    length: int
    target: object


@dataclass
class Entry:
    """A device that a stack text asks for; `number` counts the skipped entries too."""
    number: int
    name: bytes
    writable: bool
    lines: list


def counted(options):
    return [len(options)] + options if options else []


def spelled(octets):
    return octets.hex().encode() if octets else b"-"


def number(word, below=2**64):
    """The value of a word of decimal digits, or None."""
    if not word.isdigit():
        return None
    digits = word.lstrip(b"0")
    if len(digits) > 20:
        return None
    value = int(digits or b"0")
    return value if value < below else None


def digits_of(word, least, most):
    """The bytes that a word of hexadecimal digits spells, or None."""
    fits = least <= len(word) <= most and len(word) % 2 == 0
    if not fits or not re.fullmatch(rb"[0-9a-fA-F]*", word):
        return None
    return bytes.fromhex(word.decode())


def salt_of(word):
    return b"" if word == b"-" else digits_of(word, 2, 512)


def is_mapped_name(name):
    return bool(MAPPED_NAME.fullmatch(name)) and not re.search(rb"[/,;\\]", name)


def is_leaf_name(name):
    plain = bool(LEAF_NAME.fullmatch(name)) and not re.search(rb"[,;\\]", name)
    return plain and not name.startswith(PREFIX)


def is_device_argument(word):
    if word.startswith(PREFIX):
        return is_mapped_name(word[len(PREFIX):])
    return is_leaf_name(word)


def the_number(word):
    value = number(word)
    if value is None:
        raise TextFault("Number")
    return value


def the_device(word):
    if not is_device_argument(word):
        raise TextFault("Name")
    return word


def the_choice(word, choices, kind):
    value = number(word)
    if value not in choices:
        raise TextFault(kind)
    return value


def need(value, kind):
    if value is None:
        raise TextFault(kind)
    return value


def read_options(words, is_known, valued=()):
    """The options after the count of words, and the values of those that have one; `is_known` is called with the options
    before each."""
    if not words:
        return [], {}
    count = the_number(words[0])
    if count != len(words) - 1:
        raise TextFault("ArgCount")
    options, values, rest = [], {}, iter(words[1:])
    for word in rest:
        if word in options or not is_known(word, options):
            raise TextFault("Option")
        options.append(word)
        if word in valued:
            values[word] = next(rest, None)
    return options, values


def read_linear(words, _features):
    if len(words) != 2:
        raise TextFault("ArgCount")
    return Linear(the_device(words[0]), the_number(words[1]))


def read_striped(words, _features):
    if len(words) < 2:
        raise TextFault("ArgCount")
    count = the_choice(words[0], range(1, 17), "StripeCount")
    chunk = number(words[1])
    if not chunk:
        raise TextFault("ZeroChunk")
    if len(words) != 2 + 2 * count:
        raise TextFault("ArgCount")
    pairs = zip(words[2::2], words[3::2])
    return Striped(chunk, [(the_device(device), the_number(offset)) for device, offset in pairs])


def read_none(target):
    def read(words, _features):
        if words:
            raise TextFault("ArgCount")
        return target()
    return read


def read_crypt(words, features):
    if len(words) < 5:
        raise TextFault("ArgCount")
    if words[0] != b"aes-xts-plain64":
        raise TextFault("Cipher")
    if len(words[1]) not in (64, 128):
        raise TextFault("Key")
    key = need(digits_of(words[1], 64, 128), "Key")
    iv_offset = the_number(words[2])
    device, offset = the_device(words[3]), the_number(words[4])

    def is_known(word, before):
        if word in CRYPT_OPTIONS:
            return True
        if "sector_size" not in features:
            return False
        sized = any(option in UNIT_OPTIONS for option in before)
        return word == LARGE_UNITS or (word in UNIT_OPTIONS and not sized)

    return Crypt(key, iv_offset, device, offset, read_options(words[5:], is_known)[0])


def read_parity(values):
    if not values:
        return None
    device, roots, blocks, start = PARITY_OPTIONS
    name = the_device(need(values.get(device), "Option"))
    count = the_number(need(values.get(roots), "Option"))
    if not 2 <= count <= 24:
        raise TextFault("Option")
    covered = the_number(need(values.get(blocks), "Option"))
    return Parity(name, count, covered, the_number(need(values.get(start), "Option")))


def read_signature_key(values):
    if SIGNATURE_OPTION not in values:
        return None
    key = need(values[SIGNATURE_OPTION], "Option")
    if not LEAF_NAME.fullmatch(key):
        raise TextFault("Option")
    return key


def read_verity(words, features):
    if len(words) < 10:
        raise TextFault("ArgCount")
    the_choice(words[0], (1,), "Version")
    device, hash_device = the_device(words[1]), the_device(words[2])
    data_block = the_choice(words[3], BLOCK_SIZES, "BlockSize")
    hash_block = the_choice(words[4], BLOCK_SIZES, "BlockSize")
    blocks, start = the_number(words[5]), the_number(words[6])
    if words[7] != b"sha256":
        raise TextFault("Algorithm")
    digest = need(digits_of(words[8], 64, 64), "Digest")
    salt = need(salt_of(words[9]), "Salt")

    def is_known(word, before):
        if word in ON_CORRUPTION:
            return not set(ON_CORRUPTION) & set(before)
        if word in PARITY_OPTIONS:
            return "healing" in features
        if word == SIGNATURE_OPTION:
            return "signature_key" in features
        return word == TASKLET or word == ZERO_BLOCKS and "zero_blocks" in features

    options, values = read_options(words[10:], is_known, (*PARITY_OPTIONS, SIGNATURE_OPTION))
    options = sorted((it for it in options if it not in values), key=PRINTED_OPTIONS.index)
    parity = read_parity({name: values[name] for name in PARITY_OPTIONS if name in values})
    key = read_signature_key(values)
    return Verity(device, hash_device, data_block, hash_block, blocks, start, digest, salt, options, parity, key)


def read_unstriped(words, _features):
    if len(words) != 5:
        raise TextFault("ArgCount")
    stripes = number(words[0], 2**32)
    if not stripes:
        raise TextFault("StripeCount")
    chunk = number(words[1], 2**32)
    if not chunk:
        raise TextFault("ZeroChunk")
    stripe = need(number(words[2], stripes), "StripeNumber")
    return Unstriped(stripes, chunk, stripe, the_device(words[3]), the_number(words[4]))


TARGETS = {
    b"linear": read_linear, b"striped": read_striped, b"zero": read_none(Zero),
    b"error": read_none(Error), b"crypt": read_crypt, b"verity": read_verity,
    b"unstriped": read_unstriped,
}


def read_line(text, features):
    words = WORD.findall(text)
    if len(words) < 3:
        raise TextFault("ArgCount")
    start, length = the_number(words[0]), the_number(words[1])
    target = words[2]
    if target not in TARGETS or target.decode() not in features:
        raise TextFault("Target")
    return Line(start, length, TARGETS[target](words[3:], features))


def read_entry(position, fields, features):
    if len(fields) < 5:
        raise TextFault("Fields")
    name, _uuid, minor, flags = fields[:4]
    if not is_mapped_name(name):
        raise TextFault("Name")
    if minor:
        the_number(minor)
    if flags not in (b"ro", b"rw"):
        raise TextFault("Flags")
    lines = []
    for count, text in enumerate(fields[4:], 1):
        try:
            lines.append(read_line(text, features))
        except TextFault as fault:
            fault.line = count
            raise
    return Entry(position, name, flags == b"rw", lines)


def read_stack(text, features):
    """The entries of a stack text, or its first fault."""
    if FOREIGN.search(text):
        raise TextFault("NotText")
    entries = []
    for position, part in enumerate(text.split(b";"), 1):
        if not part.strip(SPACE):
            continue
        fields = [piece.strip(SPACE) for piece in part.split(b",")]
        try:
            entries.append(read_entry(position, fields, features))
        except TextFault as fault:
            fault.entry = position
            raise
    return entries


def print_line(line):
    words = [line.start, line.length] + line.target.words()
    return b" ".join(word if isinstance(word, bytes) else b"%d" % word for word in words)
