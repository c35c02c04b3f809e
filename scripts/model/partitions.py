"""GUID partition tables (UEFI 2.10, chapter 5): both copies, the partitions, and the stacks over them."""

import re
import struct
import zlib
from dataclasses import dataclass
from uuid import UUID

from configuration import MOST_DEVICES
from files import Stop, not_opened
from parity import covered
from protection import check_parity, parity_words
from stack import SECTOR
from tables import is_mapped_name, number
from verity import check_sizes, read_superblock, table_line

MOST_OF_ENTRIES = 1 << 20
UUID_FORM = re.compile(rb"[0-9a-f]{8}(-[0-9a-f]{4}){3}-[0-9a-f]{12}", re.IGNORECASE)
# Types of the Discoverable Partitions Specification, by systemd's names: those of no architecture, and of each one that of its root
# partition, its verity partition and its signature, and of the same for /usr.
KINDS = {
    "c12a7328-f81f-11d2-ba4b-00a0c93ec93b": "esp",
    "bc13c2ff-59e6-4262-a352-b275fd6f7172": "xbootldr",
    "0657fd6d-a4ab-43c4-84e5-0933c84b4f4f": "swap",
    "933ac7e1-2eb4-4f13-b844-0e14e2aef915": "home",
    "3b8f8425-20e0-4f3b-907f-1a25a76f98e8": "srv",
    "4d21b016-b534-45c2-a9fb-5c16e091fd2d": "var",
    "7ec6f557-3bc5-4aca-b293-16ef5df639d1": "tmp",
    "773f91ef-66d4-49b5-bd83-d683bf40ad16": "user-home",
    "0fc63daf-8483-4772-8e79-3d69d8477de4": "linux-generic",
}
OF_ARCHITECTURES = """
alpha
  6523f8ae-3eb1-4e2a-a05a-18b695ae656f fc56d9e9-e6e5-4c06-be32-e74407ce09a5 d46495b7-a053-414f-80f7-700c99921ef8
  e18cf08c-33ec-4c0d-8246-c6c6fb3da024 8cce0d25-c0d0-4a44-bd87-46331bf1df67 5c6e1c76-076a-457a-a0fe-f3b4cd21ce6e
arc
  d27f46ed-2919-4cb8-bd25-9531f3c16534 24b2d975-0f97-4521-afa1-cd531e421b8d 143a70ba-cbd3-4f06-919f-6c05683a78bc
  7978a683-6316-4922-bbee-38bff5a2fecc fca0598c-d880-4591-8c16-4eda05c7347c 94f9a9a1-9971-427a-a400-50cb297f0f35
arm
  69dad710-2ce4-4e3c-b16c-21a1d49abed3 7386cdf2-203c-47a9-a498-f2ecce45a2d6 42b0455f-eb11-491d-98d3-56145ba9d037
  7d0359a3-02b3-4f0a-865c-654403e70625 c215d751-7bcd-4649-be90-6627490a4c05 d7ff812f-37d1-4902-a810-d76ba57b975a
arm64
  b921b045-1df0-41c3-af44-4c6f280d3fae df3300ce-d69f-4c92-978c-9bfb0f38d820 6db69de6-29f4-4758-a7a5-962190f00ce3
  b0e01050-ee5f-4390-949a-9101b17104e9 6e11a4e7-fbca-4ded-b9e9-e1a512bb664e c23ce4ff-44bd-4b00-b2d4-b41b3419e02a
ia64
  993d8d3d-f80e-4225-855a-9daf8ed7ea97 86ed10d5-b607-45bb-8957-d350f23d0571 e98b36ee-32ba-4882-9b12-0ce14655f46a
  4301d2a6-4e3b-4b2a-bb94-9e0b2c4225ea 6a491e03-3be7-4545-8e38-83320e0ea880 8de58bc2-2a43-460d-b14e-a76e4a17b47f
loongarch64
  77055800-792c-4f94-b39a-98c91b762bb6 f3393b22-e9af-4613-a948-9d3bfbd0c535 5afb67eb-ecc8-4f85-ae8e-ac1e7c50e7d0
  e611c702-575c-4cbe-9a46-434fa0bf7e3f f46b2c26-59ae-48f0-9106-c50ed47f673d b024f315-d330-444c-8461-44bbde524e99
mips
  e9434544-6e2c-47cc-bae2-12d6deafb44c 7a430799-f711-4c7e-8e5b-1d685bd48607 bba210a2-9c5d-45ee-9e87-ff2ccbd002d0
  773b2abc-2a99-4398-8bf5-03baac40d02b 6e5a1bc8-d223-49b7-bca8-37a5fcceb996 97ae158d-f216-497b-8057-f7f905770f54
mips64
  d113af76-80ef-41b4-bdb6-0cff4d3d4a25 579536f8-6a33-4055-a95a-df2d5e2c42a8 43ce94d4-0f3d-4999-8250-b9deafd98e6e
  57e13958-7331-4365-8e6e-35eeee17c61b 81cf9d90-7458-4df4-8dcf-c8a3a404f09b 05816ce2-dd40-4ac6-a61d-37d32dc1ba7d
mips-le
  37c58c8a-d913-4156-a25f-48b1b64e07f0 d7d150d2-2a04-4a33-8f12-16651205ff7b c919cc1f-4456-4eff-918c-f75e94525ca5
  0f4868e9-9952-4706-979f-3ed3a473e947 46b98d8d-b55c-4e8f-aab3-37fca7f80752 3e23ca0b-a4bc-4b4e-8087-5ab6a26aa8a9
mips64-le
  700bda43-7a34-4507-b179-eeb93d7a7ca3 16b417f8-3e06-4f57-8dd2-9b5232f41aa6 904e58ef-5c65-4a31-9c57-6af5fc7c5de7
  c97c1f32-ba06-40b4-9f22-236061b08aa8 3c3d61fe-b5f3-414d-bb71-8739a694a4ef f2c2c7ee-adcc-4351-b5c6-ee9816b66e16
parisc
  1aacdb3b-5444-4138-bd9e-e5c2239b2346 d212a430-fbc5-49f9-a983-a7feef2b8d0e 15de6170-65d3-431c-916e-b0dcd8393f25
  dc4a4480-6917-4262-a4ec-db9384949f25 5843d618-ec37-48d7-9f12-cea8e08768b2 450dd7d1-3224-45ec-9cf2-a43a346d71ee
ppc
  1de3f1ef-fa98-47b5-8dcd-4a860a654d78 98cfe649-1588-46dc-b2f0-add147424925 1b31b5aa-add9-463a-b2ed-bd467fc857e7
  7d14fec5-cc71-415d-9d6c-06bf0b3c3eaf df765d00-270e-49e5-bc75-f47bb2118b09 7007891d-d371-4a80-86a4-5cb875b9302e
ppc64
  912ade1d-a839-4913-8964-a10eee08fbd2 9225a9a3-3c19-4d89-b4f6-eeff88f17631 f5e2c20c-45b2-4ffa-bce9-2a60737e1aaf
  2c9739e2-f068-46b3-9fd0-01c5a9afbcca bdb528a5-a259-475f-a87d-da53fa736a07 0b888863-d7f8-4d9e-9766-239fce4d58af
ppc64-le
  c31c45e6-3f39-412e-80fb-4809c4980599 906bd944-4589-4aae-a4e4-dd983917446a d4a236e7-e873-4c07-bf1d-bf6cf7f1c3c6
  15bb03af-77e7-4d4a-b12b-c0d084f7491c ee2b9983-21e8-4153-86d9-b6901a54d1ce c8bfbd1e-268e-4521-8bba-bf314c399557
riscv32
  60d5a7fe-8e7d-435c-b714-3dd8162144e1 ae0253be-1167-4007-ac68-43926c14c5de 3a112a75-8729-4380-b4cf-764d79934448
  b933fb22-5c3f-4f91-af90-e2bb0fa50702 cb1ee4e3-8cd0-4136-a0a4-aa61a32e8730 c3836a13-3137-45ba-b583-b16c50fe5eb4
riscv64
  72ec70a6-cf74-40e6-bd49-4bda08e8f224 b6ed5582-440b-4209-b8da-5ff7c419ea3d efe0f087-ea8d-4469-821a-4c2a96a8386a
  beaec34b-8442-439b-a40b-984381ed097d 8f1056be-9b05-47c4-81d6-be53128e5b54 d2f9000a-7a18-453f-b5cd-4d32f77a7b32
s390
  08a7acea-624c-4a20-91e8-6e0fa67d23f9 7ac63b47-b25c-463b-8df8-b4a94e6c90e1 3482388e-4254-435a-a241-766a065f9960
  cd0f869b-d0fb-4ca0-b141-9ea87cc78d66 b663c618-e7bc-4d6d-90aa-11b756bb1797 17440e4f-a8d0-467f-a46e-3912ae6ef2c5
s390x
  5eead9a9-fe09-4a1e-a1d7-520d00531306 b325bfbe-c7be-4ab8-8357-139e652d2f6b c80187a5-73a3-491a-901a-017c3fa953e9
  8a4f5770-50aa-4ed3-874a-99b710db6fea 31741cc4-1a2a-4111-a581-e00b447d2d06 3f324816-667b-46ae-86ee-9b0c0c6c11b4
tilegx
  c50cdd70-3862-4cc3-90e1-809a8c93ee2c 966061ec-28e4-4b2e-b4a5-1f0a825a1d84 b3671439-97b0-4a53-90f7-2d5a8f3ad47b
  55497029-c7c1-44cc-aa39-815ed1558630 2fb4bf56-07fa-42da-8132-6b139f2026ae 4ede75e2-6ccc-4cc8-b9c7-70334b087510
x86
  44479540-f297-41b2-9af7-d131d5f0458a d13c5d3b-b5d1-422a-b29f-9454fdc89d76 5996fc05-109c-48de-808b-23fa0830b676
  75250d76-8cc6-458e-bd66-bd47cc81a812 8f461b0d-14ee-4e81-9aa9-049b6fb97abd 974a71c0-de41-43c3-be5d-5c5ccd1ad2c0
x86-64
  4f68bce3-e8cd-4db1-96e7-fbcaf984b709 2c7357ed-ebd2-46d9-aec1-23d437ec2bf5 41092b05-9fc8-4523-994f-2def0408b176
  8484680c-9521-48c6-9c11-b0720656f69e 77ff5f63-e7b6-4633-acf4-1565b864c0e6 e7bb33fb-06cf-4e81-8273-e543b413e2e2
"""


def kinds_of_architectures():
    words = OF_ARCHITECTURES.split()
    suffixes = ["%s-%%s%s" % (volume, what) for volume in ("root", "usr") for what in ("", "-verity", "-verity-sig")]
    for at in range(0, len(words), 7):
        for uuid, suffix in zip(words[at + 1:at + 7], suffixes):
            yield uuid, suffix % words[at]


KINDS.update(kinds_of_architectures())


class Wrong(Exception):
    """What is wrong of one copy of a table."""


@dataclass
class Copy:
    """A valid copy: its partitions, what the other copy must say too, AlternateLBA, and whether its reserved bytes are zeros."""

    partitions: list
    common: tuple
    alternate: int
    is_clear: bool


@dataclass
class Table:
    partitions: list
    copies: str
    size: int
    warnings: list


@dataclass
class Partition:
    number: int
    kind: UUID
    uuid: UUID
    first: int
    last: int
    label: str

    @property
    def count(self):
        return self.last - self.first + 1


def label_of(octets):
    """The label up to its first zero; control characters and surrogates alone can't be shown."""
    units = struct.unpack("<36H", octets)
    units = units[:units.index(0)] if 0 in units else units
    text = struct.pack("<%dH" % len(units), *units).decode("utf-16-le", "replace")
    return "".join("\ufffd" if ord(one) < 32 or 127 <= ord(one) < 160 else one for one in text)


def copy_of(image, size, sector, sectors):
    """The partitions of the copy whose header is in that sector."""
    header = image[sector * size:(sector + 1) * size]
    (signature, revision, length, checksum, zero, own, alternate, first, last, disk, at, count, entry, entries_sum) = struct.unpack(
        "<8sIIIIQQQQ16sQIII", header[:92])
    checks = [
        ("Signature", signature == b"EFI PART"), ("Revision", revision == 0x10000),
        ("HeaderSize", 92 <= length <= size),
        ("HeaderChecksum", zlib.crc32(header[:16] + bytes(4) + header[20:length]) == checksum),
        ("HeaderSector", own == sector), ("UsableSectors", first <= last < max(sectors, alternate)),
        ("EntrySize", entry >= 128 and entry & (entry - 1) == 0),
        ("EntryCount", 0 < count and count * entry <= MOST_OF_ENTRIES),
    ]
    for name, is_good in checks:
        if not is_good:
            raise Wrong(name)
    end = at + -(-count * entry // size)
    if at < 2 or end >= sectors or not (end <= first or last < at):
        raise Wrong("EntriesSector")
    array = image[at * size:at * size + count * entry]
    if zlib.crc32(array) != entries_sum:
        raise Wrong("EntriesChecksum")
    partitions = checked([array[place:place + 128] for place in range(0, len(array), entry)], first, last)
    return Copy(partitions, (first, last, disk, count, entry, array), alternate, zero == 0 and not any(header[92:]))


def checked(entries, first, last):
    found = []
    for number, octets in enumerate(entries, 1):
        if octets[:16] == bytes(16):
            continue
        kind, own = UUID(bytes_le=octets[:16]), UUID(bytes_le=octets[16:32])
        one = Partition(number, kind, own, *struct.unpack("<QQ", octets[32:48]), label_of(octets[56:128]))
        if one.last < one.first:
            raise Wrong("Backwards %d" % number)
        if one.first < first or one.last > last:
            raise Wrong("OutsideUsable %d" % number)
        if any(one.first <= other.last and other.first <= one.last for other in found):
            raise Wrong("Overlap %d" % number)
        found.append(one)
    return found


def master_record(image):
    """What is unusual of the master boot record: the protective one has one record of type 0xEE, from sector 1 on."""
    records = [image[at:at + 16] for at in range(446, 510, 16)]
    used = [it for it in records if it[4] != 0]
    if image[510:512] != b"\x55\xaa" or not used:
        return ["there is no protective MBR"]
    protective = [it for it in records if it[4] == 0xEE and it[8:12] == b"\1\0\0\0"]
    is_alone = len(protective) == 1 and sum(it == bytes(16) for it in records) == 3
    return [] if is_alone else ["the MBR isn't a protective one"]


def warnings_of(image, copies, places, sectors):
    """What is unusual of a table, by the master boot record and the headers of the copies that are valid."""
    found = master_record(image)
    primary, backup = copies
    if isinstance(primary, Copy) and isinstance(backup, Copy) and primary.common != backup.common:
        found.append("the two copies of the table differ; the primary one is used")
    for name, copy, other, beyond, elsewhere in (
            ("primary", primary, places[1], "the primary header places the backup past the end of the disk",
             "the primary header places the backup before the last sector"),
            ("backup", backup, places[0], "the backup places the primary table past the end of the disk",
             "the backup doesn't place the primary table in sector 1")):
        if not isinstance(copy, Copy):
            continue
        if copy.alternate >= sectors:
            found.append(beyond)
        elif copy.alternate != other:
            found.append(elsewhere)
        if not copy.is_clear:
            found.append("reserved bytes of the %s header aren't zero" % name)
    return found


def table_with(image, size):
    """The table with sectors of that size."""
    sectors = len(image) // SECTOR // (size // SECTOR)
    if sectors < 2:
        raise Stop(b"refused 12 NoTable TooSmall")
    found, places = [], (1, sectors - 1)
    for sector in places:
        try:
            found.append(copy_of(image, size, sector, sectors))
        except Wrong as wrong:
            found.append(str(wrong))
    primary, backup = found
    warnings = warnings_of(image, found, places, sectors)
    if isinstance(primary, Copy) and isinstance(backup, Copy):
        copies = "both" if primary.common == backup.common else "differ"
        return Table(primary.partitions, copies, size, warnings)
    if isinstance(primary, Copy):
        return Table(primary.partitions, "primary, backup " + backup, size, warnings)
    if isinstance(backup, Copy):
        return Table(backup.partitions, "backup, primary " + primary, size, warnings)
    raise Stop(b"refused 12 NoTable primary %s backup %s" % (primary.encode(), backup.encode()))


def table_of(image, size):
    """The table with sectors of that size; if that is 512 and there is none, the one with sectors of 4,096 bytes."""
    try:
        return table_with(image, size)
    except Stop:
        if size == 4096:
            raise
    try:
        return table_with(image, 4096)
    except Stop:
        return table_with(image, size)


def is_sound(image, table):
    """Whether partitions are written by this table: by a valid primary copy, no valid backup that differs, and a protective record."""
    return table.copies.startswith(("both", "primary")) and not master_record(image)


def only_named(table, word):
    """The partition of that number, UUID or label; None unless exactly one is. No word with a slash is a label."""
    wanted = number(word, 2**32)
    if wanted:
        found = [it for it in table.partitions if it.number == wanted]
    elif UUID_FORM.fullmatch(word):
        found = [it for it in table.partitions if it.uuid == UUID(word.decode())]
    else:
        found = [it for it in table.partitions if it.label.encode() == word and word and b"/" not in word]
    return found[0] if len(found) == 1 else None


def part_named(image, word):
    """The part, in sectors of 512 bytes, that the partition of that number, UUID or label is; None unless exactly one is."""
    try:
        table = table_of(image, SECTOR)
    except Stop:
        return None
    found, unit = only_named(table, word), table.size // SECTOR
    return (found.first * unit, found.count * unit) if found else None


def warning_lines(image, table):
    """What is printed on standard error of a table: what is unusual of it, and each partition that ends past the disk's end."""
    sectors = len(image) // SECTOR
    past = [it.number for it in table.partitions if (it.first + it.count) * (table.size // SECTOR) > sectors]
    texts = table.warnings + ["the disk ends before partition %d does" % number for number in past]
    return [b"dmstack: warning: " + text.encode() for text in texts]


def lines_of(partitions, copies):
    lines = ["copies " + copies]
    for it in partitions:
        name = KINDS.get(str(it.kind), "-")
        lines.append("%d %d %d %s %s %s %s" % (it.number, it.first, it.count, it.kind, name, it.uuid, it.label))
    return [line.encode() for line in lines]


def table_facts(partitions, copies):
    """The same as JSON."""
    good, _, fault = copies.partition(", ")
    _, _, fault = fault.partition(" ")
    name, _, number = fault.partition(" ")
    wrong = {"name": name, "partition": int(number) if number else None} if name else None
    rows = [{"number": it.number, "first": it.first, "sectors": it.count, "type": str(it.kind),
             "type_name": KINDS.get(str(it.kind), "-"), "uuid": str(it.uuid), "label": it.label} for it in partitions]
    return {"copies": good, "fault": wrong, "partitions": rows}


def name_of(partitions, one):
    label = one.label.encode()
    if label.startswith(b"-"):
        label = b""
    others = [it for it in partitions if it is not one]
    is_taken = any(label in (it.label.encode(), b"p%d" % it.number) for it in others)
    return label if is_mapped_name(label) and not is_taken else b"p%d" % one.number


def linear(name, one, size, is_writable):
    unit = size // SECTOR
    return b"%s,,,%s,0 %d linear DISK %d;" % (name, b"rw" if is_writable else b"ro", one.count * unit, one.first * unit)


def check_end(image, one, size):
    """A partition that ends past the end of the disk, as on one that was cut short."""
    if (one.last + 1) * (size // SECTOR) > len(image) // SECTOR:
        raise Stop(b"refused 17 OutsideDevice")


def stack_lines(image, table, is_writable):
    for it in table.partitions:
        check_end(image, it, table.size)
    if len(table.partitions) > MOST_DEVICES:
        raise Stop(b"refused 46 NotLoadable")
    return [linear(name_of(table.partitions, it), it, table.size, is_writable) for it in table.partitions]


def the_one(partitions, octets, kinds):
    found = [it for it in partitions if it.uuid.bytes == octets]
    if len(found) != 1:
        number, name = kinds[len(found) > 1]
        raise Stop(b"refused %d %s" % (number, name))
    return found[0]


def signature_lines(image, table, root):
    """The device over the first partition of a signature, whose JSON object begins with this root digest."""
    unit = table.size // SECTOR
    for it in table.partitions:
        at = it.first * table.size
        is_there = KINDS.get(str(it.kind), "-").endswith("-verity-sig") and (it.last + 1) * unit <= len(image) // SECTOR
        if is_there and image[at + 13:at + 77] == root.hex().encode():
            return [linear(b"signature", it, table.size, False)]
    return []


def parity_part(image, table, word):
    """The partition of the parity, which ends on the disk."""
    found = only_named(table, word)
    if found is None:
        raise not_opened("NotFound", word)
    check_end(image, found, table.size)
    return found


def root_lines(image, table, root, pin, is_writable, fec):
    """The stack of the two partitions whose own UUIDs are the halves of the root digest; the superblock is the pin's, if there is one.
    With parity its partition, and how many bytes of it a codeword has."""
    size = table.size
    data = the_one(table.partitions, root[:16], ((13, b"NoDataPartition"), (14, b"TwoDataPartitions")))
    tree = the_one(table.partitions, root[16:], ((15, b"NoVerityPartition"), (16, b"TwoVerityPartitions")))
    check_end(image, data, size)
    check_end(image, tree, size)
    octets = [image[it.first * size:(it.last + 1) * size] for it in (data, tree)]
    superblock = read_superblock(octets[1])
    if pin is not None:
        pin.check(superblock)
    shape = superblock.tree()
    check_sizes(shape, *octets)
    line = table_line(superblock, root, b"/dev/mapper/data", b"/dev/mapper/hash")
    lines = [linear(b"data", data, size, is_writable), linear(b"hash", tree, size, False)]
    if fec:
        part = parity_part(image, table, fec[0])
        line += parity_words(superblock, octets[1], 1, b"/dev/mapper/parity", fec[1])
        check_parity(shape, covered(*octets, shape.data_block, shape.blocks, 1), image[part.first * size:(part.last + 1) * size], fec[1])
        lines.append(linear(b"parity", part, size, False))
    return [*lines, b"root,,,ro,%s;" % line, *signature_lines(image, table, root)]
