#!/usr/bin/env python3
"""partition_tables.py COMMAND ..: GUID partition tables, printed by `COMMAND .. [--sector-size 4096] IMAGE`.

Tables are made by this script from the tables of the UEFI specification (2.10, 5.3), and by sgdisk and sfdisk where
these are there. Then each byte of a header and of the used entries is changed in turn, in the primary copy, in the
backup and in both: the partitions must be the same ones by the other copy, with the fault named, or refused by name.
At last fields are changed under checksums that are right: each has the refusal that is named here.
"""
import os
import shutil
import struct
import subprocess
import sys
import tempfile
import uuid
import zlib

ROOT = uuid.UUID("4f68bce3-e8cd-4db1-96e7-fbcaf984b709")
VERITY = uuid.UUID("2c7357ed-ebd2-46d9-aec1-23d437ec2bf5")
OTHER = uuid.UUID("01234567-89ab-cdef-0123-456789abcdef")
NAMES = {ROOT: "root-x86-64", VERITY: "root-x86-64-verity"}
PARTITIONS = [
    (1, ROOT, uuid.UUID("11111111-2222-3333-4444-555555555555"), 40, 49, "root"),
    (2, VERITY, uuid.UUID("66666666-7777-8888-9999-aaaaaaaaaaaa"), 50, 50, "verity \u00e9\U0001f600"),
    (5, OTHER, uuid.UUID("bbbbbbbb-cccc-dddd-eeee-ffffffffffff"), 60, 79, ""),
]


def entry(kind, own, first, last, label):
    return kind.bytes_le + own.bytes_le + struct.pack("<QQQ", first, last, 0) + label.encode("utf-16-le").ljust(72, b"\0")


class Table:
    """The fields of a table; `image` puts both copies on a disk."""

    def __init__(self, sector=512, sectors=128, **fields):
        self.sector, self.sectors = sector, sectors
        self.signature, self.revision, self.header_size = b"EFI PART", 0x10000, 92
        self.count, self.size = 128, 128
        self.first_usable, self.last_usable = 40, sectors - 40
        self.partitions = PARTITIONS
        self.entries = None
        self.own = None
        self.__dict__.update(fields)

    def array(self):
        array = bytearray(self.count * self.size)
        for number, kind, own, first, last, label in self.partitions:
            array[(number - 1) * self.size:(number - 1) * self.size + 128] = entry(kind, own, first, last, label)
        return bytes(array)

    def header(self, own, other, entries):
        own = self.own if self.own is not None else own
        entries = self.entries if self.entries is not None else entries
        fields = self.signature + struct.pack(
            "<IIIIQQQQ16sQIII", self.revision, self.header_size, 0, 0, own, other, self.first_usable, self.last_usable,
            bytes(16), entries, self.count, self.size, zlib.crc32(self.array()))
        summed = (fields + bytes(self.sector))[:max(self.header_size, 92)]
        return fields[:16] + struct.pack("<I", zlib.crc32(summed)) + fields[20:]

    def places(self):
        taken = -(-self.count * self.size // self.sector)
        last = self.sectors - 1
        return (1, 2), (last, last - taken)

    def image(self):
        image = bytearray(self.sector * self.sectors)
        (own, entries), (other, other_entries) = self.places()
        for header, other_header, at in ((own, other, entries), (other, own, other_entries)):
            bytes_of = self.header(header, other_header, at)
            array = self.array()
            image[at * self.sector:at * self.sector + len(array)] = array
            image[header * self.sector:header * self.sector + len(bytes_of)] = bytes_of
        return image


def line(number, kind, own, first, last, label):
    return f"{number} {first} {last - first + 1} {kind} {NAMES.get(kind, '-')} {own} {label}\n"


LINES = "".join(line(*partition) for partition in PARTITIONS)


def changed_bytes():
    """Images of which a byte of one copy, or the same byte of both, is another one: image, and a test of what is said."""
    for sector in (512, 4096):
        table = Table(sector=sector)
        whole = bytes(table.image())
        copies = [(h * sector, a * sector) for h, a in table.places()]
        at_header = [("header", at) for at in range(92)]
        at_entries = [("entries", (number - 1) * 128 + at) for number in (1, 2, 3, 5, 128) for at in range(128)]
        for which in ((0,), (1,), (0, 1)):
            for part, at in at_header + at_entries:
                image = bytearray(whole)
                for copy in which:
                    image[copies[copy][part == "entries"] + at] ^= 1 << (at % 8)
                yield sector, image, (part, at, which), which


def wanted_of_changed(which):
    if which == (0,):
        return lambda said: said.startswith("copies backup, primary ") and said.endswith("\n" + LINES) and said.count("\n") == 4
    if which == (1,):
        return lambda said: said.startswith("copies primary, backup ") and said.endswith("\n" + LINES) and said.count("\n") == 4
    return lambda said: said.startswith("refused 12 NoTable primary ") and said.count("\n") == 1


def with_partitions(*partitions):
    return [(number, OTHER, uuid.UUID(int=number), first, last, "x") for number, first, last in partitions]


# Fields under checksums that are right, and the fault of both copies, or in a tuple that of the primary alone, whose
# entries end after the first usable sector.
FIELDS = [
    (dict(signature=b"EFI PARt"), "Signature"),
    (dict(revision=0x10001), "Revision"),
    (dict(revision=0x20000), "Revision"),
    (dict(header_size=91), "HeaderSize"),
    (dict(header_size=513), "HeaderSize"),
    (dict(header_size=512), None),
    (dict(own=7), "HeaderSector"),
    (dict(first_usable=89), "UsableSectors"),
    (dict(last_usable=128), "UsableSectors"),
    (dict(last_usable=2**64 - 1), "UsableSectors"),
    (dict(size=64, partitions=[]), "EntrySize"),
    (dict(size=192), "EntrySize"),
    (dict(size=0, partitions=[]), "EntrySize"),
    (dict(count=0, partitions=[]), "EntryCount"),
    (dict(entries=1), "EntriesSector"),
    (dict(entries=2**64 - 1), "EntriesSector"),
    (dict(entries=96), "EntriesSector"),
    (dict(first_usable=33, partitions=[]), ("EntriesSector",)),
    (dict(partitions=with_partitions((3, 50, 49))), "Backwards 3"),
    (dict(partitions=with_partitions((3, 39, 49))), "OutsideUsable 3"),
    (dict(partitions=with_partitions((3, 40, 89))), "OutsideUsable 3"),
    (dict(partitions=with_partitions((3, 2**63, 2**64 - 1))), "OutsideUsable 3"),
    (dict(partitions=with_partitions((2, 50, 60), (9, 60, 60))), "Overlap 9"),
    (dict(partitions=with_partitions((2, 50, 60), (9, 40, 70))), "Overlap 9"),
    (dict(partitions=with_partitions((2, 50, 60), (9, 49, 48))), "Backwards 9"),
]


def fields():
    for changes, fault in FIELDS:
        yield Table(**changes).image(), changes, fault


def wanted_of_fields(fault):
    if fault is None:
        return lambda said: said == "copies both\n" + LINES
    if isinstance(fault, tuple):
        return lambda said: said == f"copies backup, primary {fault[0]}\n"
    return lambda said: said == f"refused 12 NoTable primary {fault} backup {fault}\n"


def of_tools(folder):
    """Images that sgdisk and sfdisk make: image, sector size, and the lines that they say of it."""
    # sfdisk gives an empty label for one that isn't ASCII
    ascii_labels = [(*partition[:5], partition[5] if partition[5].isascii() else "verity") for partition in PARTITIONS]
    for tool, partitions in (("sgdisk", PARTITIONS), ("sfdisk", ascii_labels)):
        if not shutil.which(tool):
            continue
        lines = "".join(line(*partition) for partition in partitions)
        path = os.path.join(folder, tool)
        with open(path, "wb") as image:
            image.truncate(8 << 20)
        if tool == "sgdisk":
            words = [tool]
            for number, kind, own, first, last, label in partitions:
                words += ["-a", "1", "-n", f"{number}:{first}:{last}", "-t", f"{number}:{kind}", "-u", f"{number}:{own}", "-c", f"{number}:{label}"]
            subprocess.run(words + [path], check=True, stdout=subprocess.DEVNULL)
        else:
            text = "label: gpt\nfirst-lba: 34\n" + "".join(
                f"{number} : start={first}, size={last - first + 1}, type={kind}, uuid={own}, name=\"{label}\"\n" for number, kind, own, first, last, label in partitions)
            subprocess.run([tool, "-q", path], input=text.encode(), check=True, stdout=subprocess.DEVNULL)
        with open(path, "rb") as image:
            yield 512, image.read(), tool, lambda said, lines=lines: said == "copies both\n" + lines


def cases(folder):
    for sector, image, name, wanted in of_tools(folder):
        yield sector, image, name, wanted
    for sector in (512, 4096):
        yield sector, Table(sector=sector).image(), f"sectors of {sector}", wanted_of_fields(None)
    for sector, image, name, which in changed_bytes():
        yield sector, image, name, wanted_of_changed(which)
    for image, name, fault in fields():
        yield 512, image, name, wanted_of_fields(fault)


def main():
    words, wrong, tried = sys.argv[1:], 0, 0
    if not words:
        sys.exit(__doc__)
    with tempfile.TemporaryDirectory() as folder:
        path = os.path.join(folder, "image")
        for sector, image, name, wanted in cases(folder):
            with open(path, "wb") as file:
                file.write(image)
            size = ["--sector-size", "4096"] if sector == 4096 else []
            said = subprocess.run(words + size + [path], capture_output=True).stdout.decode()
            tried += 1
            if not wanted(said):
                wrong += 1
                print(f"{name}: {said!r}")
    print(f"{tried} images, {wrong} wrong")
    sys.exit(wrong > 0)


if __name__ == "__main__":
    main()
