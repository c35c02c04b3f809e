#!/usr/bin/env python3
"""partition_types.py: compares the partition types of crates/partition_commands with those of the installed systemd and libfdisk.

systemd's names and UUIDs are those of `systemd-id128 show -u`, without the ones that depend on the machine (`root`, `usr`, and
`secondary`). libfdisk has other names, and no types of MIPS (big-endian) and PA-RISC: it is asked for the rest through its public
functions. With --row it writes the file of the row partition_types anew.
"""
import ctypes
import re
import subprocess
import sys
from pathlib import Path

TOP = Path(__file__).resolve().parents[2]
SOURCES = ("root_types", "usr_types", "signature_types", "kinds")
ROW = TOP / "tests/rows/partition_types/files/types"
COMMON = ("esp", "xbootldr", "swap", "home", "srv", "var", "tmp", "user-home", "linux-generic")
NAMES = {
    "x86": "x86", "x86-64": "x86-64", "alpha": "Alpha", "arc": "ARC", "arm": "ARM", "arm64": "ARM-64", "ia64": "IA-64",
    "loongarch64": "LoongArch-64", "mips-le": "MIPS-32 LE", "mips64-le": "MIPS-64 LE", "ppc": "PPC", "ppc64": "PPC64",
    "ppc64-le": "PPC64LE", "riscv32": "RISC-V-32", "riscv64": "RISC-V-64", "s390": "S390", "s390x": "S390X", "tilegx": "TILE-Gx",
}
PARTS = {"": "", "-verity": " verity", "-verity-sig": " verity sign."}


def of_systemd():
    lines = subprocess.run(["systemd-id128", "show", "-u"], capture_output=True, text=True, check=True).stdout.splitlines()[1:]
    shown = dict(line.split() for line in lines)
    machines = [name[5:-11] for name in shown if re.fullmatch(r"root-.*-verity-sig", name)]
    machines = [it for it in machines if it != "secondary"]
    names = [f"{volume}-{it}{part}" for volume in ("root", "usr") for it in machines for part in PARTS]
    return {name: shown[name] for name in [*names, *COMMON]}


def of_sources():
    text = "".join((TOP / f"crates/partition_commands/src/{it}.rt").read_text() for it in SOURCES)
    return {name: uuid for uuid, name in re.findall(r'\(\s*"([0-9a-f-]{36})",\s*"([a-z0-9-]+)",?\s*\)', text)}


def of_libfdisk():
    library = ctypes.CDLL("libfdisk.so.1")

    def call(name, result, *arguments):
        function = getattr(library, name)
        function.restype = result
        return function(*[it if isinstance(it, bytes) else ctypes.c_void_p(it) for it in arguments])

    label = call("fdisk_get_label", ctypes.c_void_p, call("fdisk_new_context", ctypes.c_void_p), b"gpt")
    found = set()
    for number in range(call("fdisk_label_get_nparttypes", ctypes.c_size_t, label)):
        one = call("fdisk_label_get_parttype", ctypes.c_void_p, label, number)
        texts = [call(f"fdisk_parttype_get_{it}", ctypes.c_char_p, one).decode() for it in ("name", "string")]
        found.add((texts[0], texts[1].lower()))
    return found


def main():
    systemd, sources, libfdisk = of_systemd(), of_sources(), of_libfdisk()
    if sys.argv[1:] == ["--row"]:
        others = ["6523f8ae-3eb1-4e2a-a05a-18b695ae656e -", "01234567-89ab-cdef-0123-456789abcdef -"]
        ROW.write_text("".join(f"{it}\n" for it in [*(f"{uuid} {name}" for name, uuid in systemd.items()), *others]))
    wrong = sorted({*systemd.items()} ^ {*sources.items()})
    compared = 0
    for machine, name in NAMES.items():
        for volume, path in (("root", "root"), ("usr", "/usr")):
            for part, words in PARTS.items():
                compared += 1
                pair = (f"Linux {path}{words} ({name})", sources.get(f"{volume}-{machine}{part}"))
                wrong += [] if pair in libfdisk else [pair]
    for pair in wrong:
        print("differs:", *pair)
    print(f"partition_types: {len(sources)} types, {compared} of them also libfdisk's, {len(wrong)} differ")
    return 1 if wrong else 0


if __name__ == "__main__":
    sys.exit(main())
