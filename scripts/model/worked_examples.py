#!/usr/bin/env python3
"""Sessions worked out by hand, and the standards' vectors, against the model alone."""

import sys

from cipher import decrypt, encrypt, xts_decrypt, xts_encrypt
from command_line import Files, features_without, run

ROOT = "076a27c79e5ace2a3d47f9dd2e83e4ff6ea8872b3c2218f66c92b89b55f36560"
ZEROS = "0" * 64
PLAIN = "aes-xts-plain64"
SEALED = "917cf69ebd68b2ec9b9fe9a3eadda692cd43d2f59598ed858c02c2652fbf922e"

# Bindings, lines of input, lines of output (a line that ends in ".." is a beginning).
SESSIONS = [
    ("D=ramp:8", ["load a,,,rw,0 4 linear D 2,4 4 zero", "read a 3 2"],
     ["loaded 1", "3 all 05", "4 all 00"]),
    ("A=ramp:16 B=ramp:32", ["load s,,,rw,0 32 striped 2 8 A 0 B 16", "read s 7 2", "read s 16 1",
                             "read s 31 1", "load s,,,rw,0 24 striped 2 8 A 0 B 16"],
     ["loaded 1", "7 all 07", "8 all 10", "16 all 08", "31 all 1f",
      "refused 8 StripesDontDivide device 1 line 1"]),
    ("D=zero:1", ["load c,,,rw,0 1 crypt %s %s 0 D 0;p,,,ro,0 1 linear D 0" % (PLAIN, ZEROS),
                  "write c 0 1 00", "read c 0 1", "read p 0 1"],
     ["loaded 2", "written", "0 all 00", "0 " + SEALED + ".."]),
    ("D=ramp:8", ["load a,,,rw,0 8 linear D 0,9 8 zero", "load a,,,rw,1 8 zero",
                  "load a,,,rw,3 0 zero"],
     ["refused 6 Gap device 1 line 2", "refused 6 Gap device 1 line 1",
      "refused 5 ZeroLength device 1 line 1"]),
    ("D=ramp:16", ["load mid,,,rw,0 16 linear D 0;top,,,rw,0 16 linear /dev/mapper/mid 0",
                   "load mid,,,rw,0 8 linear D 0", "read top 15 1",
                   "load mid,,,rw,0 16 linear /dev/mapper/top 0", "remove mid", "remove top",
                   "remove mid", "remove mid", "load x,,,rw,0 1 linear /dev/mapper/x 0"],
     ["loaded 2", "refused 9 BeyondDevice device 2 line 1", "15 all 0f",
      "refused 4 StandsOnItself device 1 line 0", "refused 2 InUse", "removed", "removed",
      "refused 1 NoSuchDevice", "refused 4 StandsOnItself device 1 line 0"]),
    ("D=zero:1 H=zero:1", ["load v,,,ro,0 1 verity 1 D H 512 512 1 1 sha256 %s -" % ROOT, "cost v",
                           "read v 0 1", "moved"],
     ["loaded 1", "sectors 1 depth 1 read 1 write 0", "0 all 00", "moved 1 0"]),
    ("D=ramp:2 H=zero:1", ["load d,,,ro,0 1 linear D 1;v,,,ro,0 1 verity 1 /dev/mapper/d H "
                           "512 512 1 1 sha256 %s -" % ROOT, "read v 0 1"],
     ["loaded 2", "fault 2 Mismatch"]),
    ("D=zero:256", ["load a,,,rw,0 256 linear D 0", "submit read a 0 256", "step 1",
                    "submit write a 0 256 ff", "step 2", "step 2", "load b,,,ro,0 1 zero", "step 1",
                    "step 1"],
     ["loaded 1", "ticket 1", "more", "ticket 2", "more", "written", "busy"]
     + ["%d all %s" % (at, "00" if at < 128 else "ff") for at in range(256)]
     + ["refused 1 NoSuchTicket"]),
    ("D=zero:8", ["load a,,,rw,0 4 linear D 0,4 4 error;r,,,ro,0 8 linear D 0;z,,,ro,0 4096 zero",
                  "write a 2 4 ab", "read r 1 4", "write r 0 1 00", "read a 0 0", "read a 7 2",
                  "read a 0 2049", "read z 0 2049"],
     ["loaded 3", "fault 1 ErrorTarget", "1 all 00", "2 all ab", "3 all ab", "4 all 00",
      "refused 4 ReadOnly", "refused 3 Length", "refused 2 OutOfRange", "refused 2 OutOfRange",
      "refused 3 Length"]),
    ("D=ramp:1", ["load d1,,,rw,0 1 linear D 0" + "".join(
        ";d%d,,,rw,0 1 linear /dev/mapper/d%d 0" % (at, at - 1) for at in range(2, 10))],
     ["refused 14 TooDeep device 9 line 0"]),
    ("D=zero:1032", ["load " + ";".join(
        "v%d,,,ro,0 1032 verity 1 %s %s 4096 4096 129 0 sha256 %s -" % (at, on, on, ROOT)
        for at, on in zip(range(1, count + 1),
                          ["D"] + ["/dev/mapper/v%d" % below for below in range(1, 7)]))
        for count in (7, 6)] + ["cost v6"],
     ["refused 15 CostTooLarge device 7 line 0", "loaded 6",
      "sectors 1032 depth 6 read 191102976 write 0"]),
    ("", ["load z,,,rw,0 18014398509481984 zero", "read z 18014398509481983 1",
          "read z 18014398509481984 1", "load z,,,rw,0 18014398509481985 zero"],
     ["loaded 1", "18014398509481983 all 00", "refused 2 OutOfRange",
      "refused 7 TooLarge device 1 line 1"]),
    ("", ["load a,,,rw", "load a/b,,,rw,0 1 zero", "load a,,,rx,0 1 zero", "load a,,x,rw,0 1 zero",
          "load a,,,rw,0 1 mirror", "load a,,,rw,0 1 zero 5", "load a,,,rw,0 8 striped 17 8",
          "load a,,,rw,0 8 striped 1 0 D 0", "load a,,,rw,0 1 crypt aes-xts-plain64 00 0 D 0",
          "load a,,,ro,0 1 verity 0 D H 512 512 1 1 sha256 %s -" % ROOT],
     ["text fault 1 0 2 Fields", "text fault 1 0 3 Name", "text fault 1 0 4 Flags",
      "text fault 1 0 5 Number", "text fault 1 1 6 Target", "text fault 1 1 7 ArgCount",
      "text fault 1 1 16 StripeCount", "text fault 1 1 17 ZeroChunk", "text fault 1 1 9 Key",
      "text fault 1 1 10 Version"]),
    ("D=ramp:8", ["load a,,,rw,0 8 linear D 0"] + 65 * ["submit read a 0 1"]
     + ["step 1", "submit read a 0 1"],
     ["loaded 1"] + ["ticket %d" % at for at in range(1, 65)]
     + ["refused 5 Full", "0 all 00", "ticket 65"]),
    ("D=zero:2 H=zero:1", ["load v,,,ro,0 2 verity 1 D H 512 512 %s sha256 %s -" % (place, ROOT)
                           for place in ("1 1", "2 1", "2 0")] + ["cost v", "read v 0 1", "moved"],
     ["refused 10 LineBeyondTree device 1 line 1", "refused 11 TreeBeyondDevice device 1 line 1",
      "loaded 1", "sectors 2 depth 1 read 2 write 0", "fault 2 Mismatch", "moved 2 0"]),
    ("D=ramp:2 H=zero:1", ["load d,,,ro,0 1 linear D 1;v,,,ro,0 1 verity 1 /dev/mapper/d H 512 512 "
                           "1 1 sha256 %s - 1 %s" % (ROOT, option)
                           for option in ("ignore_zero_blocks", "check_at_most_once")]
     + ["read v 0 1", "moved", "cost v"],
     ["loaded 2", "text fault 2 1 15 Option", "0 all 00", "moved 0 0",
      "sectors 1 depth 2 read 1 write 0"]),
    ("D=zero:1", ["load c,,,rw,0 1 crypt %s %s 0 D 0 %s" % (PLAIN, "f" * 64, rest) for rest in (
        "2 allow_discards allow_discards", "2 allow_discards", "0", "1 allow_discards")]
     + ["table c", "load c,,,rw,0 1 crypt aes-cbc-plain64 00 0 D 0"],
     ["text fault 1 1 15 Option", "text fault 1 1 7 ArgCount", "loaded 1", "loaded 1",
      "0 1 crypt %s %s 0 D 0 1 allow_discards" % (PLAIN, ZEROS), "text fault 1 1 8 Cipher"]),
    ("D=zero:8", ["load c,,,rw,0 8 crypt %s %s 0 D 0 1 sector_size:4096;p,,,ro,0 8 linear D 0"
                  % (PLAIN, ZEROS), "cost c", "write c 0 8 00", "read c 7 1", "read p 0 1",
                  "write c 0 1 ab", "moved", "read c 0 2"],
     ["loaded 2", "sectors 8 depth 1 read 8 write 16", "written", "7 all 00",
      "0 917cf69ebd68b2ec..", "written", "moved 17 16", "0 all ab", "1 all 00"]),
    ("D=zero:16", ["load x,,,rw,0 %s D 0 %s" % (length + " crypt %s %s " % (PLAIN, ZEROS) + iv, rest)
                   for length, iv, rest in (
                       ("12", "3", "2 sector_size:4096 iv_large_sectors"),
                       ("16", "3", "2 sector_size:4096 iv_large_sectors"),
                       ("16", "8", "2 sector_size:4096 iv_large_sectors"),
                       ("16", "8", "1 sector_size:8192"), ("16", "3", "1 sector_size:4096"))],
     ["refused 16 UnitDoesntDivide device 1 line 1", "refused 17 IvOffset device 1 line 1",
      "loaded 1", "text fault 1 1 15 Option", "refused 17 IvOffset device 1 line 1"]),
    ("D=zero:8", ["load m,,,rw,0 4 linear D 0,4 4 error;c,,,rw,0 8 crypt %s %s 0 /dev/mapper/m 0 "
                  "1 sector_size:4096;p,,,ro,0 8 linear D 0" % (PLAIN, ZEROS), "read c 0 1",
                  "write c 0 1 00", "read p 0 1", "write c 0 8 00", "read p 0 1"],
     ["loaded 3", "fault 1 ErrorTarget", "fault 1 ErrorTarget", "0 all 00", "fault 1 ErrorTarget",
      "0 917cf69ebd68b2ec.."]),
    ("D=zero:4", ["load a,,,rw,0 2 linear D 0,2 2 linear D 0", "write a 1 2 cd", "read a 0 4",
                  "moved"],
     ["loaded 1", "written", "0 all cd", "1 all cd", "2 all cd", "3 all cd", "moved 4 2"]),
]

COUNT = "000102030405060708090a0b0c0d0e0f"
PATTERN = "00112233445566778899aabbccddeeff"
VECTORS = [
    (COUNT, PATTERN, "69c4e0d86a7b0430d8cdb78070b4c55a"),
    (COUNT + "101112131415161718191a1b1c1d1e1f", PATTERN, "8ea2b7ca516745bfeafc49904b496089"),
]

# A client of `nbd` as the protocol's document lays its messages out: what it sends, and what is written to it.
SENT = (
    "00000003 49484156454f5054 00000003 00000000"
    "49484156454f5054 00000007 00000009 00000001 61 0001 0003"
    "25609513 0000 0001 0000000000000001 00000000000001ff 00000002 abcd"
    "25609513 0000 0000 0000000000000002 00000000000001fe 00000004"
    "25609513 0000 0000 0000000000000003 00000000000003ff 00000002"
    "25609513 0000 0001 0000000000000004 0000000000000400 00000001 00"
    "25609513 0000 0003 0000000000000005 0000000000000000 00000000"
    "25609513 0000 0002 0000000000000006 0000000000000000 00000000"
)
TOLD = (
    "4e42444d41474943 49484156454f5054 0003"
    "0003e889045565a9 00000003 00000002 00000005 00000001 61 0003e889045565a9 00000003 00000001 00000000"
    "0003e889045565a9 00000007 00000003 0000000c 0000 0000000000000400 0c6d"
    "0003e889045565a9 00000007 00000003 0000000e 0003 00000001 00001000 02000000"
    "0003e889045565a9 00000007 00000001 00000000"
    "67446698 00000000 0000000000000001 67446698 00000000 0000000000000002 00abcd01"
    "67446698 00000016 0000000000000003 67446698 0000001c 0000000000000004 67446698 00000000 0000000000000005"
)


def serves_as_worked_out():
    files = Files({b"stack": bytearray(b"a,,,rw,0 2 linear D 0")})
    replies, status = run([b"nbd", b"stack", b"a", b"D=ramp:2"], bytes.fromhex(SENT), files, features_without([]))
    return replies.octets() == bytes.fromhex(TOLD) and status == 0


def agrees(wanted, found):
    return found.startswith(wanted[:-2]) if wanted.endswith("..") else found == wanted


def main():
    wrong = 0
    octets = bytes.fromhex
    for key, plain, sealed in VECTORS:
        key, plain, sealed = octets(key), octets(plain), octets(sealed)
        wrong += encrypt(key, plain) != sealed or decrypt(key, sealed) != plain
    unit = bytes(32)
    wrong += xts_encrypt(unit, 0, unit) != octets(SEALED) or xts_decrypt(unit, 0, octets(SEALED)) != unit
    for bindings, given, wanted in SESSIONS:
        words = [b"session"] + bindings.encode().split()
        replies, _ = run(words, "\n".join(given).encode(), Files({}), features_without([]))
        found = [r.decode() if isinstance(r, bytes) else r.text().decode() for r in replies]
        if len(found) != len(wanted) or not all(map(agrees, wanted, found)):
            wrong += 1
            print(given, wanted, [line[:60] for line in found], sep="\n")
    wrong += not serves_as_worked_out()
    print("%d examples, %d wrong" % (len(SESSIONS) + len(VECTORS) + 2, wrong))
    return wrong > 0


if __name__ == "__main__":
    sys.exit(main())
