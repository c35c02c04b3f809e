#!/usr/bin/env python3
"""The content of leaves after writes through `crypt` lines, by AES-XTS of python's `cryptography`.

Prints the bytes that tests/rows/write_crypt wants: of each leaf's sectors from 0 on the first and the last block of 16 bytes,
in hexadecimal digits. A sector that wasn't written is zeros."""
from cryptography.hazmat.primitives.ciphers import Cipher, algorithms, modes

SECTOR = 512


def encrypted(key, number, sector):
    """One unit, whose number is its initialization vector in 64 bits."""
    tweak = (number % 2**64).to_bytes(16, "little")
    cipher = Cipher(algorithms.AES(key), modes.XTS(tweak)).encryptor()
    return cipher.update(sector) + cipher.finalize()


class Leaf:
    def __init__(self):
        self.sectors = {}

    def put(self, s, sector):
        self.sectors[s] = sector

    def digits(self, count):
        zeros = bytes(SECTOR)
        blocks = ((x[:16] + x[-16:]).hex() for x in (self.sectors.get(s, zeros) for s in range(count)))
        return "".join(blocks)


class Crypt:
    def __init__(self, key, iv_offset, below, offset):
        self.key, self.iv_offset, self.below, self.offset = key, iv_offset, below, offset

    def put(self, s, sector):
        self.below.put(self.offset + s, encrypted(self.key, s + self.iv_offset, sector))


class Striped:
    def __init__(self, chunk, *bases):
        self.chunk, self.bases = chunk, bases

    def put(self, s, sector):
        k, within = divmod(s, self.chunk)
        below, offset = self.bases[k % len(self.bases)]
        below.put(offset + k // len(self.bases) * self.chunk + within, sector)


SHORT = bytes(range(32))
LONG = bytes(255 - k for k in range(64))


def write(device, first, text):
    for j, byte in enumerate(text.encode()):
        device.put(first + j, bytes([byte]) * SECTOR)


def main():
    for name, iv_offset in (("OFFSET_0", 0), ("OFFSET_1", 1), ("OFFSET_2_63", 2**63), ("LAST_OFFSET", 2**64 - 1)):
        leaf = Leaf()
        write(Crypt(SHORT, iv_offset, leaf, 0), 0, "123")
        print(name, leaf.digits(3))
    leaf = Leaf()
    # The line begins at sector 2 of its device.
    write(Crypt(SHORT, 3, leaf, 1), 1, "12")
    print("LATER_LINE", leaf.digits(4))
    a, b = Leaf(), Leaf()
    striped = Striped(1, (Crypt(SHORT, 5, a, 0), 0), (Crypt(LONG, 2**64 - 1, b, 1), 0))
    write(Crypt(LONG, 2**64 - 2, striped, 0), 1, "1234")
    print("STRIPES_A", a.digits(3))
    print("STRIPES_B", b.digits(3))
    print("SHORT", SHORT.hex())
    print("LONG", LONG.hex())


main()
