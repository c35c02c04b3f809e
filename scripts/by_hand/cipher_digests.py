#!/usr/bin/env python3
"""Prints the constants of crates/image_tests/src/ciphers.rt, by OpenSSL's AES: SHA-256 digests of ciphertexts.

The bytes look drawn: byte k is the highest of the number k of 32 bits that a linear congruential generator makes from 7 on."""
from hashlib import sha256

from cryptography.hazmat.primitives.ciphers import Cipher, algorithms, modes

KEY = bytes(range(64))


def drawn(count):
    seed = 7
    for _ in range(count):
        seed = (seed * 1664525 + 1013904223) % 2**32
        yield seed >> 24


def encrypted(key, mode, data):
    cipher = Cipher(algorithms.AES(key), mode).encryptor()
    return cipher.update(data) + cipher.finalize()


def unit(key, number, data):
    return encrypted(key, modes.XTS((number % 2**64).to_bytes(16, "little")), data) if data else b""


def line(first, *parts):
    print(f'    ({first}, "{sha256(b"".join(parts)).hexdigest()}"),')


BYTES = bytes(drawn(33 * 512))
for length in (16, 32):
    line(length, encrypted(KEY[:length], modes.ECB(), BYTES[: 33 * 16]))
for size in (16, 32, 48, 64, 80, 112, 496, 512, 528, 1024, 4096):
    line(size, *(unit(KEY[:length], number, BYTES[:size]) for length in (32, 64) for number in (0, 1, 2**64 - 1)))
for count in (0, 1, 2, 7, 8, 15, 16, 17, 33):
    units = [BYTES[512 * k : 512 * k + 512] for k in range(count)]
    line(count, *(unit(KEY, (k - count // 2) * step, it) for step in (1, 8, -7) for k, it in enumerate(units)))
