"""AES by the field's arithmetic, and XTS on units of whole blocks."""

from functools import lru_cache


def doubled(octet):
    """An element of GF(2^8) times x."""
    octet <<= 1
    return octet ^ 0x11B if octet & 0x100 else octet


def product(left, right):
    result = 0
    while right:
        if right & 1:
            result ^= left
        left, right = doubled(left), right >> 1
    return result


def inverse(octet):
    """The inverse in the field, 0 of 0: the power of 254, which is 2 + 4 + .. + 128."""
    result, power = 1, octet
    for _ in range(7):
        power = product(power, power)
        result = product(result, power)
    return result


def affine(octet):
    bits = octet
    for turn in range(1, 5):
        bits ^= (octet << turn | octet >> (8 - turn)) & 0xFF
    return bits ^ 0x63


SUBSTITUTE = [affine(inverse(octet)) for octet in range(256)]
RESTORE = [0] * 256
for _octet, _image in enumerate(SUBSTITUTE):
    RESTORE[_image] = _octet

def column_table(factors, row, through):
    """What an octet in a row adds to its column, as a word whose first row is on top."""
    table = []
    for octet in through:
        rows = [product(octet, factors[(row - place) % 4]) for place in range(4)]
        table.append(int.from_bytes(bytes(rows), "big"))
    return table


MIX, MIX_BACK = (2, 3, 1, 1), (14, 11, 13, 9)
FORWARD = [column_table(MIX, row, SUBSTITUTE) for row in range(4)]
BACKWARD = [column_table(MIX_BACK, row, RESTORE) for row in range(4)]
UNMIXED = [column_table(MIX_BACK, row, range(256)) for row in range(4)]


def substituted(word, table):
    return int.from_bytes(bytes(table[octet] for octet in word.to_bytes(4, "big")), "big")


@lru_cache(maxsize=256)
def round_keys(key):
    """The key schedule as four words for each round."""
    words = [int.from_bytes(key[at:at + 4], "big") for at in range(0, len(key), 4)]
    length = len(words)
    constant = 1
    while len(words) < 4 * (length + 7):
        word = words[-1]
        if len(words) % length == 0:
            turned = (word << 8 | word >> 24) & 0xFFFFFFFF
            word = substituted(turned, SUBSTITUTE) ^ constant << 24
            constant = doubled(constant)
        elif length == 8 and len(words) % 8 == 4:
            word = substituted(word, SUBSTITUTE)
        words.append(words[-length] ^ word)
    return [words[at:at + 4] for at in range(0, len(words), 4)]


@lru_cache(maxsize=256)
def inverse_round_keys(key):
    """The schedule from its end, the inner rounds' words with their columns unmixed."""
    keys = round_keys(key)[::-1]
    inner = [[mixed(UNMIXED, [word] * 4) for word in one] for one in keys[1:-1]]
    return [keys[0]] + inner + [keys[-1]]


def mixed(tables, words):
    """Row r of a new column comes from words[r]."""
    first, second, third, fourth = words
    return (tables[0][first >> 24] ^ tables[1][second >> 16 & 255]
            ^ tables[2][third >> 8 & 255] ^ tables[3][fourth & 255])


def rounds(keys, block, tables, last, turn):
    """The rounds of either direction; row r comes from `turn` times r columns further."""
    state = [int.from_bytes(block[4 * at:4 * at + 4], "big") ^ keys[0][at] for at in range(4)]
    ways = [[(column + turn * row) % 4 for row in range(4)] for column in range(4)]
    for key in keys[1:-1]:
        state = [mixed(tables, [state[at] for at in way]) ^ word for way, word in zip(ways, key)]
    octets = [word.to_bytes(4, "big") for word in state]
    final = [bytes(last[octets[way[row]][row]] for row in range(4)) for way in ways]
    keyed = [int.from_bytes(four, "big") ^ word for four, word in zip(final, keys[-1])]
    return b"".join(word.to_bytes(4, "big") for word in keyed)


def encrypt(key, block):
    return rounds(round_keys(key), block, FORWARD, SUBSTITUTE, 1)


def decrypt(key, block):
    return rounds(inverse_round_keys(key), block, BACKWARD, RESTORE, -1)


def added(left, right):
    return (int.from_bytes(left, "big") ^ int.from_bytes(right, "big")).to_bytes(16, "big")


def xts(key, unit, data, cipher):
    """A unit of whole blocks under a key of two halves; `cipher` encrypts or decrypts."""
    half = len(key) // 2
    mask = int.from_bytes(encrypt(key[half:], unit.to_bytes(16, "little")), "little")
    out = []
    for at in range(0, len(data), 16):
        spread = mask.to_bytes(16, "little")
        out.append(added(cipher(key[:half], added(data[at:at + 16], spread)), spread))
        mask <<= 1
        if mask >> 128:
            mask = (mask & (2**128 - 1)) ^ 0x87
    return b"".join(out)


@lru_cache(maxsize=4096)
def xts_encrypt(key, unit, data):
    return xts(key, unit, data, encrypt)


@lru_cache(maxsize=4096)
def xts_decrypt(key, unit, data):
    return xts(key, unit, data, decrypt)
