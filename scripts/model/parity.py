"""The parity of verity images as Linux's dm-verity-fec lays it out: Reed-Solomon codewords across data and hash blocks.

A codeword is a polynomial of degree 254 whose value is 0 at a^0 .. a^(roots - 1). Blocks are taken whole: each byte of one
belongs to a codeword of its own, so that a sum of blocks is one of as many codewords."""

from functools import cache

POWERS = [1]
while len(POWERS) < 255:
    POWERS.append(POWERS[-1] << 1 ^ (0x11D if POWERS[-1] & 128 else 0))
LOGARITHMS = {value: power for power, value in enumerate(POWERS)}
WORD = 255
MOST_LOST = 32


def product(a, b):
    return POWERS[(LOGARITHMS[a] + LOGARITHMS[b]) % 255] if a and b else 0


@cache
def multiples(factor):
    return bytes(product(factor, value) for value in range(256))


def scaled(factor, block):
    """Each byte of a block times the factor."""
    return block.translate(multiples(factor))


def summed(blocks, size):
    total = 0
    for block in blocks:
        total ^= int.from_bytes(block, "big")
    return total.to_bytes(size, "big")


def solved(powers, known, size):
    """The blocks at these powers of x, where those at other powers are known."""
    rows = [[POWERS[power * j % 255] for power in powers] for j in range(len(powers))]
    sums = [summed([scaled(POWERS[power * j % 255], block) for power, block in known], size) for j in range(len(powers))]
    for at in range(len(rows)):
        pivot = next(k for k in range(at, len(rows)) if rows[k][at])
        rows[at], rows[pivot], sums[at], sums[pivot] = rows[pivot], rows[at], sums[pivot], sums[at]
        inverse = POWERS[-LOGARITHMS[rows[at][at]] % 255]
        rows[at], sums[at] = [product(inverse, value) for value in rows[at]], scaled(inverse, sums[at])
        for k, row in enumerate(rows):
            if k != at and row[at]:
                sums[k] = summed([sums[k], scaled(row[at], sums[at])], size)
                rows[k] = [a ^ product(row[at], b) for a, b in zip(row, rows[at])]
    return sums


def covered(data, image, block, blocks, ahead):
    """The data blocks, and then the hash device's blocks to its end, without those ahead of the tree."""
    return bytes(data[:blocks * block]) + bytes(image[ahead * block:len(image) // block * block])


def rounds_of(area, block, roots):
    return -(-(len(area) // block) // (WORD - roots))


def sectors_of_parity(area, block, roots):
    return rounds_of(area, block, roots) * roots * block // 512


def message(area, block, roots, turn, without=()):
    """The blocks of a round at their powers: block i * rounds + n is number i of round n; past the last one stands 0."""
    rounds = rounds_of(area, block, roots)
    starts = {place: (place * rounds + turn) * block for place in range(WORD - roots) if place not in without}
    return [(254 - place, area[start:start + block]) for place, start in starts.items() if start < len(area)]


def parity_of(area, block, roots):
    """The bytes of parity of a codeword lie together, those of a round one codeword behind the other."""
    made = bytearray()
    for turn in range(rounds_of(area, block, roots)):
        blocks = solved(range(roots - 1, -1, -1), message(area, block, roots, turn), block)
        made += bytes(value for word in zip(*blocks) for value in word)
    return bytes(made)


def made_again(area, block, roots, parity, lost, index):
    """Covered block `index` by the parity, where it is lost and so are those of `lost`; None where too many of its round are."""
    count, rounds = len(area) // block, rounds_of(area, block, roots)
    turn = index % rounds
    places = [index // rounds] + [it // rounds for it in sorted(set(lost) - {index}) if it < count and it % rounds == turn]
    if len(places) > roots:
        return None
    own = bytes(parity[turn * block * roots:(turn + 1) * block * roots])
    known = message(area, block, roots, turn, places) + [(roots - 1 - k, own[k::roots]) for k in range(roots)]
    return solved([254 - place for place in places], known, block)[0]


def solution(rows, sums):
    """The numbers with these sums by the rows of a matrix, or None if there isn't exactly one solution."""
    rows, count = [[*row, end] for row, end in zip(rows, sums)], len(rows)
    for at in range(count):
        pivot = next((k for k in range(at, count) if rows[k][at]), None)
        if pivot is None:
            return None
        rows[at], rows[pivot] = rows[pivot], rows[at]
        inverse = POWERS[-LOGARITHMS[rows[at][at]] % 255]
        rows[at] = [product(inverse, value) for value in rows[at]]
        for k, row in enumerate(rows):
            if k != at and row[at]:
                rows[k] = [a ^ product(row[at], b) for a, b in zip(row, rows[at])]
    return [row[-1] for row in rows]


def total(values):
    done = 0
    for value in values:
        done ^= value
    return done


def values_at(powers, syndromes):
    """The errors at these powers of x that have these syndromes, or None."""
    count = len(powers)
    values = solution([[POWERS[power * j % 255] for power in powers] for j in range(count)], syndromes[:count])
    for j, wanted in enumerate(syndromes):
        if values is None or total(product(value, POWERS[power * j % 255]) for value, power in zip(values, powers)) != wanted:
            return None
    return dict(zip(powers, values))


def errors_of(syndromes, guess=()):
    """The errors of a word, by their powers of x, or None if they are more than half as many as there are syndromes: by the
    algorithm of Peterson, Gorenstein and Zierler. `guess` are powers that are tried first."""
    most = len(syndromes) // 2
    found = values_at(guess, syndromes) if len(guess) <= most else None
    for count in range(most, -1, -1):
        if found is not None:
            return found
        rows = [[syndromes[j - k] for k in range(1, count + 1)] for j in range(count, 2 * count)]
        locator = solution(rows, syndromes[count:2 * count])
        if locator is not None:
            powers = [power for power in range(255)
                      if total(product(value, POWERS[-power * k % 255]) for k, value in enumerate([1, *locator])) == 0]
            found = values_at(powers, syndromes) if len(powers) == count else None
    return found


def corrected(area, block, roots, parity, lost, index):
    """Covered block `index`, of which bytes are wrong as others of its round may be, at unknown places; None where these are too many,
    or too many blocks of the round are lost."""
    rounds = rounds_of(area, block, roots)
    if len([it for it in {*lost, index} if it < len(area) // block and it % rounds == index % rounds]) > MOST_LOST:
        return None
    own = bytes(parity[index % rounds * block * roots:(index % rounds + 1) * block * roots])
    word = message(area, block, roots, index % rounds) + [(roots - 1 - k, own[k::roots]) for k in range(roots)]
    sums = [summed([scaled(POWERS[power * j % 255], it) for power, it in word], block) for j in range(roots)]
    whole, power, errors = bytearray(area[index * block:(index + 1) * block]), 254 - index // rounds, {}
    for at, syndromes in enumerate(zip(*sums)):
        errors = errors_of(list(syndromes), list(errors))
        if errors is None:
            return None
        whole[at] ^= errors.get(power, 0)
    return bytes(whole)
