"""The commands on verity images: where superblock and tree stand in their file, what is opened, what is printed."""

from uuid import UUID

from charts import chart_lines
from differences import Stored, compared, longest_runs, run_lines, unlike
from files import WHOLE, Stop, not_opened
from partitions import lines_of, root_lines, stack_lines, table_facts, table_of, warning_lines
from pins import Pin, read_pin
from protection import check_aligned, check_one_size, check_parity_of, compared_parity, found, measured, parity_words, protect
from replies import Json, ending_object
from stack import SECTOR
from tables import digits_of
from verity import (ImageFault, Superblock, Tree, bare_tree, check_data, check_sizes, dump_facts, format_images, read_superblock,
                    spelled_uuid, survey, table_line, verify_images)
from words import exactly, read_diff, read_fec, read_format, read_offset, read_partitions, read_table, read_verify

DONE, REFUSED, _, FAULT = range(4)


class Drawn(Exception):
    """A format whose salt or uuid is drawn: no model tells what it prints."""


def told_root(root, files):
    """The root itself, or the one that a file begins with."""
    if isinstance(root, bytes):
        return root
    found = digits_of(bytes(files.content(root[0])[:64]), 64, 64)
    if found is None:
        raise Stop(b"refused 19 RootText")
    return found


def two_images(files, paths, first, writable):
    """DATA, as far as its tree doesn't lie in the same file, and HASH, of which the first sectors are left out."""
    data = files.image(paths[0], False)
    if first and writable and files.find(paths[1]) is data:
        files.opened.append((data, True, WHOLE))
        image = data
    else:
        image = files.image(paths[1], writable)
    seen = data[:first * SECTOR] if first and image is data else data
    return seen, image


def check_apart(files, paths, path):
    """The file of a pin or a root hash is neither image, nor is it to be made where HASH is."""
    one = files.known(path)
    if files.same_name(path, paths[1]) or one is not None and any(one is files.known(it) for it in paths):
        raise not_opened("SameFile", path)


def check_old_pin(files, path):
    """A pin replaces a pin or an empty file, if there is one."""
    try:
        text = files.content(path)
    except Stop as stop:
        if not stop.line.startswith(b"refused 1 "):
            raise
        return
    if text:
        read_pin(files, path)


def run_format(options, words, files, _given, _features):
    *paths, (*sizes, blocks, salt), uuid, first = read_format(options, words)
    is_bare, fec = b"no-superblock" in options, read_fec(options)
    kept = options.get(b"pin", options.get(b"root-hash-file"))
    if fec:
        check_one_size(*sizes)
        if b"grow" in options:
            found(files, paths, fec)
        else:
            measured(files, paths, fec, first, (*sizes, blocks, salt), is_bare)
    if kept is not None:
        if fec:
            check_apart(files, (fec[0], fec[0]), kept)
        check_apart(files, paths, kept)
        if not files.can_replace(kept):
            raise Stop(b"refused 43 PinWrite")
        if b"pin" in options:
            check_old_pin(files, kept)
    check_aligned(first, sizes[1])
    if b"grow" in options:
        check_data(files.image(paths[0], False), *sizes, blocks)
        files.make(paths[1])
    data, image = two_images(files, paths, first, True)
    if first and blocks is None and files.find(paths[0]) is files.find(paths[1]):
        raise Stop(b"refused 34 DataOverlapsTree")
    if salt is None or uuid is None and not is_bare:
        if files.random is None:
            raise Drawn
        salt = files.random(32) if salt is None else salt
        uuid = uuid or UUID(bytes=files.random(16), version=4).bytes
    uuid = None if is_bare else uuid
    part = bytearray(image[first * SECTOR:])
    root, count = format_images(data, part, (*sizes, blocks, salt), uuid, b"grow" in options, first)
    if part:
        del image[first * SECTOR:]
        image.extend(bytes(max(0, first * SECTOR - len(image))))
        image.extend(part)
    if fec:
        protect(files, paths, fec, first, b"grow" in options, (*sizes, count, salt) if is_bare else None)
    if kept is not None:
        pin = Pin(root, salt, *sizes, count)
        files.replace(kept, pin.text() if b"pin" in options else root.hex().encode())
    lines = ["root " + root.hex(), "salt " + (salt.hex() or "-")]
    lines += [] if is_bare else ["uuid " + spelled_uuid(uuid)]
    return [line.encode() for line in [*lines, "blocks %d" % count]], DONE


def run_verify(options, words, files, _given, _features):
    *paths, root, said, first = read_verify(options, words)
    root = told_root(root, files)
    is_bare = b"no-superblock" in options
    if b"fec" in options:
        check_parity_of(files, paths, read_fec(options), first, said if is_bare else None)
    if is_bare:
        check_aligned(first, said[1])
        data, image = two_images(files, paths, first, False)
        tree, salt = bare_tree(said, len(data) // SECTOR), said[3]
    else:
        data, image = two_images(files, paths, first, False)
        superblock = read_superblock(image[first * SECTOR:])
        check_aligned(first, superblock.hash_block)
        tree, salt = superblock.tree(), superblock.salt
    image = image[first * SECTOR:]
    if b"all" in options:
        return surveyed(data, image, tree, salt, root, b"json" in options, b"chart" in options)
    verdict = verify_images(data, image, tree, salt, root, first)
    if verdict != "matches":
        return [verdict.encode()], FAULT
    if b"fec" in options:
        line, status = compared_parity(files, paths, read_fec(options), first, said if is_bare else None)
        return [verdict.encode(), line], status
    return [verdict.encode()], DONE


def surveyed(data, image, tree, salt, root, as_json, as_chart=False):
    check_sizes(tree, data, image)
    return told_survey(*survey(data, image, tree, salt, root), as_json, as_chart)


def told_survey(states, bad, as_json, as_chart=False):
    """What is told of data blocks in those states, and of those hash blocks."""
    counts = [("good", states.count(None))] + [(kind, states.count(kind)) for kind in ("changed", "unknown")]
    status = DONE if set(states) == {None} and not bad else FAULT
    if as_json:
        runs = [{"state": kind, "first": first, "count": count} for kind, first, count in longest_runs(states)]
        hash_blocks = [{"level": level, "index": index} for level, index in bad]
        return [Json({**dict(counts), "runs": runs, "hash_blocks": hash_blocks})], status
    lines = run_lines(states, None) + ["hash %d %d" % it for it in bad]
    lines += chart_lines(["x" if it == "changed" else "?" if it else "." for it in states]) if as_chart else []
    lines.append(" ".join("%s %d" % it for it in counts))
    return [line.encode() for line in lines], status


def placed_superblock(files, path, first):
    return read_superblock(files.image(path, False)[first * SECTOR:])


def run_dump(options, words, files, _given, _features):
    first = read_offset(options)
    path, = exactly(words, 1)
    facts = dump_facts(placed_superblock(files, path, first))
    if b"json" in options:
        return [Json(dict(facts))], DONE
    return [("%s %s" % fact).encode() for fact in facts], DONE


def run_table(options, words, files, _given, _features):
    path, root, names, (*sizes, blocks, salt), first = read_table(options, words)
    root = told_root(root, files)
    fec = read_fec(options)
    if b"no-superblock" in options:
        check_aligned(first, sizes[1])
        image = files.image(path, False)[first * SECTOR:] if fec else b""
        bare_tree((*sizes, blocks, salt), 0)
        made, ahead = Superblock(bytes(16), *sizes, blocks, salt), 0
    else:
        image = files.image(path, False)[first * SECTOR:]
        made, ahead = read_superblock(image), 1
        check_aligned(first, made.hash_block)
    line = table_line(made, root, *names, first // (made.hash_block // SECTOR) + ahead)
    head = options[b"name"] + b",,,ro," if b"name" in options else b""
    return [head + line + (parity_words(made, image, ahead, *fec) if fec else b"")], DONE


def run_diff(options, words, files, _given, _features):
    paths, firsts, roots, said, most = read_diff(options, words)
    said = said if b"no-superblock" in options else None
    known = [read_pin(files, options[name]) if name in options else told_root(root, files)
             for root, name in zip(roots, (b"old-pin", b"pin"))]
    pins = [it if isinstance(it, Pin) else None for it in known]
    roots = [it.root if isinstance(it, Pin) else it for it in known]
    if said:
        for first, which in zip(firsts, (b" first", b" second")):
            check_aligned(first, said[1], which)
    images = [files.image(path, False) for path in paths]
    # both trees are found and compared before a hash block is read
    first, second = (Stored(*it, said) for it in zip(images, firsts, roots, pins, ("first", "second")))
    refusal = unlike(first, second)
    if refusal:
        return [ending_object(refusal.encode()) if b"json" in options else refusal.encode()], REFUSED
    # with --all the second tree is checked before both are compared
    bad = second.bad_hash_blocks() if b"all" in options else []
    ahead = [] if b"json" in options else [b"hash %d %d" % it for it in bad]
    lines, kinds, fault = compared(first, second, most)
    differ = bad or fault is not None or any(kind is not None for kind in kinds)
    if b"json" in options:
        # the object comes at the end, and a fault alone
        facts = difference_facts(kinds, most)
        if b"all" in options:
            facts["hash_blocks"] = [{"level": level, "index": index} for level, index in bad]
        return [ending_object(fault.encode()) if fault else Json(facts)], FAULT if differ else DONE
    return ahead + [line.encode() for line in lines], FAULT if differ else DONE


def difference_facts(kinds, most):
    runs = [{"state": kind, "first": first, "count": count} for kind, first, count in longest_runs(kinds)]
    counts = {kind: kinds.count(kind) for kind in ("changed", "removed", "added")}
    is_cut = most is not None and len(runs) > most
    return {"same": kinds.count(None), **counts, "runs": runs[:most], "more": is_cut}


def run_partitions(options, words, files, _given, _features):
    path, size, root, fec = read_partitions(options, words)
    pin = None
    if b"pin" in options:
        pin = read_pin(files, options[b"pin"])
        root = pin.root
    image = bytes(files.image(path, False))
    table = table_of(image, size)
    files.warnings = warning_lines(image, table)
    if root is not None:
        return root_lines(image, table, root, pin, b"writable" in options, fec), DONE
    if b"stack" in options:
        return stack_lines(image, table, b"writable" in options), DONE
    if b"json" in options:
        return [Json(table_facts(table.partitions, table.copies))], DONE
    return lines_of(table.partitions, table.copies), DONE
