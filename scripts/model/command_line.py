"""The commands: what their words invoke, what is opened in which order, what is printed, with which status."""

import re

from configuration import Configuration, Leaf, Refused, check_leaves
from device_tree import Tree
from files import WHOLE, Files, Noted, Stop, not_opened
from images import Drawn, run_diff, run_dump, run_format, run_partitions, run_table, run_verify
from nbd import Service
from partitions import is_sound, part_named, table_of
from places import grow_file, open_place
from recovery import chart_of, check_size, facts_of as lost_facts, lines_of, looked_up, recovered, runs_of, with_map
from repairs import run_repair
from replies import Json, Octets, ending_object
from rescue_map import MapFault, is_finished, is_of_scan, marks_of
from session import MOST_SECTORS, SUBMISSION_RULES, Session, Usage, check_request, costs
from stack import SECTOR, Fault, FileImage, MemoryImage, Stack
from tables import TextFault, read_stack
from updates import run_update
from verity import ImageFault
from words import (OPTIONS, Mapped, at_least, binding, bindings, cut_words, exactly, read_cache, read_on_stack, read_pass, the_number)

DONE, REFUSED, USAGE, FAULT = range(4)
MOST_OF_A_TEXT = 1024 * 1024
MOST_OF_A_MAP = 16 * 1024 * 1024
TARGETS = ("linear", "striped", "zero", "error", "crypt", "verity", "zero_blocks", "sector_size",
           "unstriped", "healing", "signature_key")
# Options and forms of words that a program may not have yet; without them they are wrong words.
FORMS = ("all", "grow", "json", "map", "retries", "differing", "progress", "pass-cache", "parts", "input-stack", "store-file",
         "exports", "fec", "bound-partitions", "bound-maps", "disk")
# Commands whose output is data for another program: their refusals go to standard error.
OUTPUT_IS_DATA = ("cat", "nbd")
# Commands whose STACK may be `-`, standard input; where that is the client's or the bytes', `-` is a wrong word.
STACK_FROM_INPUT = ("load", "read", "write", "scan", "copy", "cat", "store")


def features_without(names):
    """What the program can do but for the names given.

    `write` is the session's command, `write-command` the subcommand; `submit` takes `step`
    with it, `crypt` and `verity` are targets, and the others are of FORMS."""
    from session import COMMANDS as LINES
    names = set(names) | ({"step"} if "submit" in names else set())
    known = {*LINES, *TARGETS, *FORMS, *(name + "-command" for name in OPTIONS)}
    if names - known:
        raise ValueError("no such part: " + ", ".join(sorted(names - known)))
    return {
        "session": {name for name in LINES if name not in names},
        "targets": {name for name in TARGETS if name not in names},
        "commands": {name for name in OPTIONS if name + "-command" not in names},
        "forms": {name for name in FORMS if name not in names},
    }


def opened(name, kind, value, place, files):
    """What stands behind a name that is bound."""
    if kind in (b"zero", b"ramp"):
        return MemoryImage(value, kind == b"ramp")
    if isinstance(value, Mapped):
        return opened_mapped(value, place, files)
    path, part = value if isinstance(value, tuple) else (value, WHOLE)
    content = files.image(path, kind == b"rw", part)
    return FileImage(content, place, part if part != WHOLE else None)


def opened_mapped(value, place, files):
    """A file, or a part of it, without the sectors that the map of all of it doesn't have. The map is read first, and in use then."""
    node = files.text(value.map_file)
    files.take(node, False, WHOLE, value.map_file)
    content = files.image(value.path, False, value.part)
    image = FileImage(content, place, value.part if value.part != WHOLE else None)
    try:
        if len(node) > MOST_OF_A_MAP:
            raise MapFault
        marks = marks_of(bytes(node), len(content) // SECTOR)
    except MapFault:
        raise not_opened("OtherFault", value.map_file) from None
    image.lost = {at for at, had in enumerate(marks) if not had}
    return image


def resolved(words, files):
    """The bindings with each partition as a part of its disk."""
    found = []
    for name, kind, value in words:
        if isinstance(value, tuple) and not isinstance(value, Mapped) and isinstance(value[1], bytes):
            path, word = value
            disk = files.find(path)
            if not isinstance(disk, bytearray):
                raise not_opened("OtherFault", path)
            part = part_named(bytes(disk), word)
            if part is None:
                raise not_opened("NotFound", path)
            if kind == b"rw" and not is_sound(bytes(disk), table_of(bytes(disk), SECTOR)):
                raise not_opened("NotAllowed", path)
            value = path, part
        found.append((name, kind, value))
    return found


def begun(path, words, files, options=(), out=None):
    """The bindings, whose partitions are looked up first, and the text of the stack, beside the map if there is one."""
    words = resolved(words, files)
    use_map(options, files, out)
    return words, stack_text(path, files)


def bound(words, files):
    """A stack over the leaves of the bindings, without a device."""
    images, leaves = {}, []
    for place, (name, kind, value) in enumerate(words, 1):
        images[name] = opened(name, kind, value, place, files)
        leaves.append(Leaf(name, images[name].sectors, kind != b"ro"))
    check_leaves(leaves)
    return Stack(Configuration(leaves), images)


def stack_text(path, files):
    if path == b"-" and files.stack is not None:
        text = bytes(files.stack)
    else:
        node = files.text(path)
        files.take(node, False, WHOLE, path)
        text = bytes(node)
    if len(text) > MOST_OF_A_TEXT:
        raise Stop(b"refused input")
    return text


def loaded(text, bound_words, files, features):
    stack = bound(bound_words, files)
    stack.configuration = stack.configuration.after(read_stack(text, features["targets"]))
    return stack


def disk_stack(disk, features):
    """The stack of an open disk, whose device `disk` is all of it."""
    image = FileImage(disk.node, 1, disk.part if disk.part != WHOLE else None)
    leaves = [Leaf(b"DISK", image.sectors, False)]
    check_leaves(leaves)
    stack = Stack(Configuration(leaves), {b"DISK": image})
    text = b"disk,,,ro,0 %d linear DISK 0;\n" % image.sectors
    stack.configuration = stack.configuration.after(read_stack(text, features["targets"]))
    return stack


def warn(stack, files):
    """Keeps the warnings of a stack for standard error."""
    files.warnings = stack.configuration.warnings()


def run_load(options, words, files, _given, features):
    (path,), rest = at_least(words, 1)
    if b"json" in options and b"tree" in options:
        raise Usage
    rest, text = begun(path, bindings(rest), files)
    stack = loaded(text, rest, files, features)
    warn(stack, files)
    return configuration_lines(options, stack.configuration, rest), DONE


def configuration_lines(options, configuration, words):
    if b"tree" in options:
        return Tree(configuration, words).text()
    if b"json" in options:
        return [Json({"devices": [facts_of(configuration, it) for it in configuration.devices.values()]})]
    lines = []
    for device in configuration.devices.values():
        flag = "rw" if device.writable else "ro"
        lines.append(device.name + (" %s %s" % (costs(configuration, device), flag)).encode())
    return lines


def facts_of(configuration, device):
    return {"name": device.name.decode(), "sectors": device.sectors, "depth": configuration.depth(device),
            "read": configuration.read_cost(device), "write": configuration.write_cost(device),
            "writable": device.writable}


def run_read(options, words, files, _given, features):
    read_cache(options)
    (path, name, first, count), rest = at_least(words, 4)
    first, count = the_number(first), the_number(count)
    rest, text = begun(path, bindings(rest), files)
    stack = loaded(text, rest, files, features)
    warn(stack, files)
    check_request(stack.configuration, name, first, count, None)
    return Session(stack, features).run(name, first, count, None), DONE


def run_write(options, words, files, given, features):
    read_cache(options)
    (path, name, first, source), rest = at_least(words, 4)
    first = the_number(first)
    if path == source == b"-" and "input-stack" in features["forms"]:
        raise Usage
    rest, text = begun(path, bindings(rest), files)
    node = given if source == b"-" else files.content(source)
    data = bytes(node[:(MOST_SECTORS + 1) * SECTOR])
    stack = loaded(text, rest, files, features)
    count = -(-len(data) // SECTOR)
    warn(stack, files)
    check_request(stack.configuration, name, first, count, len(data))
    return Session(stack, features).run(name, first, count, data), DONE


def check_map(options):
    """The path of a map isn't the standard input's, and not empty."""
    if options.get(b"map") in (b"", b"-"):
        raise Usage


def is_complete(node, of_scan, again):
    """Whether a map's file is left as it is, since no sector is read: the command goes on by it, and it is finished."""
    return node is not None and (of_scan or not is_of_scan(bytes(node))) and is_finished(bytes(node), again)


def retries_in(options):
    return int(options.get(b"retries", b"0")) > 0


def use_map(options, files, out=None):
    """Whether there is a map's file. It is in use then as one that is written, is a regular one, and isn't the copy's image."""
    if b"map" not in options:
        return False
    path, node = options[b"map"], None
    try:
        node = files.find(path)
    except Stop as stop:
        if not stop.line.startswith(b"refused 1 "):
            raise
    if not (node is None or isinstance(node, bytearray)):
        raise not_opened("OtherFault", path)
    if not files.can_replace(path) and not is_complete(node, out is None, retries_in(options)):
        raise Stop(b"refused 31 MapWrite")
    if node is not None:
        files.opened.append((node, True, WHOLE))
    if out is not None and (files.same_name(path, out) or files.is_used(files.known(out), True)):
        raise not_opened("SameFile", out)
    return node is not None


def gone_over(options, name, stack, out, files):
    """What `scan` and `copy` print, the statuses, and the map that is left in its file."""
    device = looked_up(stack.configuration, name)
    if out is not None:
        check_size(device, out)
    warn(stack, files)
    if b"map" in options:
        runs, had = with_map(stack, device, out, options[b"map"], files, retries_in(options))
    else:
        faults, had = recovered(stack, device, out)
        runs = runs_of(faults)
    lines = [Json(lost_facts(runs, had))] if b"json" in options else lines_of(runs, had)
    if b"chart" in options:
        lines[-1:-1] = chart_of(had)
    return lines, DONE if all(had) else FAULT


def run_scan(options, words, files, _given, features):
    (path, name), _, rest = read_pass(options, words, 0)
    check_map(options)
    if b"json" in options and b"chart" in options:
        raise Usage
    if name is None:
        use_map(options, files)
        stack = disk_stack(open_place(files, path, False), features)
        return gone_over(options, b"disk", stack, None, files)
    rest, text = begun(path, rest, files, options)
    stack = loaded(text, rest, files, features)
    return gone_over(options, name, stack, None, files)


def run_copy(options, words, files, _given, features):
    (path, name), (out_path,), rest = read_pass(options, words, 1)
    check_map(options)
    if name is None:
        is_mapped = use_map(options, files, out_path)
        disk = open_place(files, path, False)
        stack = disk_stack(disk, features)
        if b"grow" in options and not is_mapped:
            grow_file(files, out_path, disk.sectors())
        image = files.image(out_path, True)
        return gone_over(options, b"disk", stack, image, files)
    rest, text = begun(path, rest, files, options, out_path)
    out = files.image(out_path, True)
    stack = loaded(text, rest, files, features)
    return gone_over(options, name, stack, out, files)


def check_range(device, first, count):
    if first + count > device.sectors:
        raise Refused("OutOfRange", SUBMISSION_RULES)


def run_cat(options, words, files, _given, features):
    (path, name), rest, first, count = read_on_stack(options, words, 2)
    rest, text = begun(path, rest, files)
    stack = loaded(text, rest, files, features)
    device = looked_up(stack.configuration, name)
    warn(stack, files)
    check_range(device, first, count or 0)
    end = device.sectors if count is None else first + count
    octets = bytearray()
    try:
        for at in range(first, end):
            octets += stack.read_run(device, at, 1)
    except Fault as fault:
        return Octets(bytes(octets), fault.text.encode()), FAULT
    return Octets(bytes(octets)), DONE


def check_store(device, first, length):
    """What is known of a store before it begins; the length of an input that isn't a file isn't."""
    if not device.writable:
        raise Refused("ReadOnly", SUBMISSION_RULES)
    check_range(device, first, 0)
    if length is not None:
        check_range(device, first, length // SECTOR)


def run_store(options, words, files, given, features):
    (path, name, source), rest, first, _ = read_on_stack(options, words, 3)
    if path == source == b"-" and "input-stack" in features["forms"]:
        raise Usage
    is_file = source != b"-" and "store-file" in features["forms"]
    if source != b"-" and not is_file:
        raise Usage
    rest, text = begun(path, rest, files)
    data = bytes(files.image(source, False)) if is_file else given
    stack = loaded(text, rest, files, features)
    device = looked_up(stack.configuration, name)
    warn(stack, files)
    if is_file and len(data) % SECTOR:
        raise Refused("Length", SUBMISSION_RULES)
    check_store(device, first, len(data) if is_file else None)
    room = device.sectors - first
    count = min(len(data) // SECTOR, room)
    done, ending = stored(stack, device, first, data[:count * SECTOR])
    if ending is None and len(data) > count * SECTOR:
        ending = b"refused 7 TooLong" if count == room else b"refused 8 PartSector"
    lines = [b"written %d" % done] + ([ending] if ending else [])
    return lines, DONE if ending is None else FAULT if ending.startswith(b"fault") else REFUSED


def stored(stack, device, first, data):
    """How many sectors were written, 128 at once, and the fault that ended it."""
    step = 128 * SECTOR
    for at in range(0, len(data), step):
        part = data[at:at + step]
        place = first + at // SECTOR
        try:
            while part:
                count = stack.piece(device, place, len(part) // SECTOR)
                stack.write_piece(device, place, part[:count * SECTOR])
                part, place = part[count * SECTOR:], place + count
        except Fault as fault:
            return at // SECTOR, fault.text.encode()
    return len(data) // SECTOR, None


def run_nbd(options, words, files, given, features):
    read_cache(options)
    (path, *name), rest = at_least(words, 1 if b"all" in options else 2)
    rest = bindings(rest)
    if path == b"-" and "input-stack" in features["forms"]:
        raise Usage
    rest, text = begun(path, rest, files)
    stack = loaded(text, rest, files, features)
    if not name:
        # the sizes of all others have no 64 bits
        devices = [device for device in stack.configuration.devices.values() if device.sectors < 2**55]
        return Service(stack, devices).serve(given, b"quiet" in options)
    return Service(stack, [looked_up(stack.configuration, name[0])]).serve(given, b"quiet" in options)


def run_session(options, words, files, given, features):
    read_cache(options)
    stack = bound(resolved(bindings(words), files), files)
    outcome = Session(stack, features).serve(given, files.cut_after)
    warn(stack, files)
    return outcome


def run_version(_options, words, _files, _given, _features):
    exactly(words, 0)
    raise Drawn


COMMANDS = {
    b"format": run_format, b"verify": run_verify, b"dump": run_dump, b"table": run_table, b"repair": run_repair,
    b"load": run_load, b"read": run_read, b"write": run_write, b"session": run_session,
    b"scan": run_scan, b"copy": run_copy, b"nbd": run_nbd, b"cat": run_cat, b"store": run_store,
    b"partitions": run_partitions, b"diff": run_diff, b"update": run_update, b"version": run_version,
}


def forms_of(command, options, words):
    """Which of FORMS the words use."""
    found = {name.decode() for name in options if name.decode() in FORMS}
    if command in ("scan", "copy") and b"cache" in options:
        found.add("pass-cache")
    if command == "nbd" and b"all" in options:
        found.add("exports")
    if any(word.partition(b"=")[2].partition(b":")[0].startswith((b"ro@", b"rw@")) for word in words):
        found.add("parts")
    if any(word.partition(b"=")[2].partition(b":")[0].startswith((b"ro#", b"rw#")) for word in words):
        found.add("bound-partitions")
    if any(re.match(rb"ro(@[^:%]*)?%", word.partition(b"=")[2]) for word in words):
        found.add("bound-maps")
    return found


def answer(words, given, files, features):
    name = words[0].decode("latin-1") if words else ""
    if name not in features["commands"]:
        raise Usage
    options, rest = cut_words(words[1:], name)
    if forms_of(name, options, rest) - features["forms"]:
        raise Usage
    from_input = name in STACK_FROM_INPUT and "input-stack" in features["forms"]
    files.stack = given if from_input else None
    return COMMANDS[words[0]](options, rest, files, given, features)


def run(words, given, files, features, cuts=()):
    """The lines on standard output, or the bytes to a client or of a device, with the warnings on standard error, and the status.

    `files` is as the command leaves it."""
    files.opened, files.cuts, files.counts, files.warnings = [], cuts, [], []
    outcome, status = outcome_of(words, given, files, features)
    if isinstance(outcome, Octets):
        outcome.warnings = files.warnings
    return Noted(outcome, files.warnings) if isinstance(outcome, list) else outcome, status


def outcome_of(words, given, files, features):
    try:
        if not all(map(is_utf8, words)):
            raise Usage
        return answer(words, given, files, features)
    except Usage:
        line, status = b"usage", USAGE
    except Stop as stop:
        line, status = stop.line, stop.status
    except (TextFault, Refused, ImageFault) as refusal:
        line, status = refusal.text().encode(), REFUSED
    except Fault as fault:
        line, status = fault.text.encode(), FAULT
    name = b"".join(words[:1]).decode("latin-1")
    if name in OUTPUT_IS_DATA and name in features["commands"]:
        return Octets(b"", line), status
    if status != USAGE and b"json" in cut_words(words[1:], name)[0]:
        return [ending_object(line)], status
    return [line], status


def is_utf8(word):
    try:
        word.decode()
    except UnicodeDecodeError:
        return False
    return True


__all__ = ["Drawn", "Files", "binding", "bound", "cut_words", "features_without", "run"]
