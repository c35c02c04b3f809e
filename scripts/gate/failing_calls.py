#!/usr/bin/env python3
"""Fails each call of the program in turn, in each case of scripts/gate/failing_calls, until a run meets no failure.

    failing_calls.py [--program FILE] [NAME..]

A case is as scripts/lib/case.sh says (`before` may import the modules of scripts/model), and is as many runs as the program
makes allocations, positioned reads and writes and syncs of its files, and, where it has the file `streams`, reads of its input
and of texts and writes of its output: in each run one of them fails. (In further runs a read or a write moves one byte, or is
interrupted: no answer shows it.) A session must answer, up to the line that met the failure, what it answers without one; that
line is refused (`no memory`, or the fault of the right device); and the lines after it, and the files at the end, are what the
model of scripts/model says over the files as the failure left them, in which each sector holds what it held before that line or
what the line was to write. (A line `moved` counts what the files were asked for, that line included, so the leaves are files.)
Another command must name the failure, and answer, when it is repeated, as without one; a format that met one before its sync
leaves no superblock, and one that met it at its parity (`--fec`) the whole image; an assemble leaves a header of a partition table
only over whole partitions, or over what was there. If the output fails, standard error must say so,
and a `copy` must have copied all. A `repair` or an `update` may also seek elsewhere what it couldn't read: each block that it names is
good then, and each other one as it was, and repeated it ends with a whole image. An `update` leaves the release's superblock only
before all blocks of the release.

Where a case has the file `kinds`, calls of these kinds alone fail. Where it has the file `calls`, this has a line for each
positioned read and write and each sync, in their order: which call it is, of which leaf, how many sectors were asked for by then,
read and written, and, where it fails, the sums (FNV-1a in 32 bits) of what all leaves hold afterwards. scripts/gate/failing_writes.py
writes such cases.
"""
import copy
import os
import shutil
import subprocess
import sys
import tempfile

sys.dont_write_bytecode = True
TOP = os.path.dirname(os.path.dirname(os.path.dirname(os.path.realpath(__file__))))
sys.path += [f"{TOP}/scripts/lib", f"{TOP}/scripts/model"]

from cases import Case, lines_of, program_and_names, read_file  # noqa: E402
from command_line import Files, binding, bound, cut_words, features_without  # noqa: E402
from configuration import Refused  # noqa: E402
from failing_recovery import Recovery, Unlike as Wrong  # noqa: E402
from failing_repair import Repair  # noqa: E402
from failing_update import Update  # noqa: E402
from sentences import without_sentence  # noqa: E402
from session import Session  # noqa: E402
from stack import Fault  # noqa: E402

FOLDER = f"{TOP}/scripts/gate/failing_calls"
MOST = 100_000
FEATURES = features_without([])
REFUSED_DEVICE = {b"format": (1, b"refused 5 Device"), b"assemble": (1, b"refused 5 Device"), b"verify": (1, b"refused 10 Device"), b"dump": (1, b"refused 10 Device"),
                  b"table": (1, b"refused 10 Device"), b"read": (3, b"fault 3 Device %d"), b"write": (3, b"fault 3 Device %d")}
RECOVERIES = (b"scan", b"copy")
MEBIBYTE = 1 << 20
UNWRITTEN = b"dmstack: standard output failed\n"


def allows(reply, line):
    return reply == line if isinstance(reply, bytes) else reply.allows(line)


def all_allow(replies, lines):
    return len(replies) == len(lines) and all(map(allows, replies, lines))


def sum_of(data):
    """FNV-1a in 32 bits."""
    it = 0x811C9DC5
    for byte in data:
        it = (it ^ byte) * 0x01000193 % 2**32
    return b"%08x" % it


class Failing(Case):
    """A case whose calls fail."""

    def __init__(self, name, program, room, library):
        super().__init__(f"{FOLDER}/{name}", room)
        self.program, self.library = program, library
        # Refusals of memory that no answer shows: std asks ahead for room for the words, and asks again where it is refused; for
        # assemble also at `x86-64` behind `root-`, twice, and at `-verity` behind both.
        self.unseen, self.most_unseen = 0, 4 if self.words[0] == b"assemble" else 1
        self.recovery, self.repair = None, None
        self.kinds = ["memory", "device", "short", "interrupted"]
        self.kinds += ["input", "text", "output"] * self.has("streams")
        if self.has("kinds"):
            self.kinds = self.text("kinds").decode().split()
        # If memory runs out for keeping a checked block, the answer is that of the block as it was read.
        self.may_keep = b" verity " in self.given + self.text("before") and b"--cache=0" not in self.words
        self.calls = lines_of(self.text("calls")) if self.has("calls") else None

    def is_session(self):
        return self.words[0] == b"session"

    def fail(self, kind="", number=0, given=None, again=False):
        """The output, the status, and what failed (or None), with the call of that number failing: which call, of which file,
        and the sectors asked for until then."""
        met = f"{self.room}/met"
        if not again:
            self.renew()
        if os.path.exists(met):
            os.remove(met)
        failing = {"LD_PRELOAD": self.library, "FAIL_KIND": kind, "FAIL": str(number), "FAIL_MET": met}
        if kind == "memory":
            failing = {"LD_PRELOAD": self.library, "REFUSE": str(number), "REFUSE_MET": met}
        done = self.run(self.program, failing, given)
        told = b""
        if kind == "output" and os.path.exists(met):
            # The last line, that sectors are lost, is repeated there.
            told = (self.recovery.lines[-1] + b"\n" if self.recovery and self.recovery.lost else b"") + UNWRITTEN
        if without_sentence(done.stdout, done.stderr, done.returncode, self.words) != told:
            raise Wrong(f"an error output: {done.stderr[:200]}, in place of {told} and the sentence on what ended the command")
        what = read_file(met).rstrip(b"\n").split(b" ", 3) if os.path.exists(met) else None
        if what and kind != "memory":
            what = what[0], what[3], int(what[1]), int(what[2])
        return done.stdout, done.returncode, what

    def leaves(self):
        """The files that are bound to leaves, and the leaves' names."""
        options, words = cut_words(self.words[1:], self.words[0].decode())
        if b"disk" in options:
            return [words[0]], [b"DISK"]
        bound_words = [it.partition(b"=") for it in words if b"=" in it]
        return [file.partition(b":")[2] for _, _, file in bound_words], [name for name, _, _ in bound_words]

    def leaf(self, path):
        """The number of the leaf that is bound to a file."""
        return self.leaves()[0].index(os.path.basename(path)) + 1

    def check_call(self, number, what):
        """Whether the call that failed is the one that the case's file names, and left what this says."""
        files, names = self.leaves()
        sums = [sum_of(read_file(f"{self.room}/files/{it.decode()}")) for it in files]
        found = b" ".join([what[0], names[self.leaf(what[1]) - 1], b"%d %d" % what[2:], *sums])
        if self.calls[number - 1 : number] != [found]:
            raise Wrong(f"{self.calls[number - 1 : number]} in the file calls, and not {found}")


class Modelled:
    """A session's replies by the model, line by line, with the state before each line."""

    def __init__(self, case):
        self.case = case
        self.lines = case.given.split(b"\n")
        self.nodes = {it.encode(): bytearray(read_file(f"{case.start}/{it}")) for it in os.listdir(case.start)}
        files = Files(self.nodes)
        files.opened = []
        words = cut_words(case.words[1:], "session")[1]
        state = (Session(bound([binding(it) for it in words], files), FEATURES), self.nodes)
        self.states, self.replies, self.rests = [], [], {}
        for line in self.lines:
            self.states.append(copy.deepcopy(state))
            self.replies.append(state[0].reply(line))
        self.states.append(state)

    def state(self, at):
        return copy.deepcopy(self.states[at])

    def output(self):
        return [it for reply in self.replies for it in reply]

    def failing_line(self, lines):
        """The line of input that was answered otherwise, and the place of its answer in the output."""
        at = 0
        for number, reply in enumerate(self.replies):
            if not all_allow(reply, lines[at : at + len(reply)]):
                return number, at
            at += len(reply)
        raise Wrong("every line was answered as without a failure")

    def rest(self, state, number):
        """What the lines after a line answer from a state on, and the files then."""
        session, nodes = state
        moved = session.stack.moved.reads, session.stack.moved.writes
        key = number, session.tickets, moved, tuple(sorted(session.in_flight)), tuple(map(bytes, nodes.values()))
        if key not in self.rests:
            replies = [it for line in self.lines[number + 1 :] for it in session.reply(line)]
            self.rests[key] = replies, {name: bytes(node) for name, node in nodes.items()}
        return self.rests[key]

    def ended(self, number):
        """The states in which the request of a line may end that ran out of memory."""
        words = self.lines[number].split()
        if words[0] in (b"read", b"write"):
            yield self.state(number)
            for pieces in range(MOST):
                session, nodes = self.state(number)
                try:
                    ticket = session.submitted(*session.asked(words[0], words[1:]))
                    for _ in range(pieces):
                        session.stepped(ticket)
                except (Fault, Refused):
                    return
                if ticket not in session.in_flight:
                    return
                del session.in_flight[ticket]
                yield session, nodes
        session, nodes = self.state(number)
        if words[0] == b"step":
            del session.in_flight[int(words[1])]
        yield session, nodes

    def after_memory(self, number):
        """What may follow a line that ran out of memory: replies and files."""
        return [self.rest(state, number) for state in self.ended(number)]

    def after_device(self, number, kind, call, asked):
        """What follows a line that met a device's failure, where the files were asked for so many sectors by then: replies and
        files."""
        given = b"\n".join(self.lines[: number + 1]) + b"\n"
        self.case.fail(kind, call, given)
        session, nodes = self.state(number)
        later = self.states[number + 1][1]
        for name, node in nodes.items():
            left = read_file(f"{self.case.room}/files/{name.decode()}")
            for at in range(0, max(len(left), len(node)), 512):
                part = slice(at, at + 512)
                if left[part] not in (node[part], later[name][part]):
                    raise Wrong(f"sector {at // 512} of {name.decode()} is neither as it was nor as it was to be")
            node[:] = left
        moved = session.stack.moved = copy.copy(self.states[number + 1][0].stack.moved)
        moved.reads, moved.writes = asked
        words = self.lines[number].split()
        if words[0] == b"step":
            del session.in_flight[int(words[1])]
        else:
            session.tickets += 1
        return self.rest((session, nodes), number)


def check_files(case, nodes):
    for name, node in nodes.items():
        if read_file(f"{case.room}/files/{name.decode()}") != node:
            raise Wrong(f"the file {name.decode()} isn't as the model leaves it")


def unseen(case):
    case.unseen += 1
    if case.unseen > case.most_unseen and not case.may_keep:
        raise Wrong("the answer is that without a failure")
    return None


def check_session(case, model, kind, number, ran):
    output, status, what = ran
    if kind in ("short", "interrupted"):
        if status != 0 or not all_allow(model.output(), lines_of(output)):
            raise Wrong(f"status {status}, {output[-200:]}")
        return check_files(case, model.states[-1][1])
    lines, plain = lines_of(output), model.output()
    if kind in ("input", "output") or (status == 1 and kind == "memory"):
        # The session ended there: whole replies went out (at a refused output, any part), or one line says why there is none.
        text = b"".join(it + b"\n" if isinstance(it, bytes) else b"" for it in plain)
        if status != 1 or not (text.startswith(output) or output == b"no memory\n"):
            raise Wrong(f"status {status}, {output[-200:]}")
        return
    if kind == "device" and what[0] == b"sync":
        if status != 3 or not all_allow(plain + [b"fault 3 Device %d" % case.leaf(what[1])], lines):
            raise Wrong(f"a failed sync: status {status}, {output[-200:]}")
        return
    if status != 0:
        raise Wrong(f"status {status}, {output[-200:]}")
    if kind == "memory" and all_allow(plain, lines):
        unseen(case)
        return check_files(case, model.states[-1][1])
    failing, at = model.failing_line(lines)
    wanted = b"no memory" if kind == "memory" else b"fault 3 Device %d" % case.leaf(what[1])
    if lines[at : at + 1] != [wanted]:
        raise Wrong(f"line {failing + 1}: {lines[at : at + 1]} in place of {wanted}")
    ends = model.after_memory(failing) if kind == "memory" else [model.after_device(failing, kind, number, what[2:])]
    if kind == "device":
        case.fail(kind, number)
    held = {name: read_file(f"{case.room}/files/{name.decode()}") for name in model.nodes}
    for replies, nodes in ends:
        if all_allow(replies, lines[at + 1 :]) and all(held[name] == node for name, node in nodes.items()):
            return
    raise Wrong(f"after line {failing + 1}: {lines[at + 1:][:20]}, in place of {ends[0][0][:20]}")


def check_unfinished(case):
    """No superblock is before a tree that isn't finished."""
    if read_file(f"{case.room}/files/{case.words[-1].decode()}").startswith(b"verity"):
        raise Wrong("there is a superblock")


def between_ends(disk):
    return disk[MEBIBYTE:-MEBIBYTE]


def check_table(case):
    """No header of a partition table is on a disk whose partitions aren't whole."""
    disk = read_file(f"{case.room}/files/{case.words[-2].decode()}")
    if b"EFI PART" in (disk[512:520], disk[-512:-504]) and between_ends(disk) not in map(between_ends, (case.image, case.before)):
        raise Wrong("there is a header over partitions that aren't whole")


def behind_the_image(case, kind, what, output):
    """Where a format or a verify with --fec has done what is done without, and met the failure at its parity: the status and the
    output. The parity's calls are all of this kind; a format has left the whole image by then."""
    if case.words[0] == b"assemble" and kind == "device" and output == b"refused 50 FecDevice\n":
        return 1, b"refused 50 FecDevice"
    parity = next((it.partition(b"=")[2] for it in case.words if it.startswith(b"--fec=")), None)
    if parity is None:
        return None
    told = b"matches\n" if case.words[0] == b"verify" else b""
    whole = case.words[0] != b"format" or read_file(f"{case.room}/files/{case.words[-1].decode()}") == case.image
    if kind == "memory":
        return (1, told + b"no memory") if whole and output == told + b"no memory\n" else None
    # the superblock is read again, before the parity is laid out
    at_parity = os.path.basename(what[1]) == parity
    again = what[0] == b"read" and not at_parity and output == told + b"refused 10 Device\n"
    if not at_parity and not again and output != told + b"refused 50 FecDevice\n":
        return None
    if not whole:
        raise Wrong("the image isn't whole before its parity")
    return 1, told + (b"refused 10 Device" if again else b"refused 50 FecDevice")


def check_command(case, plain, kind, ran):
    output, status, what = ran
    if kind == "memory" and ran[:2] == plain[:2]:
        return unseen(case)
    if kind in ("short", "interrupted"):
        if ran[:2] != plain[:2]:
            raise Wrong(f"status {status}, {output[-200:]}")
        return None
    if case.repair:
        return case.repair.check(kind, what, output, status)
    if kind == "device" and case.recovery:
        case.recovery.check_failure(what[1], output, status)
    elif kind == "memory" and case.recovery:
        case.recovery.check_early_end(output, status, b"no memory")
    elif kind in ("output", "text"):
        if status != 1 or kind == "text" and not output.startswith(b"refused "):
            raise Wrong(f"status {status}, {output[-200:]}")
        if kind == "output" and case.recovery:
            case.recovery.check_image(case.recovery.lost)
    else:
        wanted = (1, b"no memory")
        if kind == "device":
            wanted = REFUSED_DEVICE[case.words[0]]
        behind = behind_the_image(case, kind, what, output)
        wanted = behind or wanted
        if b"%d" in wanted[1]:
            wanted = wanted[0], wanted[1] % case.leaf(what[1])
        if (status, output) != (wanted[0], wanted[1] + b"\n"):
            raise Wrong(f"status {status}, {output[-200:]}")
        if case.words[0] == b"format" and what[0] != b"sync" and not behind:
            check_unfinished(case)
        if case.words[0] == b"assemble":
            check_table(case)
    again = case.fail(again=True)
    if again[:2] != plain[:2]:
        raise Wrong(f"repeated: status {again[1]}, {again[0][-200:]}")


def sweep(case, kind, check):
    """How many calls of a kind there were, each of which failed in a run of its own."""
    for number in range(1, MOST):
        ran = case.fail(kind, number)
        if ran[2] is None:
            if kind == "device" and case.calls is not None and len(case.calls) != number - 1:
                raise Wrong(f"{number - 1} calls, and not the {len(case.calls)} of the file calls")
            return number - 1
        try:
            if kind == "device" and case.calls is not None:
                case.check_call(number, ran[2])
            check(kind, number, ran)
        except Wrong as wrong:
            raise Wrong(f"{kind} {number} ({ran[2]}): {wrong}") from None
    raise Wrong("too many calls")


def check_case(case):
    """How many calls of each kind failed."""
    plain = case.fail()
    if case.words[0] == b"format":
        case.image = read_file(f"{case.room}/files/{case.words[-1].decode()}")
    if case.words[0] == b"assemble":
        case.before, case.image = (read_file(f"{it}/{case.words[-2].decode()}") for it in (case.start, f"{case.room}/files"))
    if not case.is_session():
        if case.words[0] not in (b"format", *RECOVERIES) and plain[1] != 0:
            raise Wrong(f"without a failure: status {plain[1]}, {plain[0][-200:]}")
        if case.words[0] in RECOVERIES:
            case.recovery = Recovery(case, plain[0])
        if case.words[0] == b"repair":
            case.repair = Repair(case, plain[0], cut_words(case.words[1:], "repair")[1])
        if case.words[0] == b"update":
            case.repair = Update(case, plain[0], cut_words(case.words[1:], "update")[1])
        return {kind: sweep(case, kind, lambda kind, _, ran: check_command(case, plain, kind, ran)) for kind in case.kinds}
    model = Modelled(case)
    if plain[1] != 0 or not all_allow(model.output(), lines_of(plain[0])):
        raise Wrong(f"without a failure: status {plain[1]}, {plain[0][-300:]}, in place of {model.output()[-8:]}")
    check_files(case, model.states[-1][1])
    return {kind: sweep(case, kind, lambda *found: check_session(case, model, *found)) for kind in case.kinds}


def main():
    program, names = program_and_names("Fails each call of the program in turn.", FOLDER)
    passed = failed = 0
    place = tempfile.mkdtemp(prefix="failing.", dir="/dev/shm" if os.path.isdir("/dev/shm") else None)
    try:
        library = f"{place}/fail.so"
        sources = [f"{TOP}/scripts/gate/{it}" for it in ("fail_calls.c", "refuse_alloc.c")]
        subprocess.run(["cc", "-shared", "-fPIC", "-O2", "-o", library, *sources, "-ldl"], check=True)
        for name in names:
            room = f"{place}/{name}"
            os.mkdir(room)
            try:
                met = check_case(Failing(name, program, room, library))
                if not next(iter(met.values())):
                    raise Wrong("no call failed")
                print(f"{name}: " + ", ".join(f"{kind} {count}" for kind, count in met.items()), flush=True)
                passed += 1
            except Wrong as wrong:
                print(f"{name}: {wrong}", flush=True)
                failed += 1
            shutil.rmtree(room)
    finally:
        shutil.rmtree(place, ignore_errors=True)
    print(f"failing calls: {passed} passed, {failed} failed")
    return 1 if failed or not passed else 0


if __name__ == "__main__":
    sys.exit(main())
