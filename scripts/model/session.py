"""The session: lines in, replies out."""

import re
from copy import copy
from dataclasses import dataclass

from configuration import Refused
from stack import SECTOR, Fault
from tables import WORD, TextFault, digits_of, number, print_line, read_stack

LIMIT = 16 * 1024 * 1024
MOST_SECTORS, MOST_IN_FLIGHT = 2048, 64
SUBMISSION_RULES = ["NoSuchDevice", "OutOfRange", "Length", "ReadOnly", "Full"]
STEP_RULES = ["NoSuchTicket"]
COMMANDS = ("load", "remove", "read", "write", "submit", "step", "cost", "table", "moved")


class Usage(Exception):
    """A line, or words of a command line, that are no command."""


class MovedReply:
    """The reply to `moved` as it stands here; what is open in it has a budget."""

    def __init__(self, moved):
        self.moved = copy(moved)

    def text(self):
        return b"moved %d %d" % (self.moved.reads, self.moved.writes)

    def allows(self, line):
        if not re.fullmatch(rb"moved (0|[1-9][0-9]*) (0|[1-9][0-9]*)", line):
            return False
        return self.moved.allows(*(int(word) for word in line.split()[1:]))


@dataclass
class Request:
    """A request in flight: its next sector, what is left, the bytes so far or to come."""
    device: object
    first: int
    next: int
    rest: int
    data: object
    answer: list

    @property
    def is_write(self):
        return self.data is not None


def the_number(word):
    value = number(word)
    if value is None:
        raise Usage
    return value


def sector_lines(first, data):
    lines = []
    for at in range(0, len(data), SECTOR):
        sector = data[at:at + SECTOR]
        same = sector == sector[:1] * SECTOR
        text = b"all %02x" % sector[0] if same else sector.hex().encode()
        lines.append(b"%d %s" % (first + at // SECTOR, text))
    return lines


def check_request(configuration, name, first, count, length):
    """The device of a request, or its first refusal; `length` in bytes is of a write."""
    def refused(kind):
        return Refused(kind, SUBMISSION_RULES)

    device = configuration.devices.get(name)
    if device is None:
        raise refused("NoSuchDevice")
    if first + count > device.sectors:
        raise refused("OutOfRange")
    if not 1 <= count <= MOST_SECTORS or (length or 0) % SECTOR:
        raise refused("Length")
    if length is not None and not device.writable:
        raise refused("ReadOnly")
    return device


class Session:
    def __init__(self, stack, features):
        self.stack, self.features = stack, features
        self.tickets, self.in_flight = 0, {}

    def reply(self, line):
        """The lines that answer a line of input."""
        words = WORD.findall(line)
        if not words:
            return []
        name = words[0].decode("latin-1")
        if name not in COMMANDS or name not in self.features["session"]:
            return [b"usage"]
        try:
            if name == "load":
                return self.load(line[line.index(b"load") + 4:])
            return getattr(self, name)(words[1:])
        except Usage:
            return [b"usage"]
        except (TextFault, Refused) as refusal:
            return [refusal.text().encode()]
        except Fault as fault:
            return [fault.text.encode()]

    def load(self, text):
        entries = read_stack(text, self.features["targets"])
        if self.in_flight:
            return [b"busy"]
        self.stack.configuration = self.stack.configuration.after(entries)
        return [b"loaded %d" % len(entries)]

    def remove(self, words):
        if len(words) != 1:
            raise Usage
        if self.in_flight:
            return [b"busy"]
        self.stack.configuration = self.stack.configuration.without(words[0])
        return [b"removed"]

    def asked(self, kind, words):
        """The words of a read or a write: name, first sector, count, bytes or None."""
        if kind == b"read" and len(words) == 3:
            return words[0], the_number(words[1]), the_number(words[2]), None
        if kind != b"write" or len(words) != 4:
            raise Usage
        first, count = the_number(words[1]), the_number(words[2])
        octet = digits_of(words[3], 2, 2)
        if octet is None or count > MOST_SECTORS + 1:
            raise Usage
        return words[0], first, count, octet * (count * SECTOR)

    def submitted(self, name, first, count, data):
        """The ticket of a request."""
        length = None if data is None else len(data)
        device = check_request(self.stack.configuration, name, first, count, length)
        if len(self.in_flight) >= MOST_IN_FLIGHT:
            raise Refused("Full", SUBMISSION_RULES)
        self.tickets += 1
        self.in_flight[self.tickets] = Request(device, first, first, count, data, [])
        return self.tickets

    def stepped(self, ticket):
        """The reply to one piece of a request."""
        request = self.in_flight.get(ticket)
        if request is None:
            raise Refused("NoSuchTicket", STEP_RULES)
        count = self.stack.piece(request.device, request.next, request.rest)
        try:
            if request.is_write:
                at = (request.next - request.first) * SECTOR
                data = request.data[at:at + count * SECTOR]
                self.stack.write_piece(request.device, request.next, data)
            else:
                piece = self.stack.read_piece(request.device, request.next, count)
                request.answer.append(piece)
        except Fault:
            del self.in_flight[ticket]
            raise
        request.next, request.rest = request.next + count, request.rest - count
        if request.rest:
            return [b"more"]
        del self.in_flight[ticket]
        if request.is_write:
            return [b"written"]
        return sector_lines(request.first, b"".join(request.answer))

    def run(self, name, first, count, data):
        """A whole request: its submission and all of its steps."""
        ticket = self.submitted(name, first, count, data)
        reply = [b"more"]
        while reply == [b"more"]:
            reply = self.stepped(ticket)
        return reply

    def read(self, words):
        return self.run(*self.asked(b"read", words))

    def write(self, words):
        return self.run(*self.asked(b"write", words))

    def submit(self, words):
        if not words:
            raise Usage
        return [b"ticket %d" % self.submitted(*self.asked(words[0], words[1:]))]

    def step(self, words):
        if len(words) != 1:
            raise Usage
        return self.stepped(the_number(words[0]))

    def device(self, words):
        if len(words) != 1:
            raise Usage
        device = self.stack.configuration.devices.get(words[0])
        if device is None:
            raise Refused("NoSuchDevice", SUBMISSION_RULES)
        return device

    def cost(self, words):
        return [costs(self.stack.configuration, self.device(words)).encode()]

    def table(self, words):
        return [print_line(line) for line in self.device(words).lines]

    def moved(self, words):
        if words:
            raise Usage
        return [MovedReply(self.stack.moved)]

    def serve(self, given, between):
        """The replies to a whole input, and the status; `between` is called behind each line."""
        lines = given[:LIMIT].split(b"\n")
        whole = len(given) <= LIMIT
        if not whole:
            lines.pop()
        replies = []
        for number, line in enumerate(lines, 1):
            replies += self.reply(line)
            between(number, replies)
        return replies, 0 if whole else 1


def costs(configuration, device):
    numbers = (device.sectors, configuration.depth(device), configuration.read_cost(device),
               configuration.write_cost(device))
    return "sectors %d depth %d read %d write %d" % numbers
