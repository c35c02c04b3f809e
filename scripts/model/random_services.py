"""Random exchanges with `nbd`: a handshake, then requests at the edges of sectors, lines and the device, some with a fault."""

from messages import Octets, Option, Request, information, queries
from random_parts import Run
from random_recovery import Recoveries
from tables import PREFIX

SECTOR = 512
EXPORT_NAME, ABORT, LIST, INFO, GO, STRUCTURED_REPLY, LIST_META_CONTEXT, SET_META_CONTEXT = 1, 2, 3, 6, 7, 8, 9, 10
READ, WRITE, DISC, FLUSH, TRIM, CACHE, WRITE_ZEROES, BLOCK_STATUS = range(8)
OTHER_OPTIONS = [0, 4, 5, 8, 9, 10, 11, 12, 2**31, 2**32 - 1]
OTHER_COMMANDS = [7, 8, 9, 255, 256, 65535]
QUERIES = [b"base:allocation", b"base:allocation", b"base:", b"base:allocations", b"", b"qemu:x"]
MEBIBYTE = 1024 * 1024
MOST = 32 * MEBIBYTE
STEPS = [-513, -512, -511, -2, -1, 0, 0, 0, 0, 1, 2, 511, 512, 513]


class Services(Recoveries):
    def service_case(self):
        """A device is served once or more, and sometimes read by another command then."""
        words = self.bindings()
        for _ in range(3):
            text = self.served_text(words)
            session = self.session_over(words)
            self.follow(session, b"load " + text)
            if session.stack.configuration.devices:
                break
        if self.chance(0.5):
            self.change_files(words)
        stack = self.new_file(text + self.pick([b"", b"\n"]), b"stack")
        runs = [self.service_run(session, stack, words) for _ in range(self.pick([1, 1, 1, 2]))]
        if self.chance(0.2):
            runs.append(self.recovery_run(session, stack, words))
        return runs

    def served_text(self, words):
        """A stack text: of checked blocks, of devices that may be written, of large ones, or any."""
        draw = self.random.random()
        text = None
        if draw < 0.25 and self.has("targets", "verity"):
            text = self.verity_entries(words)
        elif draw < 0.75:
            text = self.holed_stack(self.session_over(words), True)
        elif draw < 0.87:
            text = self.large_stack(words)
        return text or self.stack_text(self.session_over(words))

    def large_stack(self, words):
        """A device of more sectors than one read of a session may have."""
        size = self.pick([2047, 2048, 2049, 2500, 4097, 65536])
        words.append(b"large=%s:%d" % (self.pick([b"ramp", b"zero"]), size))
        first = self.pick([1, 127, 128, 129, 1000, 2046])
        lines = b"0 %d linear large %d,%d %d linear large %d" % (first, size - first, first, size - first, 0)
        if self.chance(0.3):
            lines += b",%d %d error" % (size, self.pick([1, 130]))
        if self.chance(0.5):
            lines = b"0 %d linear large 0" % size
        if self.chance(0.4):
            lines = b"0 %d zero,%d 1 linear large 0" % (MOST // SECTOR, MOST // SECTOR)
        return b"big,,,%s,%s" % (self.pick([b"rw", b"rw", b"ro"]), lines)

    def service_run(self, session, stack, words):
        devices = [device for device in session.stack.configuration.devices.values()
                   if device.sectors < 2**40 or self.chance(0.3)]
        device = self.pick(devices[-1:] * 2 + devices) if devices and self.chance(0.97) else None
        name = device.name if device else self.pick([b"none", b"D", b"", PREFIX + b"a"])
        messages = tuple(self.exchange(session, device)) if device else (Octets(b"\0\0\0\3"),)
        if self.has("forms", "exports") and self.chance(0.3):
            return Run([b"nbd", b"--all"] + self.cache() + [stack] + words, messages=messages)
        return Run([b"nbd"] + self.cache() + [stack, name] + words, messages=messages)

    def exchange(self, session, device):
        """The messages of a client, from its flags on."""
        flags = self.pick([3, 3, 3, 1, 0, 2])
        if self.chance(0.04):
            flags = self.pick([4, 7, 8, 2**16, 2**24, 2**31, 2**32 - 1])
        messages = [Octets(flags.to_bytes(4, "big"))]
        for _ in range(self.pick([0, 0, 0, 1, 2, 4])):
            messages.append(self.option(device))
        if self.chance(0.5):
            messages += self.chunks_asked_for(device)
        if self.chance(0.95):
            name = self.pick([device.name, device.name, b""])
            begin = Option(EXPORT_NAME, name) if self.chance(0.5) else Option(GO, information(name, self.facts()))
            messages.append(begin)
            messages += self.requests(session, device)
        return self.ended(messages)

    # The handshake

    def chunks_asked_for(self, device):
        """Structured replies, mostly with the context of the device, in their order or not."""
        found = [Option(STRUCTURED_REPLY, self.pick([b"", b"", b"", b"", b"x"]))]
        for _ in range(self.pick([0, 1, 1, 2])):
            wanted = [self.pick(QUERIES) for _ in range(self.pick([0, 1, 1, 1, 2, 5]))]
            name = self.pick([device.name] * 4 + [b"", self.other_name(device)])
            data = queries(name, wanted)
            if self.chance(0.15):
                data = self.spoiled_queries(data, len(name))
            found.append(Option(self.pick([LIST_META_CONTEXT, SET_META_CONTEXT, SET_META_CONTEXT]), data))
        return found if self.chance(0.9) else found[::-1]

    def spoiled_queries(self, data, size):
        """The data of a query with a length that isn't what they say."""
        at = self.pick([0, 4 + size, min(8 + size, len(data) - 4)])
        number = int.from_bytes(data[at:at + 4], "big")
        other = self.pick([max(number - 1, 0), number + 1, number + 2, len(data), 2**31, 2**32 - 1])
        return self.pick([data[:self.random.randrange(len(data))], data + b"x", data[:at] + other.to_bytes(4, "big") + data[at + 4:]])

    def option(self, device):
        draw = self.random.random()
        if draw < 0.2:
            return Option(LIST, self.pick([b"", b"", b"x", bytes(9)]))
        if draw < 0.45:
            size = self.pick([0, 0, 1, 9, 300])
            if self.chance(0.06):
                size = self.pick([65535, 65536, 65537, 200000])
            number = self.pick(OTHER_OPTIONS + ([LIST, INFO, GO, ABORT] if size > 65536 else []))
            return Option(number, self.random.randbytes(min(size, 9)).ljust(size, b"."))
        if draw < 0.49:
            return Option(ABORT, self.pick([b"", b"bye"]))
        if draw < 0.53:
            return Option(EXPORT_NAME, self.other_name(device))
        number = self.pick([INFO, INFO, GO])
        name = self.other_name(device) if number == GO or self.chance(0.4) else self.pick([device.name, b""])
        data = information(name, self.facts())
        return Option(number, self.spoiled_information(data, len(name)) if self.chance(0.5) else data)

    def other_name(self, device):
        name = device.name
        return self.pick([name[:-1], name + b"x", name + b"\0", b" " + name, PREFIX + name, name.swapcase(), b"\0", b"n" * 5000])

    def facts(self):
        return [self.pick([0, 1, 2, 3, 3, 4, 768, 65535]) for _ in range(self.pick([0, 0, 1, 1, 2, 3, 40]))]

    def spoiled_information(self, data, size):
        """The data of INFO or GO with a length that isn't what they say."""
        kind = self.random.randrange(5)
        if kind == 0:
            return data[:self.random.randrange(len(data))]
        if kind == 1:
            return data + bytes(self.pick([1, 2]))
        if kind == 2:
            other = self.pick([max(size - 1, 0), size + 1, size + 2, len(data), 65536, 2**31, 2**32 - 1])
            return other.to_bytes(4, "big") + data[4:]
        if kind == 3:
            count = int.from_bytes(data[4 + size:6 + size], "big")
            return data[:4 + size] + self.pick([abs(count - 1), count + 1, 65535]).to_bytes(2, "big") + data[6 + size:]
        return self.pick([b"", bytes(5), bytes(6), bytes(7)])

    # The transmission

    def requests(self, session, device):
        found = []
        most = max(self.most_sectors(session, device) // 2, 1)
        large = device.sectors > 2000 and most > 1000
        for _ in range(self.pick([1, 3, 6, 12, 20])):
            draw = self.random.random()
            if draw < 0.08:
                found.append(Request(FLUSH, cookie=self.cookie()))
            elif draw < 0.2:
                found.append(self.strange_request(device))
            else:
                found.append(self.usual_request(device, most, large and self.chance(0.3)))
        if device.sectors * SECTOR > MOST and large or large and self.chance(0.1):
            found.append(self.greatest_request())
        return found

    def cookie(self):
        return self.random.getrandbits(64)

    def usual_request(self, device, most, large):
        """A read or a write whose ends lie near those of a sector, a line or the device."""
        size = device.sectors * SECTOR
        edges = [line.start * SECTOR for line in device.lines[:8]] + [size]
        edge = self.pick(edges) if self.chance(0.6) else self.below(device.sectors) * SECTOR
        offset = max(0, edge + self.pick(STEPS))
        lengths = [0, 1, 2, 3, 511, 512, 513, 700, 1023, 1024, 1025, 1536, 4096, 4097, size - offset, size - offset, size]
        length = self.pick(lengths)
        if self.chance(0.5):
            length = self.pick(edges) + self.pick(STEPS) - offset
        if large:
            offset = self.pick([0, 0, 1, 512, 700])
            length = MEBIBYTE * self.pick([1, 1, 2]) + self.pick([-513, -1, 0, 1, 2, 512, 66000])
        if not 0 <= length <= most * SECTOR and not large:
            length = self.random.randint(0, most * SECTOR)
        if offset + length > size and self.chance(0.8):
            length = max(size - offset, 0)
            length = length if large else min(length, most * SECTOR)
        share = 0.55 if device.writable else 0.15
        fua = self.pick([0, 0, 0, 1])
        if self.chance(0.1):
            return Request(self.pick([TRIM, CACHE]), offset, length, cookie=self.cookie(), flags=fua)
        if self.chance(0.15):
            return Request(BLOCK_STATUS, offset, self.pick([length, max(size - offset, 0)]) % 2**32, cookie=self.cookie(), flags=fua + self.pick([0, 8]))
        if self.chance(0.05):
            return Request(READ, offset, length, cookie=self.cookie(), flags=fua + 4)
        if self.chance(share * 0.3):
            return Request(WRITE_ZEROES, offset, length, cookie=self.cookie(), flags=fua + self.pick([0, 0, 2, 2, 16, 18]))
        if self.chance(share):
            return Request(WRITE, offset, data=self.bytes_to_write(length), cookie=self.cookie(), flags=fua)
        return Request(READ, offset, length, cookie=self.cookie(), flags=fua)

    def greatest_request(self):
        """A request of as many bytes as one may have, or of one more."""
        offset, length = self.pick([0, 1]), MOST + self.pick([-1, 0, 1])
        if self.chance(0.3):
            return Request(WRITE, offset, data=self.bytes_to_write(length), cookie=self.cookie())
        return Request(self.pick([READ, READ, CACHE]), offset, length, cookie=self.cookie())

    def bytes_to_write(self, length):
        if self.chance(0.3):
            return bytes([self.random.randrange(256)]) * length
        drawn = self.random.randbytes(min(length, 1025))
        return (drawn * (length // max(len(drawn), 1) + 1))[:length]

    def strange_request(self, device):
        """A request with a field that is refused, or at the edge of it."""
        size = device.sectors * SECTOR
        kind = self.random.randrange(5)
        if kind == 0:
            return Request(self.pick(OTHER_COMMANDS), self.pick([0, 512]), self.pick([0, 1, 512]), cookie=self.cookie())
        if kind == 1:
            offset = self.pick([size - 1, size, size + 1, 2**63, 2**64 - 1, 2**64 - 512, 2**64 - 2**20])
            return self.either(offset, self.pick([0, 0, 1, 2, 512, 2**20]))
        if kind == 2:
            return Request(READ, self.pick([0, 1, size]), MOST + self.pick([1, 2, 2**31, 2**32 - 2**25 - 1]), cookie=self.cookie())
        if kind == 3:
            offset, length = self.pick([(0, 1), (0, 512), (1, 0), (512, 512), (2**63, 0)])
            return Request(FLUSH, offset, length, cookie=self.cookie())
        command = self.pick([READ, WRITE, WRITE, FLUSH, TRIM, CACHE, WRITE_ZEROES])
        data = self.bytes_to_write(self.pick([0, 1, 513])) if command == WRITE else b""
        flags = self.pick([1, 2, 3, 4, 8, 16, 17, 18, 256, 32768])
        length = self.pick([0, 1, 513]) if command in (TRIM, CACHE, WRITE_ZEROES) else None
        return Request(command, 0, length, data, self.cookie(), flags)

    def either(self, offset, length):
        if self.chance(0.7):
            return Request(self.pick([READ, READ, TRIM, CACHE, WRITE_ZEROES]), offset % 2**64, length, cookie=self.cookie())
        return Request(WRITE, offset % 2**64, data=bytes(length), cookie=self.cookie())

    # The end

    def ended(self, messages):
        """How the client goes: after its last message, by DISC, within a message, or with one that is none."""
        draw = self.random.random()
        if draw < 0.3:
            return messages + [Request(DISC, cookie=self.cookie())] + ([Octets(b"anything")] if self.chance(0.2) else [])
        if draw < 0.34:
            return messages + [Request(DISC, 5, 7, cookie=self.cookie(), flags=self.pick([0, 1, 3]))]
        if draw < 0.45:
            return messages + [Request(WRITE, 0, self.pick([512, 2**25, 2**32 - 1]), bytes(self.pick([0, 1, 511])))]
        if draw < 0.6:
            return self.cut_off(messages)
        if draw < 0.7:
            return self.with_wrong_byte(messages)
        return messages

    def cut_off(self, messages):
        """The input ends within a message, more often within a late one."""
        at = self.pick([len(messages) - 1] * 3 + list(range(len(messages))))
        octets = messages[at].encoded()
        places = [0, 1, 3, 4, 8, 15, 16, 17, 27, 28, 29, len(octets) - 1, len(octets) // 2]
        place = min(self.pick(places), len(octets))
        return messages[:at] + [Octets(octets[:place])]

    def with_wrong_byte(self, messages):
        """A byte of a message's first ones, those of its magic, is another one."""
        at = self.pick([len(messages) - 1] * 2 + list(range(len(messages))))
        octets = bytearray(messages[at].encoded())
        magic = 8 if octets[:8] == b"IHAVEOPT" else 4
        octets[self.random.randrange(min(magic, len(octets)))] ^= 1 << self.random.randrange(8)
        return messages[:at] + [Octets(bytes(octets))] + messages[at + 1:]
