"""Random sessions: lines over the devices that stand, as the model tells."""

from command_line import Files, binding, bound
from random_parts import Run, nodes
from random_holes import Holes
from session import LIMIT, Session
from strange_words import LEAF_NAMES, NAMES, STRANGE_BYTES, STRANGE_NAMES, STRANGE_NUMBERS


class Sessions(Holes):
    def session_over(self, words):
        """The model's session over bindings, or over none where they are refused."""
        files = Files(nodes(self.files))
        try:
            stack = bound([binding(word) for word in words], files)
        except Exception:
            stack = bound([], Files({}))
        session = Session(stack, self.features)
        session.files = files
        return session

    def sector_range(self, session, device, write):
        """The words FIRST and COUNT of a request."""
        if device is None:
            return b"0", b"1"
        draw = self.random.random()
        if draw < 0.05:
            return self.pick(STRANGE_NUMBERS), b"%d" % self.random.randint(0, 3)
        if draw < 0.1:
            return b"%d" % self.below(device.sectors), self.pick(STRANGE_NUMBERS[:24])
        edges = [line.start for line in device.lines[:8]] + [device.sectors]
        first = max(0, self.pick(edges) + self.pick([-130, -128, -127, -2, -1, 0, 0, 0, 1, 3]))
        if self.chance(0.2) or first >= device.sectors and self.chance(0.8):
            first = self.below(min(device.sectors - 1, 3000))
        rest = device.sectors - first
        most = self.most_sectors(session, device)
        count = self.pick([1, 1, 2, 3, 8, rest, rest, rest + 1, 0, 127, 128, 129, 256, 257, 2048, 2049])
        if count > most and rest > 0:
            count = self.random.randint(1, most)
        if count > 40 and self.chance(0.4):
            count = self.random.randint(1, 40)
        if rest > 0 and count > rest and self.chance(0.8):
            count = self.random.randint(1, rest)
        return self.decimal(first), self.decimal(max(count, 0))

    def most_sectors(self, session, device):
        """How many sectors may be asked for without much work for the model."""
        configuration = session.stack.configuration
        cost = max(configuration.read_cost(device), configuration.write_cost(device), 1)
        slow = session.stack.is_open(device) or self.is_sealed(configuration, device)
        return max(1, min(2049, (64 if slow else 4096) // cost))

    def is_sealed(self, configuration, device):
        lines = getattr(device, "lines", [])
        if any(type(line.target).__name__ == "Crypt" for line in lines):
            return True
        return any(self.is_sealed(configuration, lower) for lower in configuration.lowers(device)) \
            if lines else False

    def request(self, session):
        """The words of a read or a write behind the command."""
        devices = list(session.stack.configuration.devices.values())
        device = self.pick(devices) if devices and self.chance(0.97) else None
        name = device.name if device else self.pick(NAMES + STRANGE_NAMES[:6] + LEAF_NAMES[:4])
        write = self.has("session", "write") and self.chance(0.5)
        if device and write and not device.writable and self.chance(0.7):
            write = False
        first, count = self.sector_range(session, device, write)
        if not write:
            return b"read", b"%s %s %s" % (name, first, count)
        octet = self.pick([b"%02x" % self.random.randrange(256)] * 9 + [b"AB", b"g0", b"1", b"001"])
        return b"write", b"%s %s %s %s" % (name, first, count, octet)

    def line(self, session, texts):
        """One line of input."""
        draw = self.random.random()
        devices = list(session.stack.configuration.devices)
        name = self.pick(devices) if devices and self.chance(0.9) else self.pick(NAMES + LEAF_NAMES)
        if texts and self.chance(0.6):
            return b"load " + texts.pop()
        if draw < 0.22 or not devices and draw < 0.8:
            text = self.stack_text(session)
            spoiled = self.chance(0.4)
            return b"load" + self.pick([b" ", b" ", b"  ", b"\t"]) + (self.spoiled(text) if spoiled else text)
        if draw < 0.6:
            command, rest = self.request(session)
            if self.has("session", "submit") and self.chance(0.3):
                return b"submit %s %s" % (command, rest)
            return b"%s %s" % (command, rest)
        if draw < 0.72:
            if self.has("session", "step"):
                tickets = list(session.in_flight) * 5 + [session.tickets]
                if session.in_flight or self.chance(0.1):
                    return b"step %d" % (self.pick(tickets) + self.pick([0] * 15 + [1]))
            return b"moved"
        if draw < 0.77:
            if self.has("session", "remove"):
                return b"remove " + name
        if draw < 0.83:
            return b"cost " + name
        if draw < 0.89:
            return b"table " + name
        if draw < 0.94:
            return b"moved"
        return self.strange_line(session, name)

    def strange_line(self, session, name):
        command, rest = self.request(session)
        usual = [b"%s %s" % (command, rest), b"cost " + name, b"table " + name, b"moved", b"load",
                 b"remove " + name, b"submit %s %s" % (command, rest), b"step 1",
                 b"write %s 0 1 00" % name, b"read %s 0 1" % name]
        words = self.pick(usual).split(b" ")
        at = self.random.randrange(len(words))
        kind = self.random.randrange(6)
        if kind == 0:
            del words[at]
        elif kind == 1:
            words.insert(at, self.pick(words))
        elif kind == 2:
            words[at] = self.pick(STRANGE_NUMBERS + STRANGE_BYTES + [b"READ", b"loads", b"help", b"#"])
        elif kind == 3:
            words.append(self.pick([b"1", b"x", b"", b"\x0b"]))
        elif kind == 4:
            return self.pick([b"", b" ", b"\t\r", b"\x0b", b"\x00", b"\xff\xfe", b"load ;", b"load;"])
        joint = self.pick([b" ", b"  ", b"\t", b"\r", b" \r", b"\x0b"])
        return self.pick([b"", b" ", b"\t"]) + joint.join(words) + self.pick([b"", b" ", b"\r"])

    def session_case(self):
        words = self.bindings()
        texts = []
        while self.has("targets", "verity") and self.chance(0.3) and len(texts) < 6:
            text = self.verity_entries(words)
            texts += [text] + [self.spoiled(text) for _ in range(self.pick([0, 1, 4]))] if text else []
        session = self.session_over(words)
        if self.chance(0.15):
            texts.append(self.holed_stack(session, True))
        lines, cuts = [], ()
        cut_at = self.random.randrange(20) if self.chance(0.15) else None
        for at in range(self.pick([6, 12, 20, 30, 40])):
            if at == cut_at:
                cuts = self.cut_short(words, session, lines)
            line = self.line(session, texts).replace(b"\n", b" ")
            lines.append(line)
            self.follow(session, line)
            if len(session.in_flight) > 3 and self.chance(0.4):
                self.finish(session, lines)
        if texts or self.chance(0.5):
            self.change_tree(session, lines)
        if self.chance(0.02):
            self.fill_up(session, lines)
        if self.chance(0.004) and not cuts:
            self.flood(lines)
        end = b"" if self.chance(0.2) else b"\n"
        # A hash block that is kept isn't read again, so what a cut takes of one is told without a cache alone.
        cache = [b"--cache=0"] if cuts else self.cache()
        cuts = cuts if session.stack.is_known else ()
        return [Run([b"session"] + cache + words, b"\n".join(lines + [b"moved"]) + end, cuts=cuts)]

    def cut_short(self, words, session, lines):
        """Cuts a file short that is bound, and reads about its new end; the cut."""
        bound_files = [word.split(b"=", 1) for word in words if b"=" in word]
        files = [(leaf, rest[3:]) for leaf, rest in bound_files if len(session.files.nodes.get(rest[3:], b"")) > 1024]
        if not files or not session.stack.configuration.leaves:
            return ()
        leaf, name = self.pick(files)
        lines.append(b"moved")
        sectors = len(session.files.nodes[name]) // 512
        end = self.below(sectors - 1)
        made = (len(lines), name, end * 512 + self.pick([0, 0, 1, 511]))
        del session.files.nodes[name][made[2]:]
        first, count = max(end - 1, 0), min(3, sectors - max(end - 1, 0))
        for line in [b"load gone,,,ro,0 %d linear %s 0" % (sectors, leaf), b"read gone %d %d" % (first, count),
                     b"read gone %d 1" % first, b"moved"]:
            lines.append(line)
            self.follow(session, line)
        return (made,)

    def change_tree(self, session, lines):
        """Reads a checked sector before and after a change of what its tree stands on."""
        devices = session.stack.configuration.devices
        checked = [name for name in devices if name.startswith(b"v")]
        if not checked:
            return
        self.finish(session, lines)
        name = self.pick(checked)
        read = b"read %s %d 1" % (name, self.below(devices[name].sectors - 1))
        changes = [b"remove " + self.pick(list(devices))]
        for device in devices.values():
            if device.name.startswith(b"tree"):
                octet = self.random.randrange(256)
                changes += [b"write %s 0 %d %02x" % (device.name, min(device.sectors, 2048), octet)] * 3
                changes += [b"write %s %d 1 %02x" % (device.name, self.below(device.sectors - 1), octet)] * 2
            if device.name == b"roots":
                changes += [b"load roots,,,ro,0 %d %s" % (device.sectors, self.pick([b"zero", b"error"]))] * 3
        for line in [read, self.pick(changes), read]:
            lines.append(line)
            self.follow(session, line)

    def cache(self):
        """The option of a cache, which changes no answer."""
        if self.chance(0.75):
            return []
        if self.chance(0.8):
            return self.pick([[b"--cache", b"0"], [b"--cache=4"], [b"--cache", b"65536"]])
        return self.pick([[b"--cache", b"65537"], [b"--cache="], [b"--cache", self.pick(STRANGE_NUMBERS)]])

    def follow(self, session, line):
        """Lets the model's session take a line; where it fails, the comparison will tell."""
        try:
            session.reply(line)
        except Exception:
            session.in_flight.clear()

    def finish(self, session, lines):
        """Steps all requests in flight to their ends, interleaved."""
        while session.in_flight:
            lines.append(b"step %d" % self.pick(list(session.in_flight)))
            self.follow(session, lines[-1])

    def flood(self, lines):
        """A line so long that the input is about as long as it may be, or longer."""
        rest = LIMIT - sum(len(line) + 1 for line in lines) - len(b"moved\n")
        lines.append(b"x" * (rest + self.pick([-9, -8, -7, -6, -2, -1, -1, 0, 0, 0, 1, 9])))

    def fill_up(self, session, lines):
        """More requests in flight than there may be."""
        devices = list(session.stack.configuration.devices)
        if devices and self.has("session", "submit"):
            lines += [b"submit read %s 0 1" % devices[0]] * 66
            lines += [b"read %s 0 1" % devices[0], b"load a,,,ro,0 1 zero", b"step 64"]
            lines += [b"read %s 0 1" % devices[0]]
