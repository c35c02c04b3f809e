"""Random calls of `scan` and `copy`: devices of which sectors are lost, by changed blocks and by error lines beneath."""

from random_parts import Run
from random_sessions import Sessions
from tables import PREFIX


class Recoveries(Sessions):
    def recovery_runs(self, session, stack, words):
        """A device of this stack, or one of a stack of its own, is scanned once or twice."""
        if self.chance(0.8):
            words = self.bindings()
            for _ in range(3):
                text = self.verity_entries(words) if self.chance(0.7) else None
                text = text or self.holed_stack(self.session_over(words))
                session = self.session_over(words)
                self.follow(session, b"load " + text)
                if session.stack.configuration.devices:
                    break
            if self.chance(0.6):
                text += self.edges(session)
                self.follow(session, b"load " + text)
            self.change_files(words)
            stack = self.new_file(text + self.pick([b"", b"\n"]), b"stack")
        return [self.recovery_run(session, stack, words) for _ in range(self.pick([1, 1, 2]))]

    def edges(self, session):
        """A device whose last lines are checked sectors between error lines, so that runs of two faults may meet."""
        checked = [device for device in session.stack.configuration.devices.values() if device.name.startswith(b"v")]
        if not checked:
            return b""
        device = self.pick(checked)
        return b";both,,,ro,0 2 error,2 %d linear %s%s 0,%d 3 error" % (
            device.sectors, PREFIX, device.name, 2 + device.sectors)

    def change_files(self, words):
        """Changes bytes of some images, also of those over which a tree was made."""
        for word in words:
            path = word.rpartition(b":")[2]
            if isinstance(self.files.get(path), bytes) and self.files[path] and self.chance(0.4):
                content = bytearray(self.files[path])
                for _ in range(self.pick([1, 2, 4, 8])):
                    content[self.random.randrange(len(content))] ^= 1 << self.random.randrange(8)
                self.files[path] = bytes(content)

    def recovery_run(self, session, stack, words):
        """Goes over a device, often into an image that mostly is large enough."""
        devices = [device for device in session.stack.configuration.devices.values()
                   if self.is_short(session, device)]
        device = self.pick(devices[-1:] * 2 + devices) if devices and self.chance(0.97) else None
        name = device.name if device else self.pick([b"none", b"D", b""])
        options = self.pass_options()
        if self.has("forms", "disk") and self.chance(0.15):
            return self.bare_disk_run(options)
        if self.chance(0.25):
            return self.stream_run(device, stack, name, words)
        if self.chance(0.4):
            if self.has("forms", "json") and self.chance(0.4):
                options.append(self.pick([b"--json", b"--json", b"--chart"]))
            return Run([b"scan"] + options + self.stack_words(stack, name) + words, self.input_stack)
        sectors = (device.sectors if device else 4) + self.pick([0, 0, 0, 0, 1, 5, -1])
        content = self.content(3) * (sectors // 3 + 1)
        out = self.new_file(content[:sectors * 512 + self.pick([0, 0, 1, 511])], b"out")
        if self.chance(0.08):
            out = self.pick([b"missing", b".", b"/dev/null", b"./" + out, stack] + self.readable())
        if self.has("forms", "differing") and self.chance(0.3):
            options.insert(0, b"--differing")
        return Run([b"copy"] + options + self.stack_words(stack, name) + [out] + words, self.input_stack)

    def bare_disk_run(self, options):
        """Goes over all of a file, or a part of one, without a stack."""
        place = self.pick([*self.readable(), b"missing"]) + self.pick([b"", b"", b"", b"@0+1", b"@1+3", b"@2+0", b"#1"])
        words = [*options, b"--disk"]
        if self.chance(0.5):
            return Run([b"scan", *words, place])
        if self.chance(0.5):
            words.append(b"--grow")
        return Run([b"copy", *words, place, self.pick([b"grown", *self.readable()])])

    def stack_words(self, stack, name):
        """The stack's file and the device, the text of the first also as standard input."""
        self.input_stack = b""
        if self.has("forms", "input-stack") and self.chance(0.1) and isinstance(self.files.get(stack), bytes):
            self.input_stack = self.files[stack]
            stack = b"-"
        return [stack, name]

    def pass_options(self):
        """Options of a command that goes over a device."""
        words = []
        if self.has("forms", "pass-cache") and self.chance(0.2):
            words += [b"--cache", self.pick([b"0", b"1", b"64", b"65536", b"65537"])]
        if self.has("forms", "map") and self.chance(0.3):
            words += [b"--map", self.pick([b"map"] * 12 + [b"gone/map", b"/dev/null", *self.files])]
        if self.has("forms", "retries") and self.chance(0.1):
            words += [b"--retries", self.pick([b"0", b"1", b"3", b"x"])]
        return words

    def readable(self):
        """The files whose reading doesn't wait for a writer."""
        return [name for name, content in self.files.items() if content != "pipe"]

    def written_stack(self):
        """A device that may be written, of one line or several, some of them error lines."""
        sectors = self.pick([1, 3, 16, 127, 128, 129, 140, 257, 300])
        self.files[b"disk"] = self.content(5) * (sectors // 5 + 1)
        lines, at = [], 0
        while at < sectors:
            length = min(self.pick([sectors, sectors, 1, 5, 64, 128, 130]), sectors - at)
            kind = b"linear D %d" % at
            if self.chance(0.2):
                kind = b"error"
            elif self.has("targets", "crypt") and self.chance(0.15):
                kind = b"crypt aes-xts-plain64 %s 0 D %d" % (b"0123456789abcdef" * 4, at)
            lines.append(b"%d %d %s" % (at, length, kind))
            at += length
        flag = b"rw" if self.chance(0.95) else b"ro"
        stack = self.new_file(b"s,,,%s,%s\n" % (flag, b",".join(lines)), b"stack")
        return stack, b"s", sectors, [b"D=%s:disk" % (b"rw" if self.chance(0.95) else b"ro")]

    def stream_run(self, device, stack, name, words):
        """The bytes of a device out, or bytes into it."""
        if self.chance(0.5):
            stack, name, sectors, words = self.written_stack()
        else:
            sectors = device.sectors if device else 4
        first = self.pick([0, 0, 1, sectors // 2, sectors - 1, sectors, sectors + 1])
        options = [b"--first", b"%d" % first] if first or self.chance(0.2) else []
        if self.chance(0.1):
            options.append(b"--cache=%d" % self.pick([0, 1, 65536]))
        if self.has("forms", "progress") and self.chance(0.1):
            options.append(b"--progress")
        if self.chance(0.5):
            if self.chance(0.4):
                options += [b"--count", b"%d" % max(0, self.pick([0, 1, sectors - first, sectors - first + 1]))]
            return Run([b"cat"] + options + self.stack_words(stack, name) + words, self.input_stack)
        room = max(0, sectors - first)
        size = self.pick([0, 1, room, room, room + 1, 3]) * 512 + self.pick([0, 0, 0, 0, 1, 511, -1])
        content = (self.content(3) * (max(0, size) // 1536 + 1))[:max(0, size)]
        if self.has("forms", "store-file") and self.chance(0.5):
            source = self.new_file(content, b"source")
            if self.chance(0.05):
                source = self.pick([b"missing", b".", stack, *self.readable()])
            return Run([b"store"] + options + [stack, name, source] + words)
        return Run([b"store"] + options + [stack, name, b"-"] + words, content)

    def is_short(self, session, device):
        """Whether the model goes over a device in a short time."""
        configuration = session.stack.configuration
        most = 400 if self.is_sealed(configuration, device) else 20000
        return device.sectors <= 3000 and device.sectors * configuration.read_cost(device) <= most
