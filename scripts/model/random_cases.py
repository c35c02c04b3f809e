"""Random cases: files, command lines and sessions, most of them valid.

The model is asked which devices stand while a session is made, so that its lines name them.
"""

from dataclasses import replace

from random_images import Images
from random_parts import Case, Run
from random_services import Services
from random_updates import Updates
from strange_words import STRANGE_NUMBERS


class Maker(Services, Images, Updates):
    """Makes one case."""

    def case(self):
        makers = [(self.session_case, 51), (self.stack_case, 14), (self.image_case, 16),
                  (self.words_case, 7), (self.tree_case, 20), (self.disk_case, 6)]
        if self.has("commands", "nbd"):
            makers.append((self.service_case, 14))
        if self.has("commands", "update"):
            makers.append((self.update_case, 10))
        made, = self.random.choices([maker for maker, _ in makers], [share for _, share in makers])
        return Case(self.files, made())

    def stack_case(self):
        words = self.bindings()
        text = None
        if self.has("targets", "verity") and self.chance(0.2):
            text = self.verity_entries(words)
        session = self.session_over(words)
        if self.chance(0.15):
            text = text or self.holed_stack(session, True)
        text = text or self.stack_text(session)
        if self.chance(0.25):
            text = self.spoiled(text)
        self.follow(session, b"load " + text.replace(b"\n", b" "))
        text = b"".join(
            b"\n" if octet == 32 and self.chance(0.1) else bytes([octet]) for octet in text)
        stack = self.new_file(text + self.pick([b"", b"\n"]), b"stack")
        if self.chance(0.03):
            stack = self.spoiled_stack_file(text, stack)
        runs = []
        for _ in range(self.pick([1, 2, 3])):
            draw = self.random.random()
            if draw < 0.3:
                form = [self.pick([b"--json", b"--json", b"--tree"])] if self.has("forms", "json") and self.chance(0.4) else []
                runs.append(Run([b"load"] + form + [stack] + words))
            elif draw < 0.65 or not self.has("commands", "write"):
                _, rest = self.request(session)
                rest = (rest.split(b" ") + [b"0"] * 3)[:3]
                runs.append(Run([b"read"] + self.cache() + [stack] + rest + words))
            else:
                runs.append(self.write_run(session, stack, words))
        if self.has("forms", "input-stack"):
            runs = [self.from_input(run, stack) if self.chance(0.08) else run for run in runs]
        runs = [self.spoiled_words(run) if self.chance(0.06) else run for run in runs]
        if self.has("commands", "scan") and self.chance(0.8):
            more = self.recovery_runs(session, stack, words)
            runs += [self.spoiled_words(run) if self.chance(0.06) else run for run in more]
        return runs

    def from_input(self, run, stack):
        """The same run with the stack's text as standard input."""
        text = self.files.get(stack)
        if not isinstance(text, bytes):
            return run
        return replace(run, words=[b"-" if word == stack else word for word in run.words], given=text)

    def spoiled_stack_file(self, text, stack):
        kind = self.random.randrange(4)
        if kind == 0:
            self.files[b"dir"] = "directory"
            return self.pick([b"dir", b"."])
        if kind == 1:
            return self.pick([b"missing", b"/dev/null", b""])
        size = 1024 * 1024 + self.pick([-1, 0, 1])
        self.files[stack] = text.ljust(size) if kind == 2 else b" " * size
        return stack

    def write_run(self, session, stack, words):
        _, rest = self.request(session)
        name, first, count = (rest.split(b" ") + [b"0"] * 3)[:3]
        wide = [device for device in session.stack.configuration.devices.values() if len(device.lines) > 1]
        if wide and self.chance(0.5):
            device = self.pick(wide)
            name, at = device.name, max(0, self.pick(device.lines[1:]).start - self.pick([1, 2, 3, 9]))
            most = min(device.sectors - at, self.most_sectors(session, device))
            first, count = self.decimal(at), b"%d" % min(self.pick([2, 4, 8, 60]), most)
        size = min(int(count), 60) * 512 if count.isdigit() and len(count) < 20 else 512
        if self.chance(0.1):
            size = max(0, size + self.pick([-512, -1, 1, 511]))
        if self.chance(0.05):
            size = self.pick([2047, 2048, 2049, 2050]) * 512 + self.pick([0, 0, 0, -1, 1])
            if isinstance(self.files.get(stack), bytes):
                self.files[stack] += b";big,,,rw,0 %d zero" % self.pick([2048, 2049, 5000])
                name, first = b"big", b"0"
        content = self.content(min(size // 512 + 1, 61))
        source = self.new_file((content * (size // len(content) + 1))[:size], b"source")
        if self.chance(0.05):
            bound = [word.rpartition(b":")[2] for word in words]
            files = [name for name, content in self.files.items() if content != "pipe"]
            source = self.pick([b"missing", b".", b"", stack] + files + [path for path in bound if path in files])
        return Run([b"write"] + self.cache() + [stack, name, first, source] + words)

    def words_case(self):
        kind = self.random.randrange(6)
        if kind == 0:
            runs = self.image_case()
        elif kind == 5:
            runs = self.tree_case()
        elif kind == 1:
            runs = self.stack_case()
        elif kind == 2 and self.has("commands", "nbd"):
            runs = self.service_case()
        elif kind == 3:
            runs = [Run([b"session"] + self.cache() + self.bindings(), b"moved\n")]
        else:
            words = [self.pick([b"", b"load", b"read", b"write", b"session", b"format", b"verify", b"dump",
                                b"table", b"repair", b"nbd", b"help", b"--help", b"-h", b"--version", b"Load", b"x"])]
            words += [self.pick([b"data", b"--", b"-", b"--help", b"-x", b"--cache=1", b"a=zero:1"])
                      for _ in range(self.random.randrange(5))]
            return [Run(words[:self.random.randint(0, 5)], b"moved\n")]
        return [self.spoiled_words(run) for run in runs]

    def spoiled_words(self, run):
        """A command line with one word changed."""
        words = list(run.words)
        at = self.random.randrange(len(words))
        kind = self.random.randrange(6)
        if kind == 0:
            del words[at]
        elif kind == 1:
            words.insert(at, words[at])
        elif kind == 2:
            words[at] = self.pick(STRANGE_NUMBERS + [b"", b"missing", b"--", b"--cache", b"x=y"])
        elif kind == 3:
            words.insert(at, self.pick([b"--", b"-", b"--help", b"-h", b"--cache=1", b"--salt=-",
                                        b"--blocks=1", b"--sal=-", b"-c", b"x", b""]))
        elif kind == 4:
            other = self.random.randrange(len(words))
            words[at], words[other] = words[other], words[at]
        else:
            words.append(self.pick([b"x", b"--cache=1", b"K=zero:1", b"-", b"--"]))
        if words and words[0] == b"format":
            drawn = [name for name in (b"--salt", b"--uuid")
                     if not any(word.split(b"=")[0] == name for word in words)]
            words[1:1] = [word for name in drawn for word in (name, b"00" * (1 if name == b"--salt" else 16))]
        return replace(run, words=words)


def random_case(seed, features):
    return Maker(seed, features).case()
