"""Tries the mutations of one crate, many in one check."""
import re
import resource
from dataclasses import dataclass, field

from kit import checked, is_refused
from planted import proofs_below

ONE_JOB = ["--jobs", "1"]
# Said of an edit whose refusal says little of the contract: change a value and keep the names.
WEAK = ", only because a proof file names what the edit took away"


def cpu():
    used = resource.getrusage(resource.RUSAGE_CHILDREN)
    return used.ru_utime + used.ru_stime


@dataclass
class Round:
    """What one check of many edits said."""

    said: str
    # The line of each function, by its name.
    functions: dict = field(default_factory=dict)
    # The first and last line of each edit's function in the edited text.
    rows: dict = field(default_factory=dict)


class Trial:
    """The edits of one crate."""

    def __init__(self, crate, edits, kept):
        self.crate, self.edits, self.kept = crate, edits, kept
        # What is known of which function's edit hides that of another: for each function those that it rests on.
        functions = [it.function for it in edits if it.function]
        below = proofs_below(crate) if len(functions) > 1 else {}
        self.below = {f.pattern: {g.pattern for g in functions if g.proof() in below.get(f.proof(), ())} for f in functions}

    def plant(self, edits):
        """The texts of the files with these edits, and the lines of each edit's function in them."""
        texts, rows = {}, {}
        for path in {it.path for it in edits}:
            with open(f"{self.crate.folder}/{path}", "rb") as it:
                text = it.read()
            for edit in sorted((it for it in edits if it.path == path), key=lambda it: -it.start):
                text = text[: edit.start] + edit.text + text[edit.end :]
            moved = 0
            for edit in sorted((it for it in edits if it.path == path), key=lambda it: it.start):
                first = text.count(b"\n", 0, edit.function.start + moved) + 1
                moved += len(edit.text) - (edit.end - edit.start)
                rows[edit.file] = path, first, text.count(b"\n", 0, edit.function.end + moved) + 1
            texts[path] = text.decode()
        return texts, rows

    def check(self, edits):
        """Checks the functions of these edits, with all of the edits."""
        texts, rows = self.plant(edits)
        words = [it.function.only for it in edits]
        only = [word for it in words for word in ("--only", it)] if all(words) else []
        ran = checked(self.crate, texts, [*ONE_JOB, *only], self.kept)
        if only and "` has no function `" in ran.stdout:
            ran = checked(self.crate, texts, ONE_JOB, self.kept)
        found = dict(re.findall(r"^fn (\S+): (.*)$", ran.stdout, re.M))
        return Round(ran.stdout, found, rows)

    def goal(self, edit, tried):
        """The goal of the edit's own function that was not proved, or nothing."""
        for name, line in tried.functions.items():
            if not re.fullmatch(edit.function.pattern, name):
                continue
            if "it calls" in line or not line.startswith(("no proof", "not proved")):
                continue
            goal = re.search(r"did not prove `([^`]*)`", line)
            if goal and edit.function.has(goal[1]):
                return goal[1]
            goal = self.refused_answer(edit, tried)
            if goal:
                return goal
        return ""

    def refused_answer(self, edit, tried):
        """The goal whose written answer was refused, or that has none; last those that name what the edit took away."""
        folder = "|".join(edit.function.folders())
        lines = re.findall(rf"^\./proofs/(?:{folder})/\S+: error: `([^`]*)`: (.*)$", tried.said, re.M)
        lines = [it for it in lines if edit.function.has(it[0])]
        strong = [goal for goal, why in lines if not re.search(r"has no field|is not in scope|has no `|was not admitted", why)]
        if strong:
            return strong[0]
        path, first, last = tried.rows[edit.file]
        for row, goal in re.findall(rf"^note: {re.escape(path)}:(\d+):\d+: it is not proved .*?\(`([^`]*)`\)", tried.said, re.M):
            if first <= int(row) <= last:
                return goal
        return f"{lines[0][0]}{WEAK}" if lines else ""

    def hidden_by(self, edit, tried, chosen):
        """The edited functions because of which nothing was said of the edit's own: those that it calls, and those of its cycle."""
        left = [it for it in tried.functions if re.fullmatch(edit.function.pattern, it)]
        seen, found = {*left}, set()
        while left:
            line = tried.functions.get(left.pop(), "")
            if "it calls" not in line:
                continue
            for name in re.findall(r"`([^`]*)`", line.partition("it calls")[2]):
                found |= {it.function.pattern for it in chosen if re.fullmatch(it.function.pattern, name)}
                left += [] if name in seen else [name]
                seen.add(name)
        found |= {it.function.pattern for it in chosen if it.function.cycle and it.function.cycle == edit.function.cycle}
        return found - {edit.function.pattern}

    def choice(self, left):
        """As many edits as one round can judge, as far as that is known."""
        chosen, keys, below = [], set(), set()
        for edit in left:
            key = edit.function.pattern
            if key not in keys and key not in below and not self.below.get(key, set()) & keys:
                chosen.append(edit)
                keys.add(key)
                below |= self.below.get(key, set())
        return chosen

    def unread(self, edits, tried):
        """The edits whose text does not compile, where the check got no further than that."""
        errors = re.findall(r"(src/\S+?\.rt):(\d+):\d+", tried.said)
        found = []
        for edit in edits:
            path, first, last = tried.rows[edit.file]
            if any(at == path and first <= int(row) <= last for at, row in errors):
                found.append(edit)
        return found or edits[: (len(edits) + 1) // 2]

    def rounds(self, edits):
        """Tries edits in rounds, and returns those that no round could judge."""
        left, single = [*edits], []
        while left:
            chosen, before = self.choice(left), cpu()
            tried = self.check(chosen)
            if not tried.functions:
                taken = self.unread(chosen, tried)
                single += taken
                left = [it for it in left if it not in taken]
                continue
            for edit in chosen:
                edit.refusal = self.goal(edit, tried)
                edit.seconds += (cpu() - before) / len(chosen)
            judged = []
            for edit in chosen:
                hidden_by = set() if edit.refusal else self.hidden_by(edit, tried, chosen)
                self.below.setdefault(edit.function.pattern, set()).update(hidden_by)
                judged += [] if hidden_by else [edit]
            judged = judged or chosen
            single += [it for it in judged if not it.refusal]
            left = [it for it in left if it not in judged]
        return single

    def try_singly(self, edit):
        before = cpu()
        refused, text = is_refused(self.crate, edit.file, ONE_JOB, self.kept)
        edit.seconds, edit.way = edit.seconds + cpu() - before, "single"
        said = text.partition(": ")[2]
        if refused:
            is_weak = "only because a proof file names" in said
            said = said.removeprefix("refused, as it must be").lstrip(": ") or "the crate is not proved"
            edit.refusal = f"the crate is not proved{WEAK}" if is_weak else said
        else:
            edit.error = said.removeprefix("NOT REFUSED: ")

    def run(self, is_single):
        """Tries every edit, says so, and returns how many were refused."""
        sound = [it for it in self.edits if not it.error]
        single = sound if is_single else [it for it in sound if not it.function]
        if not is_single:
            single = single + self.rounds([it for it in sound if it.function])
        for edit in single:
            self.try_singly(edit)
        for edit in self.edits:
            said = f"refused: {edit.refusal}" if edit.refusal else f"NOT REFUSED: {edit.error}"
            way = f"{edit.way}, {edit.seconds:.0f} s" if edit.seconds else "not tried"
            print(f"{edit.label()}: {said} ({way})")
        return sum(bool(it.refusal) for it in self.edits), sum(WEAK in it.refusal for it in self.edits)
