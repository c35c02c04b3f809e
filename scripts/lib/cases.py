"""Cases of the form that case.sh describes, for scripts that run the program many times on each."""
import argparse
import os
import shutil
import subprocess

MOST_SECONDS = 120
TOP = os.path.dirname(os.path.dirname(os.path.dirname(os.path.realpath(__file__))))


def read_file(path):
    with open(path, "rb") as it:
        return it.read()


def lines_of(text):
    return text.split(b"\n")[:-1]


def program_and_names(description, folder):
    """What a script over the cases of a folder is given, `[--program FILE] [NAME..]`: the program, which is built if no other one is named,
    and the cases' names."""
    parser = argparse.ArgumentParser(description=description)
    parser.add_argument("--program")
    parser.add_argument("names", nargs="*")
    words = parser.parse_args()
    if not words.program:
        subprocess.run([f"{TOP}/scripts/lib/built.sh", "dmstack"], check=True)
    return os.path.realpath(words.program or f"{TOP}/crates/dmstack/out/dmstack"), words.names or sorted(os.listdir(folder))


class Case:
    """A case in a folder of its own, from whose files each run starts anew; `before` may import the modules of scripts/model."""

    def __init__(self, folder, room):
        self.folder, self.room, self.start, self.files = folder, room, f"{room}/start", f"{room}/files"
        self.words = lines_of(self.text("args"))
        self.given = self.text("stdin")
        if os.path.isdir(f"{folder}/files"):
            shutil.copytree(f"{folder}/files", self.start, symlinks=True)
        else:
            os.mkdir(self.start)
        if self.has("before"):
            path = {**os.environ, "PYTHONPATH": f"{TOP}/scripts/model", "PYTHONDONTWRITEBYTECODE": "1"}
            subprocess.run(["bash", f"{folder}/before"], cwd=self.start, env=path, check=True)

    def has(self, name):
        return os.path.exists(f"{self.folder}/{name}")

    def text(self, name):
        """The text of a file of the case; an empty one where it isn't there."""
        return read_file(f"{self.folder}/{name}") if self.has(name) else b""

    def renew(self):
        """The files as they are before a run."""
        shutil.rmtree(self.files, ignore_errors=True)
        shutil.copytree(self.start, self.files, symlinks=True)

    def run(self, program, settings, given=None):
        """The run of the program over the files as they are, with these settings of the environment: output and status."""
        return subprocess.run([program, *self.words], input=self.given if given is None else given, cwd=self.files,
                              env={**os.environ, **settings}, capture_output=True, timeout=MOST_SECONDS, check=False)
