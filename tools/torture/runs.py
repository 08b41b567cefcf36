"""Runs of the program on a case, held against what the model says; a run that is wrong is kept with all that it was given."""

import dataclasses
import os
import shlex
import shutil
import subprocess
import tempfile

import model

# No run takes this long, in seconds, unless it hangs.
LONG = 30


@dataclasses.dataclass
class Ended:
    """How a run ended: its status, or None where it hung; below 0 it is a signal. What it wrote, and what it said."""

    status: object
    written: bytes
    said: bytes


class Room:
    """A folder for one run after another: in `tiles` the files of a case, beside it what goes in and comes out."""

    def __init__(self, program):
        self.program = program
        self.folder = tempfile.mkdtemp(prefix="citymerge-torture-")
        self.tiles = os.path.join(self.folder, "tiles")

    def path(self, name):
        return os.path.join(self.folder, name)

    def close(self):
        shutil.rmtree(self.folder, ignore_errors=True)

    def furnish(self, case):
        """Puts the files of a case where a run finds them."""
        shutil.rmtree(self.tiles, ignore_errors=True)
        os.mkdir(self.tiles)
        for name, given in case.files.items():
            path = os.path.join(self.tiles, name)
            if given is not model.MISSING and given.fails:
                os.mkdir(path)
            elif given is not model.MISSING:
                write(path, given.data)
        write(self.path("in"), case.given.data)

    def run(self, case, more=None):
        """Runs a case that was furnished, with these variables beside the environment's."""
        source = self.tiles if case.given.fails else self.path("in")
        given = os.open(source, os.O_RDONLY)
        with open(self.path("out"), "wb") as out, open(self.path("errors"), "wb") as errors:
            child = subprocess.Popen([self.program, *case.words], cwd=self.tiles, stdin=given, stdout=out, stderr=errors,
                                     env={**os.environ, **(more or {})})
            os.close(given)
            try:
                status = child.wait(LONG)
            except subprocess.TimeoutExpired:
                child.kill()
                child.wait()
                status = None
        return Ended(status, read(self.path("out")), read(self.path("errors")))

    def keep(self, where, case, what, answer, more=None):
        """Copies what the last run was given and what came of it; answers the folder."""
        os.makedirs(where, exist_ok=True)
        folder = tempfile.mkdtemp(prefix="wrong-", dir=where)
        for name in ("in", "out", "errors"):
            shutil.copy(self.path(name), folder)
        shutil.copytree(self.tiles, os.path.join(folder, "tiles"))
        source = "." if case.given.fails else "../in"
        variables = "".join("%s=%s " % (name, shlex.quote(value)) for name, value in (more or {}).items())
        if os.path.exists(self.path("page")):
            shutil.copy(self.path("page"), folder)
            variables = variables.replace(shlex.quote(self.path("page")), "../page")
        command = "cd tiles && %s%s <%s" % (variables, shlex.join([self.program, *case.words]), source)
        write(os.path.join(folder, "command"), (command + "\n").encode())
        write(os.path.join(folder, "what"), ("%s\nThe model: %r\n" % (what, answer)).encode())
        return folder


def write(path, data):
    with open(path, "wb") as file:
        file.write(data)


def read(path):
    with open(path, "rb") as file:
        return file.read()


def abnormal(ended):
    """What is wrong with a run that hung or ended by a signal, or None."""
    if ended.status is None:
        return "it hung"
    return "it ended by signal %d" % -ended.status if ended.status < 0 else None


def wrong(answer, ended):
    """What is wrong with a run to which nothing was refused, or None."""
    if abnormal(ended):
        return abnormal(ended)
    if ended.status != answer.status:
        return "status %d, and %d is right; it said %r" % (ended.status, answer.status, ended.said)
    if ended.said != answer.said.encode():
        return "it said %r, and %r is right" % (ended.said, answer.said)
    if answer.stream is None:
        return "it wrote %d bytes, and none are right" % len(ended.written) if ended.written else None
    return None if answer.stream.is_written(ended.written) else "it wrote what the model does not"
