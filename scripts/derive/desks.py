"""Desks and sinks in memory, of which some calls fail."""

from .faults import Fault


class Calls:
    """Counted calls, numbered from 1, of which those of some numbers fail."""

    def __init__(self, fails):
        self.fails = fails
        self.count = 0

    def check(self):
        self.count += 1
        if self.count in self.fails:
            raise Fault("Failed")


class Desk:
    """Files by name. A calm one has an empty file under each name that it wasn't given."""

    def __init__(self, files, fails=(), calm=False):
        self.files = dict(files)
        self.calls = Calls(fails)
        self.calm = calm

    def read(self, name, most):
        self.calls.check()
        if name not in self.files and not self.calm:
            raise Fault("Failed")
        file = self.files.get(name, b"")
        if len(file) > most:
            raise Fault("TooLong", max=most)
        return file

    def write(self, name, data):
        self.calls.check()
        self.files[name] = data


class Sink:
    """Takes at most so many bytes in a put; None takes all."""

    def __init__(self, most=None, fails=()):
        self.most = most
        self.calls = Calls(fails)
        self.taken = b""

    def put(self, data):
        self.calls.check()
        taken = data[: self.most]
        self.taken += taken
        return len(taken)

    def put_all(self, data):
        while data:
            data = data[self.put(data) :]
