"""The client of the language server: its messages, what is answered, and what it is told."""

import os, sys, traceback

from lsp_frames import (INTERNAL_ERROR, INVALID_PARAMS, INVALID_REQUEST, METHOD_NOT_FOUND, NOT_INITIALIZED, FrameFault, FrameReader,
                        NoMessage, frame_of, read_message)

CHUNK = 65536
# Kinds of a message that is shown or logged.
ERROR, WARNING, INFORMATION, LOG = 1, 2, 3, 4


class WrongParams(Exception):
    """A fault in the content of a message."""


def at(value, *keys, kind=dict, default=None):
    """What stands in an object at these keys, one in the other; the default where one of them is missing."""
    for key in keys:
        if not isinstance(value, dict) or key not in value:
            return default
        value = value[key]
    return value if isinstance(value, kind) and (kind is not int or not isinstance(value, bool)) else default


def needed(value, *keys, kind=dict):
    found = at(value, *keys, kind=kind)
    if found is None:
        raise WrongParams(f"{'.'.join(keys)} is missing, or of another form")
    return found


class Client:
    """Reads messages and has `server` answer them: an object with the dictionaries `requests` and `notifications`."""

    def __init__(self, loop, server):
        self.loop, self.server, self.reader = loop, server, FrameReader()
        self.is_initialized, self.is_shut, self.status, self.number = False, False, None, 0
        self.offers = {}
        loop.take_with(self.take)

    def take(self):
        part = os.read(self.loop.input, CHUNK)
        if not part:
            self.end(0 if self.is_shut else 1)
            return
        try:
            for text in self.reader.feed(part):
                self.handle(text)
                if self.status is not None:
                    return
        except FrameFault as fault:
            # (nobody can say where the next frame begins)
            self.fail(None, INVALID_REQUEST, str(fault))
            self.end(1)

    def end(self, status):
        if self.status is None:
            self.status = status
        self.loop.take_with(None)

    def handle(self, text):
        try:
            message = read_message(text)
        except NoMessage as fault:
            self.fail(None, fault.code, str(fault))
            return
        if "method" not in message:
            return
        name, params, number = message["method"], message.get("params"), message.get("id")
        try:
            self.answer(name, params, number) if "id" in message else self.note(name, params)
        except WrongParams as fault:
            self.fail(number, INVALID_PARAMS, str(fault)) if "id" in message else self.log(WARNING, f"{name}: {fault}")
        except Exception as fault:
            traceback.print_exc(file=sys.stderr)
            if "id" in message:
                self.fail(number, INTERNAL_ERROR, f"{type(fault).__name__}: {fault}")

    def answer(self, name, params, number):
        if name == "initialize" and not self.is_initialized:
            result = self.server.initialize(params if isinstance(params, dict) else {})
            self.is_initialized = True
        elif not self.is_initialized:
            self.fail(number, NOT_INITIALIZED, "the first request is initialize")
            return
        elif self.is_shut or name == "initialize":
            self.fail(number, INVALID_REQUEST, f"{name} has no answer any more")
            return
        elif name == "shutdown":
            self.is_shut, result = True, None
            self.server.shut()
        elif name in self.server.requests:
            result = self.server.requests[name](params)
        else:
            self.fail(number, METHOD_NOT_FOUND, f"there is no method {name}")
            return
        self.loop.write(frame_of({"id": number, "result": result}))

    def note(self, name, params):
        if name == "exit":
            self.end(0 if self.is_shut else 1)
        elif self.is_initialized and not self.is_shut and name in self.server.notifications:
            self.server.notifications[name](params)

    def fail(self, number, code, words):
        self.loop.write(frame_of({"id": number, "error": {"code": code, "message": words}}))

    def tell(self, name, params):
        self.loop.write(frame_of({"method": name, "params": params}))

    def ask(self, name, params):
        """Asks the client for something whose answer isn't waited for."""
        self.number += 1
        message = {"id": f"vunit_{self.number}", "method": name}
        self.loop.write(frame_of({**message, "params": params} if params is not None else message))

    def log(self, kind, text):
        self.tell("window/logMessage", {"type": kind, "message": text})

    def show(self, kind, text):
        self.tell("window/showMessage", {"type": kind, "message": text})


class Progress:
    """The progress of one run, in the client's own way; if it lacks one, as lines of its log."""

    def __init__(self, client, title, quiet=False):
        self.client, self.title, self.quiet, self.token = client, title, quiet, None

    def report(self, text):
        if not at(self.client.offers, "window", "workDoneProgress", kind=bool):
            if not self.quiet:
                self.client.log(INFORMATION, f"{self.title}: {text}")
        elif self.token is None:
            self.client.number += 1
            self.token = f"vunit_progress_{self.client.number}"
            self.client.ask("window/workDoneProgress/create", {"token": self.token})
            self.put({"kind": "begin", "title": self.title, "message": text})
        else:
            self.put({"kind": "report", "message": text})

    def end(self):
        if self.token is not None:
            self.put({"kind": "end"})

    def put(self, value):
        self.client.tell("$/progress", {"token": self.token, "value": value})
