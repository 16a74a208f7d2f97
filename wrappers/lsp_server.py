"""The methods of the language server, over one project."""

# Why it is so:
# It links and follows only a folder with a project file, not any folder that an editor has opened, as a home.

import os

from lsp_client import Client, WrongParams, at, needed
from lsp_diagnostics import path_of
from lsp_loop import Loop
from lsp_project import Project
from tool_folder import ToolFolder

INCREMENTAL = 2
SLOTS_LIMIT = 64
COMMANDS = ["vunit_run.test", "vunit_run.compile"]


class Settings:
    """What a client asks for: columns, when to compile, and how many compilers and simulators at once."""

    def __init__(self, params):
        offers = at(params, "capabilities", default={})
        self.offers = offers
        encodings = at(offers, "general", "positionEncodings", kind=list, default=[])
        self.units = "utf-8" if "utf-8" in encodings else "utf-16"
        self.refreshes_lenses = bool(at(offers, "workspace", "codeLens", "refreshSupport", kind=bool))
        self.compiles_on_save, self.slots = True, max(1, min(SLOTS_LIMIT, (os.cpu_count() or 1) // 2))
        self.environment = {**os.environ, "VUNIT_RUN_QUIET": "1"}
        self.environment.pop("VUNIT_REPORT", None)
        self.take(at(params, "initializationOptions", default={}))

    def take(self, options):
        self.compiles_on_save = at(options, "compileOnSave", kind=bool, default=self.compiles_on_save)
        self.slots = max(1, min(SLOTS_LIMIT, at(options, "numThreads", kind=int, default=self.slots)))


def root_of(params):
    """The folder that a client has open; the present one where it names none."""
    folders = at(params, "workspaceFolders", kind=list, default=[])
    root = at(params, "rootUri", kind=str) or (at(folders[0], "uri", kind=str) if folders else None)
    path = path_of(root) if root else at(params, "rootPath", kind=str)
    return os.path.normpath(path) if path else os.getcwd()


def place_in(range_):
    """The two places of a range, each a line and a unit."""
    places = [(needed(range_, side, "line", kind=int), needed(range_, side, "character", kind=int)) for side in ("start", "end")]
    if min(min(place) for place in places) < 0 or places[0] > places[1]:
        raise WrongParams("a range is none")
    return places


class Server:
    def __init__(self, program, loop, room):
        self.program, self.loop, self.room, self.project = program, loop, room, None
        self.requests = {"textDocument/codeLens": self.lenses, "workspace/executeCommand": self.execute}
        self.notifications = {
            "textDocument/didOpen": self.opened, "textDocument/didChange": self.changed, "textDocument/didClose": self.closed,
            "textDocument/didSave": self.saved, "workspace/didChangeConfiguration": self.configured,
            "workspace/didChangeWatchedFiles": self.watched,
        }
        self.client = Client(loop, self)

    def initialize(self, params):
        settings = Settings(params)
        self.client.offers = settings.offers
        self.project = Project(self.client, self.loop, self.program, root_of(params), self.room, settings)
        return {
            "capabilities": {
                "positionEncoding": settings.units,
                "textDocumentSync": {"openClose": True, "change": INCREMENTAL, "save": {"includeText": False}},
                "codeLensProvider": {"resolveProvider": False},
                "executeCommandProvider": {"commands": COMMANDS},
            },
            "serverInfo": {"name": "vunit_lsp"},
        }

    def shut(self):
        self.project.end()

    def path(self, params, is_open=False):
        """The path in the project that a message is about; None where the file lies elsewhere, or its buffer isn't open."""
        path = self.project.path_in(needed(params, "textDocument", "uri", kind=str))
        return None if is_open and path not in self.project.buffers else path

    def opened(self, params):
        text = needed(params, "textDocument", "text", kind=str)
        if path := self.path(params):
            self.project.open(path, text, at(params, "textDocument", "version", kind=int))

    def changed(self, params):
        changes = needed(params, "contentChanges", kind=list)
        if path := self.path(params, is_open=True):
            for change in changes:
                text = needed(change, "text", kind=str)
                place = place_in(needed(change, "range")) if at(change, "range") else None
                self.project.change(path, place, text, at(params, "textDocument", "version", kind=int))

    def closed(self, params):
        if path := self.path(params):
            self.project.close(path)

    def saved(self, params):
        if self.path(params):
            self.project.saved()

    def configured(self, params):
        settings = at(params, "settings", default={})
        self.project.settings.take(at(settings, "vunit_run", default=settings))

    def watched(self, _):
        self.project.has_new_names = True
        self.project.changed()

    def lenses(self, params):
        path = self.path(params)
        return self.project.lenses(path) if path else []

    def execute(self, params):
        """Begins with a task, whose end the client is told by messages and diagnostics."""
        command, names = needed(params, "command", kind=str), at(params, "arguments", kind=list, default=[])
        if command == "vunit_run.compile":
            self.project.builds.compile()
        elif command == "vunit_run.test":
            if not names or not all(isinstance(name, str) and name and not name.startswith("-") and "\0" not in name for name in names):
                raise WrongParams("its arguments are names of tests or of benches")
            self.project.builds.test(names)
        else:
            raise WrongParams(f"there is no command {command}")
        return None


def run_server(program):
    """Serves one client, and gives the status to end with."""
    # (nothing but messages goes to the client)
    output = os.dup(1)
    os.dup2(2, 1)
    with ToolFolder("vunit_lsp") as room:
        loop = Loop(0, output)
        server = Server(program, loop, os.fspath(room))
        try:
            while server.client.status is None and not loop.is_closed:
                loop.turn()
            loop.put()
        finally:
            if server.project:
                server.project.end()
    return server.client.status if server.client.status is not None else 1
