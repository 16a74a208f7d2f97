"""A client of a language server, written from the protocol: it shares no code with the server."""

import json, os, queue, subprocess, threading, time


class Ended(Exception):
    """The server has ended."""


class Client:
    """Starts a server and talks to it. `offers` are the client's capabilities."""

    def __init__(self, command, folder, offers=None, options=None, env=None, root=None, begin=True):
        self.folder, self.number, self.shown, self.texts = os.path.abspath(folder), 0, {}, []
        self.process = subprocess.Popen(command, stdin=subprocess.PIPE, stdout=subprocess.PIPE, stderr=subprocess.PIPE, cwd=folder, env=env)
        self.came, self.errors, self.messages, self.asked = queue.Queue(), b"", [], []
        self.threads = [threading.Thread(target=work, daemon=True) for work in (self.read, self.read_errors)]
        for thread in self.threads:
            thread.start()
        if begin:
            params = {"processId": None, "rootUri": self.uri("") if root is None else root, "capabilities": offers or {}}
            if options is not None:
                params["initializationOptions"] = options
            self.answered = self.request("initialize", params)
            self.notify("initialized", {})

    def uri(self, path):
        """The URI of a path, in which each byte but letters, digits and a few marks is written by its number."""
        whole = os.path.join(self.folder, path).rstrip("/").encode()
        return "file://" + "".join(chr(byte) if chr(byte).isalnum() and byte < 128 or byte in b"/-_.~" else "%%%02X" % byte for byte in whole)

    def read(self):
        stream = self.process.stdout
        while True:
            length = None
            while (line := stream.readline()) not in (b"\r\n", b""):
                name, _, value = line.partition(b":")
                if name.lower() == b"content-length":
                    length = int(value)
                elif name.lower() != b"content-type":
                    self.came.put(("not a header", line))
            if line == b"" or length is None:
                self.came.put(None if line == b"" else ("no length", line))
                return
            self.came.put(json.loads(stream.read(length)))

    def read_errors(self):
        while part := os.read(self.process.stderr.fileno(), 4096):
            self.errors += part

    def send(self, data):
        self.process.stdin.write(data)
        self.process.stdin.flush()

    def frame(self, message):
        text = json.dumps({"jsonrpc": "2.0", **message}).encode()
        return b"Content-Length: " + str(len(text)).encode() + b"\r\n\r\n" + text

    def notify(self, method, params):
        self.send(self.frame({"method": method, "params": params}))

    def request(self, method, params, seconds=60):
        """The answer to a request: its result, or its error as an object with `code`."""
        self.number += 1
        self.send(self.frame({"id": self.number, "method": method, "params": params}))
        answer = self.wait(lambda message: message.get("id") == self.number and "method" not in message, seconds)
        return answer["result"] if "result" in answer else answer["error"]

    def next(self, seconds):
        """The next message, or None where none comes in these seconds."""
        try:
            message = self.came.get(timeout=max(0.001, seconds))
        except queue.Empty:
            return None
        if message is None:
            self.came.put(None)
            raise Ended
        if not isinstance(message, dict):
            raise AssertionError(f"not a frame: {message}")
        self.messages.append(message)
        self.take(message)
        return message

    def take(self, message):
        if message.get("method") == "textDocument/publishDiagnostics":
            params = message["params"]
            self.shown[params["uri"]] = params["diagnostics"]
        elif "method" in message and "id" in message:
            self.asked.append(message)
            self.send(self.frame({"id": message["id"], "result": None}))
        elif message.get("method") in ("window/showMessage", "window/logMessage"):
            self.texts.append((message["method"], message["params"]["message"]))

    def wait(self, holds, seconds=60):
        """The next message of which this holds."""
        until = time.monotonic() + seconds
        while time.monotonic() < until:
            message = self.next(until - time.monotonic())
            if message is not None and holds(message):
                return message
        raise AssertionError(f"no such message in {seconds} seconds; shown: {self.shown}; errors: {self.errors[-2000:]}")

    def wait_until(self, holds, seconds=60):
        """Takes messages until this holds."""
        until = time.monotonic() + seconds
        while not holds():
            if time.monotonic() > until:
                return False
            self.next(min(0.2, until - time.monotonic()))
        return True

    def diagnostics(self, path):
        return self.shown.get(self.uri(path), [])

    def open(self, path, text, version=1):
        self.notify("textDocument/didOpen", {"textDocument": {"uri": self.uri(path), "languageId": "vhdl", "version": version, "text": text}})

    def change(self, path, text, version, place=None):
        """Replaces a buffer, or what is between two places of it, each a line and a unit."""
        change = {"text": text}
        if place:
            change["range"] = {side: {"line": at[0], "character": at[1]} for side, at in zip(("start", "end"), place)}
        self.notify("textDocument/didChange", {"textDocument": {"uri": self.uri(path), "version": version}, "contentChanges": [change]})

    def save(self, path):
        self.notify("textDocument/didSave", {"textDocument": {"uri": self.uri(path)}})

    def leave(self, seconds=60):
        """Ends the server by the protocol. Gives its status."""
        self.request("shutdown", None)
        self.notify("exit", None)
        return self.end(seconds)

    def end(self, seconds=60):
        """Closes what the server reads, and waits for its end."""
        try:
            self.process.stdin.close()
        except BrokenPipeError:
            pass
        status = self.process.wait(seconds)
        for thread in self.threads:
            thread.join(seconds)
        self.process.stdout.close()
        self.process.stderr.close()
        return status
