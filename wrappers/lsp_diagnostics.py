"""What an editor shows at lines of files: the findings of several sources, put together file by file, and told where they change."""

import os, urllib.parse

from vhdl_words import end_of_token

SOURCE = "vunit_run"
MESSAGE_LIMIT = 8192


def uri_of(path):
    return "file://" + urllib.parse.quote(os.fsencode(path), safe="/~!$&'()*+,;=:@")


def path_of(uri):
    """The path of a file's URI, or None where it is of another scheme or has no such path."""
    if not isinstance(uri, str):
        return None
    try:
        parts = urllib.parse.urlsplit(uri)
    except ValueError:
        return None
    path = os.fsdecode(urllib.parse.unquote_to_bytes(parts.path))
    return path if parts.scheme == "file" and parts.netloc in ("", "localhost") and path.startswith("/") and "\0" not in path else None


class Shown:
    """The diagnostics of a project. `text` gives the text of a path, for its lines; `version` that of an open buffer, or None."""

    def __init__(self, client, folder, text, version):
        self.client, self.folder, self.text, self.version = client, folder, text, version
        self.by_source, self.told, self.moved = {}, {}, set()

    def put(self, source, findings, stays=None):
        """Replaces what a source has found, but those diagnostics that stay: `stays` says it of a path and a diagnostic."""
        before, found = self.by_source.get(source, {}), {}
        if stays:
            found = {path: [one for one in shown if stays(path, one)] for path, shown in before.items()}
        for finding in findings:
            found.setdefault(os.fsdecode(finding.path), []).append(self.diagnostic(finding))
        self.by_source[source] = found
        for path in {**before, **found, **dict.fromkeys(self.moved)}:
            if path in self.moved or before.get(path, []) != found.get(path, []):
                self.tell(path)

    def tell(self, path):
        shown = []
        for found in self.by_source.values():
            # (a check and a build may say the same)
            shown += [one for one in found.get(path, ()) if one not in shown] if shown else found.get(path, ())
        if shown == self.told.get(path, []) and path not in self.moved:
            return
        self.moved.discard(path)
        shown = [dict(one) for one in shown]
        if shown:
            self.told[path] = shown
        else:
            self.told.pop(path, None)
        message = {"uri": self.uri(path), "diagnostics": shown}
        version = self.version(path)
        self.client.tell("textDocument/publishDiagnostics", message if version is None else {**message, "version": version})

    def uri(self, path):
        return uri_of(os.path.join(self.folder, path))

    def range(self, path, place):
        """The range of a place; without a place, that of the first line."""
        text = self.text(path)
        if place is None:
            place = 0, len(text.lines[0].rstrip(b"\r\n"))
        start, end = place
        if end <= start:
            end = end_of_token(text.data(), start)
        return text.range(start, end)

    def diagnostic(self, finding):
        path = os.fsdecode(finding.path)
        shown = {"range": self.range(path, finding.place), "severity": finding.severity, "source": SOURCE,
                 "message": message_of(finding.text)}
        if finding.code:
            shown["code"] = finding.code
        if finding.related:
            shown["relatedInformation"] = [
                {"location": {"uri": self.uri(os.fsdecode(other)), "range": self.range(os.fsdecode(other), place)},
                 "message": message_of(finding.text).partition("\n")[0]} for other, place in finding.related]
        return shown

    def move(self, path, start, end, new_end):
        """Moves the findings of a buffer along with a change of its text from `start` to `end`, which then ends at
        `new_end`."""
        for found in self.by_source.values():
            for diagnostic in found.get(path, ()):
                place = diagnostic["range"]
                diagnostic["range"] = {side: moved(place[side], start, end, new_end) for side in ("start", "end")}
        if path in self.told:
            # (a client moves them too, each in its own way)
            self.moved.add(path)


def moved(position, start, end, new_end):
    """Where a position is after a change."""
    line, character = position["line"], position["character"]
    if (line, character) < end:
        line, character = min((line, character), start)
    elif line == end[0]:
        line, character = new_end[0], character - end[1] + new_end[1]
    else:
        line += new_end[0] - end[0]
    return {"line": line, "character": character}


def message_of(text):
    shown = text.decode("utf-8", "replace")
    return shown if len(shown) <= MESSAGE_LIMIT else shown[:MESSAGE_LIMIT] + " .."
