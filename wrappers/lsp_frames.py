"""Frames of the language server protocol: a header with the length of a JSON text in bytes, and that text."""

# Why it is so:
# It uses Python's standard library: python3-pylsp-jsonrpc accepts any length that a frame names, and does not answer invalid
# messages.

import json

# Bytes of a header, and of a text: one of the 4 MiB that a source may have, with each letter escaped, and some more.
HEADER_LIMIT, TEXT_LIMIT = 8192, 67_108_864
PARSE_ERROR, INVALID_REQUEST, METHOD_NOT_FOUND, INVALID_PARAMS, INTERNAL_ERROR = -32700, -32600, -32601, -32602, -32603
NOT_INITIALIZED = -32002


class FrameFault(Exception):
    """Why no further frame can be found in what a client sends."""


class NoMessage(Exception):
    """Why a text is not a message: the code of the protocol, and words."""

    def __init__(self, code, words):
        super().__init__(words)
        self.code = code


def length_in(header):
    """The length that a header names."""
    lengths = set()
    for line in header.split(b"\r\n"):
        name, colon, value = line.partition(b":")
        if not colon:
            raise FrameFault("a line of a header has no colon")
        if name.strip().lower() == b"content-length":
            lengths.add(value.strip())
    if len(lengths) != 1:
        raise FrameFault("a header has no Content-Length, or two")
    length = lengths.pop()
    if not length.isdigit() or len(length) > 18:
        raise FrameFault("a Content-Length is no number")
    if int(length) > TEXT_LIMIT:
        raise FrameFault(f"a frame is longer than {TEXT_LIMIT} bytes")
    return int(length)


class FrameReader:
    """The texts of frames, whatever the parts are in which they come."""

    def __init__(self):
        self.data, self.length = bytearray(), None

    def feed(self, part):
        """The texts that are whole with these bytes."""
        self.data += part
        while True:
            if self.length is None:
                end = self.data.find(b"\r\n\r\n", 0, HEADER_LIMIT + 4)
                if end < 0:
                    if len(self.data) > HEADER_LIMIT:
                        raise FrameFault(f"a header is longer than {HEADER_LIMIT} bytes")
                    return
                self.length = length_in(bytes(self.data[:end]))
                del self.data[: end + 4]
            if len(self.data) < self.length:
                return
            text, self.length = bytes(self.data[: self.length]), None
            del self.data[: len(text)]
            yield text


def read_message(text):
    """The object in a text, if it is a message: a request, a notification or an answer."""
    try:
        message = json.loads(text)
    except (ValueError, RecursionError):
        raise NoMessage(PARSE_ERROR, "no JSON text") from None
    if not isinstance(message, dict) or message.get("jsonrpc") != "2.0":
        raise NoMessage(INVALID_REQUEST, "no message of JSON-RPC 2.0")
    if not isinstance(message.get("id", 0), (int, str, type(None))) or not isinstance(message.get("method", ""), str):
        raise NoMessage(INVALID_REQUEST, "its id or its method is of another form")
    if "method" not in message and "result" not in message and "error" not in message:
        raise NoMessage(INVALID_REQUEST, "it is no request, no notification and no answer")
    return message


def frame_of(message):
    text = json.dumps({"jsonrpc": "2.0", **message}, ensure_ascii=False, separators=(",", ":")).encode("utf-8", "replace")
    return b"Content-Length: %d\r\n\r\n%s" % (len(text), text)
