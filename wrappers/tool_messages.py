"""Messages between vunit_configs and the programs that stand for the simulator in its runs: lists of bytes, in a stream. A list is
its length as four bytes, and then each of its items as the length in four bytes and the item."""


def packed(*items):
    body = b"".join([part for item in items for part in (len(item).to_bytes(4, "little"), item)])
    return len(body).to_bytes(4, "little") + body


def unpacked(body):
    items, at = [], 0
    while at < len(body):
        end = at + 4 + int.from_bytes(body[at : at + 4], "little")
        items.append(body[at + 4 : end])
        at = end
    return items


class Messages:
    """The messages of a stream, as its bytes come."""

    def __init__(self):
        self.left = bytearray()

    def taken(self, data):
        """The messages that are whole with these bytes."""
        self.left += data
        found, at = [], 0
        while len(self.left) - at >= 4:
            end = at + 4 + int.from_bytes(self.left[at : at + 4], "little")
            if end > len(self.left):
                break
            found.append(unpacked(bytes(self.left[at + 4 : end])))
            at = end
        del self.left[:at]
        return found
