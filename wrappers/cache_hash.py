"""The hashes by which a cache finds texts and entries, which bytes then decide, and the sum by which it sees what an accident has
changed. A test puts poor ones in place of the first two."""

import zlib

try:
    # (the module hashlib takes longer to import than a usual request to be hashed)
    from _blake2 import blake2b
except ImportError:
    from hashlib import blake2b

TEXT_DIGEST, ENTRY_DIGEST, SUM = 8, 20, 16


def text_digest(data):
    """Eight bytes. (A request has all texts below its file, so that a better hash would take longer than all else.)"""
    return zlib.crc32(data).to_bytes(4, "little") + (len(data) & 0xFFFFFFFF).to_bytes(4, "little")


def entry_digest(data):
    return blake2b(data, digest_size=ENTRY_DIGEST).digest()


def sum_of(data):
    return blake2b(data, digest_size=SUM, person=b"over_cache").digest()
