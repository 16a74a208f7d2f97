"""What an interpreter that is too old does of a wrapper, by a text that it can read."""

import os, sys


def hand_over(oldest, module, shim, *words):
    """Becomes the command SHIM, which may know a newer interpreter; without one, says so and ends."""
    if shim:
        os.execv(shim, [shim, "-IS", sys.argv[0], module, ""] + list(words))
    sys.stderr.write("%s: python3 is older than %d.%d\n" % ((module,) + oldest))
    # (the runner writes the whole request before it reads)
    while os.read(0, 65536):
        pass
    sys.exit(75)
