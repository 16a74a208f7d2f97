# SIGKILL of a start while it builds a checked program leaves no process and no lock, and the next start is right.
exec sh "$TOP/tests/support/kills.sh" checked 14 40
