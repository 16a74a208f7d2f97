# SIGKILL of bin/prove while it proves and builds leaves no process and no lock, and the next proof is right.
exec sh "$TOP/tests/support/kills.sh" proved 10 20
