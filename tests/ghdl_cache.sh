#!/bin/sh
# wrappers/over_cache over GHDL's wrappers: clones and branches start GHDL for no file that somebody has compiled, tests are
# restored, and no hit rests on something else. With a compiler of C some of it runs with the short way of a hit. And the
# session of docs/user/CACHE.md. Skipped where ghdl isn't there, or isn't the one that is supported.
. "$TOP/tests/support/ghdl_parts.sh"
cp -R "$TOP/wrappers" wrappers
rm -f wrappers/over_cache_hit
CACHE_WRAPPERS=$PWD/wrappers
export CACHE_WRAPPERS
parts cache_ghdl cache_tests
if command -v cc >/dev/null; then
    wrappers/over_cache --build
    mkdir short
    (cd short && python3 "$TOP/tests/support/cache_ghdl.py" second_clone libraries_beside)
fi
sh "$TOP/tests/support/session.sh" docs/user/CACHE.md "A session"
