#!/bin/sh
# As over_cache.sh, with the short way of a hit, wrappers/over_cache_hit.c, compiled. Skipped where no compiler of C is there.
#
# LONG is the number of artefacts of 262,144 bytes in a long request: 8,191 make the longest that there is, of 2^31 bytes.
. "$TOP/tests/support/cache_parts.sh"
needs cc
wrappers/over_cache --build
parts cache_rows cache_kills cache_short
