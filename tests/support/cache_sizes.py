"""What tests add to the folder of wrappers/over_cache, four at once: at most three times the artefacts that they are over. TESTS is the number
of tests, and that of artefacts of 8 KB each. Works in the present folder."""

import os
from bench_requests import Run
from cache_places import NO_KEY, CachePlace
from engines import all_at_once

SIMULATOR = NO_KEY + 'cat >/dev/null\nprintf "test_start:one\\ntest_suite_done\\n" >"$RESULTS"\n'
ARTEFACT, AT_ONCE = 8_192, 4

count = int(os.environ.get("TESTS", "16"))
place = CachePlace("sizes", SIMULATOR)
built = [(b"lib", b"d%d.vhd" % at, os.urandom(ARTEFACT)) for at in range(count)]


def run(number):
    run = Run(built, b"lib", b"tb_%d" % number, b"sim", [b"one"])
    os.makedirs(place.path(os.fsdecode(run.folder)))
    found = place.run(run.request(), ["--data="], RESULTS=os.fsdecode(run.results))
    assert found == (0, b"", b""), f"test {number}: it is {found}"


all_at_once([lambda number=number: run(number) for number in range(count)], AT_ONCE)
assert len(place.files(".entry1")) == count, "not all tests were kept"
added = sum(os.lstat(path).st_blocks * 512 for path in place.files())
assert added <= 3 * count * ARTEFACT, f"{count} tests have added {added} bytes"
print(f"tried: {count} tests, which add {added / count / ARTEFACT:.2f} times the artefacts")
