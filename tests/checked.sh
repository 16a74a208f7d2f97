# A checked program of the real toolchain: a body that is wrong ends by SIGILL, with status 132, and goes on with no wrong value. The
# crate is a small one, of which nothing could be proved.
. "$TOP/tests/support/needs.sh"
needs rt flock
set -eu
case $(rt version </dev/null) in
    rattle-kit*) ;;
    *) skip "the command rt isn't the toolchain's" ;;
esac
unset VUNIT_RUN_QUIET
mkdir -p repo/.git repo/crates/vunit_run/src repo/crates/vunit_run/specs repo/crates/vunit_run/proofs repo/examples
cp -R "$TOP/bin" repo
cp -R "$TOP/examples/counter" repo/examples
echo 'vunit_run:' >repo/crates.txt
echo 'Handles allowed: none.' >repo/HANDLES
cat >repo/crates/vunit_run/src/main.rt <<'END'
//! Ends with the item of a list at the offset that the last word gives, wherever that is.
#![tactic(auto)]

use std::env;
use std::process::ExitCode;

static NUMBERS: &[u8] = &[0, 1, 2, 3];

fn main(rt: HostRuntime) -> ExitCode {
    let mut last = 2;
    if let Ok(args) = env::args(&rt) {
        for word in args.skip(1) {
            if word.as_str() == "-f" {
                let _ = println!(rt; "lib, src/counter_pkg.vhd\nlib, src/counter.vhd\nlib, src/board.vhd\ntb_lib, tb/tb_counter.vhd\nListed 4 files");
                return ExitCode::from(0);
            }
            if let Ok(at) = word.as_str().parse::<usize>() {
                last = NUMBERS[at];
            }
        }
    }
    ExitCode::from(last)
}
END
ulimit -c 0

# Starts the program, and compares its status.
ends() {
    status=0
    repo/bin/vunit_run "$2" >said 2>told || status=$?
    if [ "$status" -ne "$1" ]; then
        echo "$2: status $status, and not $1; it said:"
        cat said told
        exit 1
    fi
}
ends 3 3
grep -q "the checked program is built, after" told || { cat told; exit 1; }
ends 0 -f
[ "$(tail -n 1 said)" = "Listed 4 files" ]
[ "$(cat told)" = "vunit_run: checked build, NOT PROVED: there is no PROVED to read" ] || { cat told; exit 1; }
ends 1 1
for at in 4 5 1000000 18446744073709551615; do ends 132 "$at"; done
# what it was built in is gone
[ -z "$(find repo/.git repo/out -name 'vunit_checked' -o -name 'new-*')" ]
