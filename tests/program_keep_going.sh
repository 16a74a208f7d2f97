# After a refusal nothing more is started, or with -k all that doesn't depend on a refused file. What was printed is shown.
. "$TOP/tests/support/program.sh"

# A compiler that refuses the sources that say so, and leaves a mark for each start.
# shellcheck disable=SC2016
compiler='request=$(mktemp)
cat >"$request"
echo started >>starts
if refused=$(grep -a -o -m 1 -e "-- child: refuse .*" "$request"); then
    printf "%%s\\n" "${refused#-- child: refuse }"
    exit 1
fi
rm "$request"
'
project compiler.sh "$compiler" p.vhd '-- child: refuse bad p\npackage p is end;\n' u.vhd 'use work.p.all;\npackage u is end;\n' \
    v.vhd 'package v is end;\n' w.vhd 'use work.u.all;\npackage w is end;\n'
{ echo 'compiler = ["sh", "compiler.sh"]'; libraries lib:p.vhd,u.vhd,v.vhd,w.vhd; } >vunit.toml
TMPDIR=$PWD
export TMPDIR

# Compares how many compilers were started since the last time.
started() {
    touch starts
    if [ "$(wc -l <starts)" -ne "$1" ]; then
        echo "$(wc -l <starts) compilers were started, and not $1"
        failures=$((failures + 1))
    fi
    rm starts
}

expect "without -k" 1 "Compiling into lib: p.vhd failed
bad p
Compile failed" --compile --exit-0
started 1
expect "with -k" 1 "Compiling into lib: p.vhd failed
bad p
Compiling into lib: u.vhd skipped
Compiling into lib: v.vhd passed
Compiling into lib: w.vhd skipped
Compile failed" --compile -k --exit-0
started 2
expect "with -k once more: what passed is fresh" 1 "Compiling into lib: p.vhd failed
bad p
Compiling into lib: u.vhd skipped
Compiling into lib: w.vhd skipped
Compile failed" --compile -k -p 4
started 1
printf 'package p is end;\n' >p.vhd
expect "mended" 0 "Compiling into lib: p.vhd passed
Compiling into lib: u.vhd passed
Compiling into lib: w.vhd passed
Compile passed" --compile -k
started 3
expect "mended, and once more" 0 "Re-compile not needed" --compile
started 0
printf -- '-- child: refuse no\npackage w is end;\n' >w.vhd
printf -- '-- child: refuse neither\npackage v is end;\n' >v.vhd
expect "two that are refused" 1 "Compiling into lib: v.vhd failed
neither
Compiling into lib: w.vhd failed
no
Compile failed" --compile -k -p 2
started 2
printf 'use work.u.all;\npackage w is end;\n' >w.vhd
expect "a refused file that is edited back is fresh" 1 "Compiling into lib: v.vhd failed
neither
Compile failed" --compile
started 1

# The output and the end of a compiler: its text, and the program's.
shows() {
    name=$1
    said=$3
    project a.vhd 'package a is end;\n' compiler.sh "cat >request\n$2\n"
    { echo 'compiler = ["sh", "compiler.sh"]'; libraries lib:a.vhd; } >vunit.toml
    expect "$name" 1 "Compiling into lib: a.vhd failed
${said:+$said
}Compile failed" --compile
}
shows "nothing" 'exit 7' ''
shows "no line end" 'printf "two\\\\nlines"; exit 7' 'two
lines'
shows "a signal" 'echo gone; kill -9 $$' gone
shows "4,096 bytes and more" 'printf "%%5000s" x; exit 1' "$(printf '%4096s' '')"
# shellcheck disable=SC2016
shows "262,145 bytes of a compiler that ends with 0" 'head -c 262145 /dev/zero | tr "\\\\0" a' "$(head -c 4096 /dev/zero | tr '\0' a)"
shows "a word that is no file" 'exec no-such-command 2>no' ''
project a.vhd 'package a is end;\n'
{ echo 'compiler = ["sh", "-c", "cat >request; head -c 262144 /dev/zero"]'; libraries lib:a.vhd; } >vunit.toml
expect "262,144 bytes" 0 "Compiling into lib: a.vhd passed
Compile passed" --compile
expect "262,144 bytes, and once more" 0 "Re-compile not needed" --compile

# A compiler that can't be started is a fault, and the file isn't recorded.
{ echo 'compiler = ["./no-such-compiler"]'; libraries lib:a.vhd; } >vunit.toml
status=0
"$VUNIT_RUN" --compile >said 2>err </dev/null || status=$?
if [ "$status" != 3 ] || [ -s said ] || [ "$(cat err)" != "vunit_run: fault of start
vunit_run: ./no-such-compiler: start: No such file or directory (os error 2)" ]; then
    echo "no compiler: status $status, and it said:"
    cat said err
    failures=$((failures + 1))
fi

[ "$failures" -eq 0 ]
