# Builds the C program NAME of this folder with the library of `bench_library`, as $work/NAME. $work goes when the caller ends.
#
# usage: . "$(dirname "$0")/scanner.sh" NAME
cd "$(dirname "$0")" || exit 1
kit=$(dirname "$(rt doc)")
while [ ! -f "$kit/c/liblibc_c.a" ]; do kit=$(dirname "$kit"); done
work=$(mktemp -d)
trap 'rm -rf "$work"' EXIT
(cd ../crates/bench_library && rt lib >"$work/log" 2>&1) || { tail -5 "$work/log"; exit 1; }
${CC:-cc} -O2 -o "$work/$1" "$1.c" ../crates/bench_library/out/libbench_library.a "$kit/c/liblibc_c.a"
