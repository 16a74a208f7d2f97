# Each function of the program's crates is reached from `main`, but for those of tests/support/reached.txt, which has a reason
# for each. It reads the sources as text. Then the same is tried over copies of the sources: one with a function, one with a
# method and one with a method of a trait that nothing calls, and one with a needless row in reached.txt. Each must be named.
# Prints what isn't so. Ends with 0, with 1 where something isn't, and with 77 where python3 is missing.
room=$PWD
cd -- "${TOP:-$(dirname -- "$0")/..}" || exit 1
. tests/support/needs.sh
needs python3
[ "$room" != "$PWD" ] || room=$(mktemp -d)

python3 tests/support/reached.py --lines || exit 1

# plant NAME WANTED FILE TEXT: with TEXT at the end of FILE, exactly WANTED is printed
plant() {
    mkdir -p "$room/$1/crates" && cp crates.txt "$room/$1" || exit 1
    for crate in crates/*; do
        ln -s "$PWD/$crate" "$room/$1/crates" || exit 1
    done
    crate=${3%%/src/*}
    rm "$room/$1/$crate" && mkdir -p "$room/$1/$crate" && cp -R "$crate/src" "$room/$1/$crate" || exit 1
    printf '%s\n' "$4" >>"$room/$1/$3"
    said=$(python3 tests/support/reached.py "$room/$1" 2>/dev/null)
    if [ $? -eq 1 ] && [ "$said" = "$2" ]; then
        return
    fi
    echo "$1: expected '$2', found '$said'"
    exit 1
}

order=crates/order/src/lib.rt
plant function "order never_called" "$order" 'fn never_called() -> u64
    ensures answer { result ≡ 7 }
{
    never_called()
}'
plant method "order Planted::never_called" "$order" 'struct Planted;
impl Planted {
    fn never_called(&self) -> u64 {
        0
    }
}'
plant trait_method "order Calls::never_called
order Planted::never_called" "$order" 'trait Calls {
    fn never_called(&self) -> u64;
}
struct Planted;
impl Calls for Planted {
    fn never_called(&self) -> u64 {
        0
    }
}'
plant tested "order never_called" "$order" 'fn never_called() -> u64 {
    0
}
#[cfg(test)]
mod planted {
    use crate::never_called;

    #[test]
    fn calls_it() {
        assert!(never_called() == 0);
    }
}'
plant needless "the row vhdl_spec some_scanner of reached.txt names nothing that main does not reach" crates/vunit_run/src/main.rt \
    'static PLANTED: fn() = vhdl_spec::some_scanner;'
echo "5 planted cases are named"
