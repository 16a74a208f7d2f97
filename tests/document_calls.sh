# `main` reaches each function that documents say the program calls, and none that they say tests alone call. Documents say it
# by phrases, by the steps in TOUR and by the rows of crates in PROMISES: see tests/support/document_calls.py. Then wrong
# sentences and rows are planted in copies of the pages, over sources with a function that nothing calls; each must be named.
# Prints what isn't so. Ends with 0, with 1 where something isn't, and with 77 where python3 is missing.
room=$PWD
cd -- "${TOP:-$(dirname -- "$0")/..}" || exit 1
. tests/support/needs.sh
needs python3
PYTHONDONTWRITEBYTECODE=1
export PYTHONDONTWRITEBYTECODE
[ "$room" != "$PWD" ] || room=$(mktemp -d)

python3 tests/support/document_calls.py || exit 1

mkdir -p "$room/crates/order" && cp crates.txt "$room" || exit 1
for crate in crates/*; do
    [ "$crate" = crates/order ] || ln -s "$PWD/$crate" "$room/crates" || exit 1
done
cp -R crates/order/src "$room/crates/order" || exit 1
printf '%s\n' 'fn never_called() -> u64 {' '    0' '}' >>"$room/crates/order/src/ordering.rt"

# plant WANTED PAGE EDIT: after an edit of a page by sed, exactly WANTED is printed
cases=0
plant() {
    cases=$((cases + 1))
    rm -rf "$room/docs" && cp -R docs README.md "$room" || exit 1
    sed "$3" "$2" >"$room/$2" || exit 1
    said=$(python3 tests/support/document_calls.py "$room" 2>/dev/null)
    [ $? -ne 1 ] || [ "$said" != "$1" ] || return 0
    echo "with '$3' in $2: expected '$1', found '$said'"
    exit 1
}

decisions=docs/DECISIONS.md tour=docs/TOUR.md
plant "$decisions: nothing on the way from main calls never_called" $decisions '$a - `order` and `never_called`, which the program calls.'
plant "$decisions: nothing on the way from main calls never_called" $decisions '$a - Of these the program calls `never_called`.'
plant "$decisions: never_written is no function of the program" $decisions '$a - `never_written`, which the program calls.'
plant "$decisions: minimal_graph is called on the way from main" $decisions '$a - `minimal_graph`, which tests alone call.'
plant "$tour, graph: nothing on the way from main calls never_called" $tour 's/ordering.rt`: `order`/ordering.rt`: `never_called`/'
plant "$tour, graph: order_graph isn't in order/src/ordering.rt" $tour 's/ordering.rt`: `order`/ordering.rt`: `order_graph`/'
plant "$tour, graph: graph_of isn't in order/src/ordering.rt" $tour 's/ordering.rt`: `order`/ordering.rt`: `graph_of`/'
plant "$tour has no table of steps" $tour 's/^| Step |/| Turn |/'
plant "$tour, graph: there is no file order/src/orders.rt" $tour 's/ordering.rt`: `order`/orders.rt`: `order`/'
plant "docs/proof/PROMISES.md, order: nothing on the way from main calls never_called" docs/proof/PROMISES.md '$a \
\
| Crate | Promise | State | By |\
|---|---|---|---|\
| `order` | `never_called`: exactly the order. | proved | |'
echo "$cases planted cases are named"
