#!/bin/sh
# Builds the C library, links the C and C++ examples and the Rust comparison with it, and runs all three. What is not
# proved yet is proved first. What is built lies in target/, and in crates/*/out/. Exit status 0 or 1.
cd "$(dirname "$0")/.." || exit 1

fail() {
    echo "link: FAILED: $*"
    exit 1
}

mkdir -p target
tools/library.sh >target/link.log 2>&1 || { cat target/link.log; fail "the library is not built"; }

strict="-O2 -Wall -Wextra -Werror -pedantic -Iinclude"
library=target/staticlib/libcapi.a
cc -std=c99 $strict examples/reduce.c $library -o target/reduce || fail "reduce.c does not compile"
c++ -std=c++11 $strict examples/reduce.cpp $library -o target/reduce++ || fail "reduce.cpp does not compile"
for program in reduce reduce++; do
    "target/$program" >target/link.out || fail "$program ends with an error"
    cmp target/link.out examples/reduce.out || fail "$program prints something else than examples/reduce.out"
done
echo "link: the C and C++ examples print examples/reduce.out"

(cd bench && cargo build --release --offline --locked --quiet --bin compare) || fail "bench does not build"
target/bench/release/compare || fail "the library differs from the model"
echo "link: passed"
