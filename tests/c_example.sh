#!/bin/sh
# Builds the example for those who link the library, against the header and the library of dist/, which 'make lib' fills, and compares what it writes with
# examples/c/expected. The header is also read as C++. What is built goes to target/c_example/.
# Exit status: 0 passed; 1 the example ends with an error or writes something else; 2 something could not be built.
set -eu

cd "$(dirname "$0")/.."
. tools/kit.sh
[ -f dist/libtalung.a ] || die "no dist/libtalung.a: run 'make lib' first"

built=target/c_example
mkdir -p "$built"

compile_c /dev/null "$built/header.o" -x c++ -pedantic -Werror -include dist/talungbisay.h
compile_c examples/c/example.c "$built/example.o" -std=c99 -pedantic -Werror -O2 -I dist
link_program "$built/example" "$built/example.o" dist/libtalung.a

"$built/example" >"$built/wrote" || {
    cat "$built/wrote"
    echo "c example: failed, the program ended with an error"
    exit 1
}
diff examples/c/expected "$built/wrote" || {
    echo "c example: failed, it writes something else than examples/c/expected"
    exit 1
}
echo "c example: passed"
