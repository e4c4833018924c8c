# What ./words and ./text share, to be sourced at the top of the repository after tools/kit.sh: a filter is built on first use, from filters/ and the library that
# 'make lib' makes, which proves all that it stands on.

run_filter() { # NAME: with standard input and output passed through
    built=target/filters
    [ -x "$built/$1" ] || alone build_filter "$1" || exit
    "$built/$1"
}

build_filter() { # NAME: unless it was built meanwhile; one line is said, and what the kit says where it fails
    [ ! -x "$built/$1" ] || return 0
    printf '%s: building the program, once\n' "$1" >&2
    mkdir -p "$built" || die "no folder $built"
    if ! [ -f dist/libtalung.a ]; then
        make --no-print-directory lib </dev/null >"$built/lib.log" 2>&1 || {
            cat "$built/lib.log" >&2
            die "the library could not be built"
        }
    fi
    for part in filter "$1"; do
        compile_c "filters/$part.c" "$built/$part.o" -std=c11 -pedantic -Werror -O2 -I dist -I filters
    done
    link_program "$built/$1.linked" "$built/filter.o" "$built/$1.o" dist/libtalung.a
    mv "$built/$1.linked" "$built/$1" || die "no program $built/$1"
}
