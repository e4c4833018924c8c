# What bench/run.sh and bench/count.sh share, to be sourced at the top of the repository after tools/kit.sh: how the benchmark's parts are compiled, to
# target/bench/, and how its program is linked. It needs dist/, which 'make lib' fills.
[ -f dist/libtalung.a ] || die "no dist/libtalung.a: run 'make lib' first"

built=target/bench
mkdir -p "$built"

compile() { # FILE OBJECT WORDS...
    file=bench/$1 object=$built/$2
    shift 2
    compile_c "$file" "$object" -std=c11 -I dist "$@"
}

compile_parts() {
    parts=''
    for part in driver measure growth checks calls sheets openings searches texts grown sites; do
        compile "$part.c" "$part.o" -O2
        parts="$parts $built/$part.o"
    done
    versions=''
    counting=''
    for version in list plain; do
        compile "$version.c" "$version.o" -O3
        versions="$versions $built/$version.o"
        compile "$version.c" "counting-$version.o" -O3 -DCOUNT_TRIPLES
        counting="$counting $built/counting-$version.o"
    done
    for version in list_search plain_search plain_read plain_text; do
        compile "$version.c" "$version.o" -O3
        versions="$versions $built/$version.o"
        counting="$counting $built/$version.o"
    done
}

link_bench() { # PROGRAM SHIFT: with the code of all versions moved on by SHIFT bytes
    compile shift.S shift.o "-DSHIFT=$2"
    # shellcheck disable=SC2086
    link_program "$1" $parts "$built/shift.o" $versions dist/libtalung.a
}

link_counting() { # PROGRAM: whose plain versions count the triples that they look at
    # shellcheck disable=SC2086
    link_program "$1" $parts $counting dist/libtalung.a
}
