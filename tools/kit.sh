# What the scripts share, to be sourced at the top of the repository: where the Rattle kit is, and how the library or a program is built of the crates, something
# is built alone, a C file compiled and a program linked. All that is built is for x86-64 Linux, as the kit is, and runs by itself.

die() { # WORDS...: something could not be built
    printf '%s: %s\n' "${0##*/}" "$*" >&2
    exit 2
}

rt=$(command -v rt) || die "no rt on the path"
kit=$(dirname "$(readlink -f "$rt")")/..
toolchain=$kit/toolchain
[ -x "$toolchain/bin/clang" ] || die "the kit of $rt has no C compiler"

alone() { # COMMAND...: while nothing else is built here, since two builds at once would write the same files; the later one waits
    if ! command -v flock >/dev/null 2>&1; then
        { apt-get update && apt-get install -y util-linux; } >&2
    fi
    (flock 9 && "$@") 9<.
}

# What rt ci has proved it leaves in crates/*/out, and other commands of rt do not take it: they prove it once more. Nothing there says which sources it is of, and
# where libraries stood there before, these stand there again after the run. So after a run that found none and passed, the sum of the sources is noted. A library
# that another command of rt has built since has a file 'stamp' beside it.
there_is() { # FILES...: whether a pattern of names fits any
    [ -e "$1" ]
}

sum_of_sources() { # of the kit and of all that the library and the programs are made of
    {
        rt version
        find crates -path 'crates/*/out' ! -path 'crates/*/*/out' -prune -o \( -name '*.rt' -o -name '*.antt' \) -print |
            LC_ALL=C sort | xargs sha256sum crates.txt
    } | sha256sum
}

note_proved() { # after a run of rt ci that found no libraries and passed
    mkdir -p target && sum_of_sources >target/proved
}

is_proved() { # whether what stands in crates/*/out is what rt ci proved of the sources as they are
    ! there_is crates/*/out/rlib/stamp && [ -f target/proved ] && [ "$(cat target/proved)" = "$(sum_of_sources)" ]
}

# The library's own crate is thin. The kit's compiler checks it over the libraries that rt ci proved, and makes the archive.
compile_library() {
    set -- --crate-name talung_c --crate-type staticlib crates/talung_c/src/lib.rt --extern "std=$kit/rlibs/std.rlib" -L "dependency=$kit/rlibs"
    for crate in $(sed -n 's/^talung_c staticlib://p' crates.txt); do
        set -- "$@" --extern "$crate=crates/$crate/out/rlib/$crate.rlib"
    done
    for folder in crates/*/out/rlib; do
        set -- "$@" -L "dependency=$folder"
    done
    mkdir -p crates/talung_c/out
    "$kit/bin/rattle" build "$@" --antt-project "$kit/rattle/logic/antt-project.json" --logic-built "$kit/logic_built" --toolchain "$toolchain" \
        -o crates/talung_c/out/libtalung_c.a
}

build_library() { # dist/libtalung.a and its header, of the sources as they are; what they stand on is proved first, unless rt ci has just done it
    { is_proved && compile_library; } || (cd crates/talung_c && rt lib) || return
    mkdir -p dist && cp crates/talung_c/out/libtalung_c.a dist/libtalung.a && cp include/talungbisay.h dist/
}

build_program() { # NAME: crates/NAME/out/NAME, of the sources as they are; what rt says is told where it fails
    if is_proved && [ -x "crates/$1/out/$1" ]; then
        return 0
    fi
    mkdir -p target || die "no folder target"
    # rt runs what it has built, here on an input that is empty
    (cd "crates/$1" && rt run </dev/null) >"target/$1.log" 2>&1 || {
        cat "target/$1.log" >&2
        die "the program could not be built"
    }
}

compile_c() { # SOURCE OBJECT WORDS...: with C's headers as far as tools/headers/ declares them, since the kit has none
    source=$1 object=$2
    shift 2
    "$toolchain/bin/clang" --target=x86_64-linux-gnu -march=x86-64 -Wall -Wextra -nostdinc -isystem tools/headers "$@" -c "$source" -o "$object" ||
        die "$source does not compile"
}

link_program() { # PROGRAM OBJECTS...
    program=$1
    shift
    "$kit/bin/rattle-link" --target x86_64-unknown-linux-gnu --toolchain "$toolchain" -o "$program" "$@" 2>"$program.log" || {
        cat "$program.log" >&2
        die "$program does not link"
    }
}
