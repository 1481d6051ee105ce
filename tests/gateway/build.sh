# For sourcing by bash in the repository's root, with `set -o pipefail`: what rt and the C compiler build here, and how it runs. It is for
# x86-64. On Arm Debian's cross compiler builds C programs, and the emulator of the Rattle kit runs them; it lies beside rt's own tools.
#
#   archive LOG             writes target/staticlib/libgateway.a where it is older than the crates; rt's words go to LOG
#   compile SOURCE PROGRAM  builds a C program
#   run PROGRAM [WORD..]    runs it
#   find_loader             sets `built`, the words in front of a program that rt has built
#
# And for the scripts of the root, ./cdx and ./roll, each of which has a `program` and runs it by its own function `start`:
#
#   say WORD..              a line on standard error
#   fail WORD..             the same, and the end, with status 2
#   is_old FILE OTHER..     whether a file is missing, or older than one of the others or what lies in them
#   need TOOL WHY           goes on only where the program can be built with this tool
#   prove LOG VERB NAME     has rt prove and build a crate, and tells on standard error how far it is; rt's words go to LOG
#   take NAME FILE TO       puts what rt has built of a crate in its place

# The folder of the kit's tools.
toolchain() {
    printf '%s/../toolchain' "$(dirname "$(readlink -f "$(command -v rt)")")"
}

# The machine is asked of bash, not of uname, which would cost every call of ./cdx a process.
case $HOSTTYPE in
x86_64*)
    compiler=gcc
    emulator=()
    ;;
aarch64*)
    compiler=x86_64-linux-gnu-gcc
    emulator=("$(toolchain)/bin/qemu-x86_64")
    ;;
*)
    echo "tests/gateway/build.sh: neither x86-64 nor Arm, but $HOSTTYPE" >&2
    exit 1
    ;;
esac

# What rt makes, in a folder `out` of each crate, is no source.
is_old() {
    [ ! -f "$1" ] || [ -n "$(find "${@:2}" -name out -prune -o -newer "$1" -print -quit)" ]
}

say() {
    printf '%s: %s\n' "${program##*/}" "$*" >&2
}

fail() {
    say "$*"
    exit 2
}

# Whether files can be made in the program's folder.
can_write() {
    mkdir -p "${program%/*}" 2>/dev/null && [ -w "${program%/*}" ]
}

# Where the tool is missing, or nothing may be written, a program that was built before is started as it is.
need() {
    local why=$2
    if command -v "$1" >/dev/null; then
        ! can_write || return 0
        why="the program is to be built, and you may not write in ${program%/*}; build in a copy of your own"
    fi
    [ -x "$program" ] || fail "$why"
    say "$why. So what answers is older than its sources"
    start
}

# How many crates rt proves for one: itself, and all that it stands on, which come before it in crates.txt.
count_crates() { # NAME
    tac crates.txt | awk -F '[: ]+' -v name="$1" '
        BEGIN { wanted[name] }
        NF && $1 in wanted { count++; for (i = 2; i <= NF; i++) wanted[$i] }
        END { print count }'
}

# Passes on which crates rt proves, up to the last, with how many are left at most: of those that did not change rt says nothing.
pass_on() { # COUNT LAST
    local left=$1 begin=$SECONDS name='' line
    while IFS= read -r line; do
        case $line in
        'crate '*': modules '*)
            name=${line#crate }
            name=${name%%:*}
            ;;
        'logic=proved '*)
            left=$((left - 1))
            [ "$name" != "$2" ] || left=0
            printf '%s is proved, in %s seconds; at most %s left\n' "$name" $((SECONDS - begin)) "$left" >&2 || true
            begin=$SECONDS
            ;;
        esac
    done
}

# The folders `out` are made first, since a crate's own folder would look changed when rt makes one for another program.
prove() {
    local crate
    for crate in crates/*/; do
        mkdir -p "$crate"out
    done
    (cd "crates/$3" && rt "$2") 2>&1 </dev/null | tee "$1" | pass_on "$(count_crates "$3")" "$3"
}

take() { # NAME FILE TO
    mkdir -p "${3%/*}"
    cp "crates/$1/out/$2" "$3.$$"
    mv "$3.$$" "$3"
}

# Only the crate gateway is proved again; what it stands on is taken as rt has proved it, where nothing changed since.
archive() {
    is_old target/staticlib/libgateway.a crates crates.txt || return 0
    prove "$1" lib gateway || {
        tail -n 20 "$1"
        return 1
    }
    take gateway libgateway.a target/staticlib/libgateway.a
}

compile() {
    "$compiler" -std=c11 -O2 -Wall -Wextra -Werror -static -Iinclude "$1" target/staticlib/libgateway.a -o "$2"
}

run() {
    "${emulator[@]}" "$@"
}

# The kit's loader with the kit's C library; where the kit is not there, nothing, so that Debian's own are used.
find_loader() {
    local tools
    tools=$(toolchain)
    built=("${emulator[@]}")
    if [ -x "$tools/lib/ld-linux-x86-64.so.2" ]; then
        built+=("$tools/lib/ld-linux-x86-64.so.2" --library-path "$tools/lib")
    fi
}
