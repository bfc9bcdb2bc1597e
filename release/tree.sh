# shellcheck shell=sh disable=SC2034,SC2154
# What ./relint, tools/release and .ci/run know of the tree: the crates that make each program, the sum over them, and how to
# build it. Source it with `top` set to the folder of the repository. It needs a POSIX shell with awk, find, sort, xargs and
# sha256sum; neither git nor Python.
#
# A program is named by its crate: relint, or relint_ask. A function whose PROGRAM is left out is about relint.
#
# release/INFO, and crates/PROGRAM/out/sum beside a program that was built here, hold lines `KEY VALUE`:
#   sum              the sum of the tree that the program was built from, as tree_sum gives it
#   program          the SHA-256 of the program that was built here
#   program-MACHINE  the SHA-256 of the program of release/ for this machine: x86_64 or aarch64
#   kit              the line of `rt version` of the kit that built it
# In release/INFO the keys about relint_ask begin with `ask-`. release/README.md has its other lines.

built=crates/relint/out/relint
built_info=crates/relint/out/sum
build_log=crates/relint/out/build.log
released_info=release/INFO
machines="x86_64 aarch64"

# programs: the programs of this tree.
programs() {
    for program in relint relint_ask; do
        ! grep -q "^$program *:" "$top/crates.txt" || echo "$program"
    done
}

# file_of PROGRAM: the name of its file in release/.
file_of() {
    case $1 in
        relint_ask) echo relint-ask ;;
        *) echo "$1" ;;
    esac
}

# key_of PROGRAM KEY: the key of release/INFO that says this of the program.
key_of() {
    case $1 in
        relint) echo "$2" ;;
        *) echo "${1#relint_}-$2" ;;
    esac
}

# built_of PROGRAM, built_info_of PROGRAM: the program that was built here, and what is noted of it.
built_of() {
    echo "crates/$1/out/$1"
}

built_info_of() {
    echo "crates/$1/out/sum"
}

# machine_here: the machine at hand as release/ names it. Fails if it is of another kind.
machine_here() {
    case $(uname -sm) in
        "Linux x86_64" | "Linux amd64") echo x86_64 ;;
        "Linux aarch64" | "Linux arm64") echo aarch64 ;;
        *) return 1 ;;
    esac
}

# released_for MACHINE [PROGRAM]: the program of release/ for this machine.
released_for() {
    echo "release/$1/$(file_of "${2:-relint}")"
}

# tree_rows names|lines [PROGRAM]: the crates that the program is built from, in the order of crates.txt: their names, or their
# lines.
tree_rows() {
    awk -v show="$1" -v program="${2:-relint}" '
        { sub(/#.*/, ""); sub(/[ \t]+$/, "") }
        /[^ \t]/ {
            head = rest = $0
            sub(/:.*/, "", head)
            if (!sub(/^[^:]*:/, "", rest)) rest = ""
            split(head, words)
            order[++count] = words[1]
            line[words[1]] = $0
            uses[words[1]] = rest
        }
        END {
            needed[program] = 1
            do {
                grown = 0
                for (at = 1; at <= count; at++) {
                    if (!(order[at] in needed)) continue
                    total = split(uses[order[at]], words, /[ ,\t]+/)
                    for (it = 1; it <= total; it++) if (!(words[it] in needed)) { needed[words[it]] = 1; grown = 1 }
                }
            } while (grown)
            for (at = 1; at <= count; at++) if (order[at] in needed) print show == "lines" ? line[order[at]] : order[at]
        }
    ' "$top/crates.txt"
}

# tree_sum [PROGRAM]: a SHA-256 over the lines of crates.txt and every file of the crates that it is built from, by sorted path.
# What can't change the program is left out: the crates of tests and rows, and the folders out/ and must-fail/ of each crate.
tree_sum() (
    cd "$top" || exit
    folders=$(tree_rows names "${1:-relint}" | sed 's|^|crates/|') && [ -n "$folders" ] || exit 1
    listing=$(
        tree_rows lines "${1:-relint}" || exit
        # (one word for each folder: a crate has a plain name)
        # shellcheck disable=SC2086
        find $folders -type d \( -name out -o -name must-fail \) ! -path '*/*/*/*' -prune -o ! -type d -print0 | LC_ALL=C sort -z | xargs -0 sha256sum
    ) || exit
    sum_of_input <<LISTING
$listing
LISTING
)

# sum_of_input, file_sum FILE: the SHA-256 of standard input, or of a file, in hexadecimal.
sum_of_input() {
    sha256sum | cut -d ' ' -f 1
}

file_sum() {
    [ -r "$1" ] && sum_of_input <"$1"
}

# value_of KEY FILE: the value of a line `KEY VALUE`; nothing where there is none.
value_of() {
    [ -r "$2" ] || return 1
    while read -r key value; do
        if [ "$key" = "$1" ]; then
            printf '%s\n' "$value"
            return 0
        fi
    done <"$2"
    return 1
}

# is_named KEY PROGRAM INFO: whether the line KEY of INFO has the SHA-256 of the program as it is.
is_named() {
    [ -f "$top/$2" ] && named=$(value_of "$1" "$top/$3") && [ -n "$named" ] && [ "$named" = "$(file_sum "$top/$2")" ]
}

# is_built_of SUM [PROGRAM]: whether the program that was built here is of the tree with this sum.
is_built_of() {
    set -- "$1" "${2:-relint}"
    [ -n "$1" ] && [ "$(value_of sum "$top/$(built_info_of "$2")")" = "$1" ] && is_named program "$(built_of "$2")" "$(built_info_of "$2")"
}

# tree_record SUM [PROGRAM]: records that the program in crates/PROGRAM/out was built from the tree with this sum.
tree_record() {
    set -- "$1" "$(built_of "${2:-relint}")" "$(built_info_of "${2:-relint}")"
    kit_line=$(rt version 2>/dev/null | head -n 1)
    part=$top/$3.$$
    printf 'sum %s\nprogram %s\nkit %s\n' "$1" "$(file_sum "$top/$2")" "$kit_line" >"$part" && mv -f "$part" "$top/$3"
}

# tree_sums: the sum of each program, a line `PROGRAM SUM` each.
tree_sums() {
    for it in $(programs); do
        one=$(tree_sum "$it") || return
        echo "$it $one"
    done
}

# tree_record_all SUMS: records of each program that was built here the sum that tree_sums gave before.
tree_record_all() {
    while read -r name one; do
        [ ! -x "$top/$(built_of "$name")" ] || tree_record "$one" "$name"
    done <<SUMS
$1
SUMS
}

# is_kept CRATE: whether the crate is built, and none of its files has changed since
is_kept() (
    cd "$top/crates/$1" && [ -f out/rlib/stamp ] && [ -z "$(find . \( -path ./out -o -path ./must-fail \) -prune -o ! -name . -newer out/rlib/stamp -print | head -n 1)" ]
)

# tree_build: proves and builds the program, the lowest crate first, and records of which tree it is. On standard error it prints
# a line as each crate is done. Where that fails it says why, with status 1.
# (One crate after another: `rt all check`, and a check of a crate above others that aren't built, first look at all sources for
# ten minutes; and calls of rt in two folders wait for one another, since each locks all the crates below.)
tree_build() {
    log=$top/$build_log
    mkdir -p "$top/crates/relint/out" && printf '' >"$log" || return
    before=$(tree_sum) || return
    rows=$(tree_rows names)
    all=$(printf '%s\n' "$rows" | wc -l)
    count=0
    is_same=1
    for crate in $rows; do
        count=$((count + 1))
        case $crate in
            relint) set -- run -- cost '' '' ;;
            *) set -- lib ;;
        esac
        # (rt looks itself whether what is kept still holds, but takes a second or two for each crate)
        [ $is_same = 0 ] || [ "$1" = run ] || ! is_kept "$crate" || continue
        is_same=0
        if ! (cd "$top/crates/$crate" && rt "$@") >>"$log" 2>&1 </dev/null; then
            echo "relint: $crate wasn't proved or built; the log is $log" >&2
            return 1
        fi
        echo "relint: proved $crate ($count of $((all)))" >&2
    done
    if [ ! -x "$top/$built" ]; then
        echo "relint: rt left no program $built; the log is $log" >&2
        return 1
    fi
    if [ "$(tree_sum)" != "$before" ]; then
        echo "relint: a file of crates/ changed while the program was built: try again" >&2
        return 1
    fi
    tree_record "$before"
}
