# shellcheck shell=sh disable=SC2154
# How the programs of release/ are compiled to objects and linked, for each machine: x86_64 and aarch64. tools/release sources it
# with `top` set to the folder of the repository and `kit` to that of the Rattle kit, where there is one. release/INFO names the
# sum of this file and of packaging/glue.c, so both programs have to be made anew when one of the two changes.

# packages_of MACHINE: the Debian packages that supply the compiler's part, the linker and the C library, as NAME=VERSION, or what
# the tools say of themselves if there is no dpkg. Fails if the tools aren't there.
packages_of() {
    major=$("$1-linux-gnu-gcc" -dumpversion 2>/dev/null) || return
    major=${major%%.*}
    if ! command -v dpkg-query >/dev/null; then
        echo "gcc=$("$1-linux-gnu-gcc" -dumpfullversion) ld=$("$1-linux-gnu-ld" --version | sed -n 's/.* //; 1p')"
        return
    fi
    # (the packages of the machine at hand have names of their own)
    if [ "$(uname -m)" = "$1" ]; then
        set -- "gcc-$major" binutils libc6-dev "libgcc-$major-dev"
    else
        set -- "gcc-$major-$(dashed "$1")-linux-gnu" "binutils-$(dashed "$1")-linux-gnu" "libc6-dev-$(debian "$1")-cross" \
            "libgcc-$major-dev-$(debian "$1")-cross"
    fi
    # shellcheck disable=SC2016
    dpkg-query -W -f '${Package}=${Version} ' "$@" 2>/dev/null | sed 's/ $//'
}

# dashed MACHINE, debian MACHINE: how names of Debian packages spell a machine.
dashed() {
    echo "$1" | tr _ -
}

debian() {
    case $1 in
        x86_64) echo amd64 ;;
        aarch64) echo arm64 ;;
    esac
}

# compile PROGRAM MACHINE TO: proves the program's crate once more over the libraries that the gate has built, and compiles it to
# an object at the absolute path TO. On standard output it leaves rattle's line with the verdict.
compile() (
    program=$1 to=$2 object=$3
    cd "$top/crates/$program" || exit
    set -- --crate-name "$program" src/main.rt --extern "std=$kit/rlibs/std.rlib" -L "dependency=$kit/rlibs"
    for crate in $(tree_rows names "$program"); do
        [ "$crate" = "$program" ] || set -- "$@" -L "dependency=$top/crates/$crate/out/rlib"
    done
    # (names of crates are plain words)
    # shellcheck disable=SC2013
    for crate in $(sed -n "s/^$program: *//p" "$top/crates.txt"); do
        set -- "$@" --extern "$crate=$top/crates/$crate/out/rlib/$crate.rlib"
    done
    "$kit/bin/rattle" build "$@" --antt-project "$kit/rattle/logic/antt-project.json" --logic-built "$kit/logic_built" \
        --jobs 2 --links "$program=" --target "$to-unknown-linux-gnu" --toolchain "$kit/toolchain" --backend llvm -o "$object" \
        >"$object.log" 2>&1 </dev/null || exit
    grep '^logic=proved ' "$object.log"
)

# join MACHINE OBJECT TO: one object of the program and the C code that isn't the C library's: the kit's archives for x86_64,
# packaging/glue.c for aarch64. It has all that is linked with the C library, so anyone can link it anew.
join() {
    case $1 in
        x86_64) set -- "$@" "$kit/c/libos_c.a" "$kit/c/liblibc_c.a" ;;
        aarch64)
            "$1-linux-gnu-gcc" -std=c11 -O2 -fPIE -fstack-protector-strong -Wall -Wextra -Wpedantic -Wshadow \
                -Wconversion -Wsign-conversion -Wcast-qual -Wcast-align -Wmissing-prototypes -Wstrict-prototypes -Wundef -Wvla \
                -Wnull-dereference -Werror -c "$top/packaging/glue.c" -o "$3.glue" || return
            set -- "$@" "$3.glue"
            ;;
    esac
    machine=$1 object=$2 to=$3
    shift 3
    "$machine-linux-gnu-ld" -r -o "$to" "$object" "$@" && "$machine-linux-gnu-strip" --strip-unneeded "$to"
}

# link_program MACHINE OBJECT SUM TO: the program, one static file that any folder can hold. Its build ID is the sum of the tree
# that it is of; all relocations are read-only once it runs, and no page can be written and executed.
link_program() {
    "$1-linux-gnu-gcc" -static-pie -s -o "$4" "$2" -Wl,--build-id="0x$3" -Wl,-z,relro -Wl,-z,now -Wl,-z,noexecstack \
        -Wl,-z,separate-code -Wl,--fatal-warnings
}
