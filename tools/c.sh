# Sourced by the scripts that link C with the planner; `root` is the repository's folder, and every path is absolute.
#   archive             makes target/staticlib/libdesk.a of the crate desk_c, unless it is newer than every source
#   link_any OUT FILE.. links C files with the archive: by the machine's own C compiler, or by the kit's where there is none
#   link_kit OUT FILE.. the same by the kit's clang and linker
# link_kit takes a flag more for the compiler in MORE.
# The archive is for x86-64 Linux, and so is the kit's compiler. The kit brings no C headers: tools/bare/ declares the few names
# that are used here.

command -v rt >/dev/null || { echo "c.sh: the Rattle toolchain's command 'rt' is not on the PATH" >&2; exit 2; }
[ "$(uname -m)" = x86_64 ] || { echo "c.sh: the planner's archive is for x86-64, and this machine is $(uname -m)" >&2; exit 2; }
kit=$(dirname "$(dirname "$(readlink -f "$(command -v rt)")")")
library=$root/target/staticlib/libdesk.a

archive() {
    mkdir -p "$root/target/staticlib"
    if [ -e "$library" ] && [ -z "$(find "$root/crates" "$root/crates.txt" "$root/KIT" -name out -prune -o -newer "$library" -print | head -n 1)" ]; then
        return
    fi
    rm -f "$library"
    (cd "$root/crates/desk_c" && rt lib >"$root/target/staticlib.log" 2>&1) || { tail -n 20 "$root/target/staticlib.log" >&2; return 1; }
    cp "$root/crates/desk_c/out/libdesk_c.a" "$library"
}

link_kit() {
    out=$1
    shift
    n=0
    for file in "$@"; do
        n=$((n + 1))
        "$kit/toolchain/bin/clang" --target=x86_64-unknown-linux-gnu -std=c11 -O3 -Wall -Wextra -Werror -ffreestanding -fPIC -nostdinc \
            -isystem "$root/tools/bare" -I "$root/include" ${MORE:-} -c "$file" -o "$out.$n.o" || return 1
        set -- "$@" "$out.$n.o"
        shift
    done
    "$kit/bin/rattle-link" --target x86_64-unknown-linux-gnu --toolchain "$kit/toolchain" -o "$out" "$@" "$library" 2>"$out.link" || { cat "$out.link" >&2; return 1; }
}

link_any() {
    if command -v "${CC:-cc}" >/dev/null; then
        out=$1
        shift
        "${CC:-cc}" -std=c11 -O2 -Wall -Wextra -I "$root/include" -o "$out" "$@" "$library"
    else
        link_kit "$@"
    fi
}
