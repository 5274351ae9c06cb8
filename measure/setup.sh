# What the measurements share, for `. "$(dirname -- "$(readlink -f -- "${BASH_SOURCE[0]}")")/setup.sh"` at their top:
# `root`, the repository; `work`, a folder that is removed at the end; `program`, the bench; and two functions.
root=$(cd -- "$(dirname -- "$(readlink -f -- "${BASH_SOURCE[0]}")")/.." && pwd)
work=$(mktemp -d)
trap 'rm -rf "$work"' EXIT
program=$root/crates/bench/out/bench

# Proves and builds the program where a source is newer.
build_program() {
    env -u BENCH_QUICK "$root/bench" axioms choice >/dev/null
}

# Copies these crates, with what their last check left, to $work/copy, so that a crate of the measurement can stand on them.
copy_crates() {
    local name part
    mkdir -p "$work/copy/crates"
    for name; do
        mkdir "$work/copy/crates/$name"
        for part in src specs proofs out; do
            [ ! -d "$root/crates/$name/$part" ] || cp -r "$root/crates/$name/$part" "$work/copy/crates/$name/"
        done
        grep -E "^$name( .*)?:" "$root/crates.txt" >>"$work/copy/crates.txt"
    done
}
