#!/usr/bin/env bash
# The least stack within which `syntax::read` answers hostile texts and `syntax::print` writes the deepest trees that `read`
# gives. The texts have up to 600 lexemes: 600 nested `!`, 600 nested `(`, 589 nested `!` before an atom, 299 calls that are not
# closed, 198 that are, and groups in groups at the left and at the right. The trees have depth 64, by `!` and by calls.
# It is measured for a program that LLVM built and for one that the toolchain's own compiler built. The limits are a quarter
# and a half of the 8 MB that a main thread has.
# Prints `llvm K KB of 2048` and `rattle K KB of 4096`, and ends with status 1 where one is above its limit.
set -eu
root=$(cd -- "$(dirname -- "$(readlink -f -- "${BASH_SOURCE[0]}")")/.." && pwd)
work=$(mktemp -d)
trap 'rm -rf "$work"' EXIT
mkdir -p "$work/crates/hostile/src"
for name in lists vocab edge texts syntax; do
    mkdir "$work/crates/$name"
    cp -r "$root/crates/$name/src" "$work/crates/$name/"
    for part in specs proofs; do
        [ ! -d "$root/crates/$name/$part" ] || cp -r "$root/crates/$name/$part" "$work/crates/$name/"
    done
done
grep -E '^(lists|vocab|edge|texts|syntax):' "$root/crates.txt" >"$work/crates.txt"
echo 'hostile: edge syntax' >>"$work/crates.txt"
cp "$root/HANDLES" "$work/HANDLES"
cat >"$work/crates/hostile/src/main.rt" <<'RT'
//! Reads hostile texts.
#![tactic(auto)]

use edge::MemorySink;
use std::alloc::{AllocError, Global};
use std::io;
use syntax::{SyntaxFault, print, read};

// A text of one piece that is repeated between two others.
fn repeated(alloc: Global, head: &[u8], piece: &[u8], times: u16, tail: &[u8]) -> Result<Vec<u8>, AllocError> {
    let mut text = Vec::from_slice(alloc, head)?;
    for _ in 0..times {
        text.extend_from_slice(piece)?;
    }
    text.extend_from_slice(tail)?;
    Ok(text)
}

fn fault_of(alloc: Global, text: &[u8]) -> Option<SyntaxFault> {
    read(alloc, text).err()
}

// How many bytes the sentence of a text is printed as; 0 where it has none or is not printed.
fn printed(alloc: Global, text: &[u8]) -> usize {
    let (Ok(named), Ok(mut sink)) = (read(alloc, text), MemorySink::new(alloc, 1000, &[])) else {
        return 0;
    };
    match print(&named, &mut sink) {
        Ok(()) => sink.bytes().len(),
        Err(_) => 0,
    }
}

fn main(rt: HostRuntime) -> io::Result<()> {
    let alloc = rt.alloc();
    let signs = fault_of(alloc, repeated(alloc, b"", b"!", 600, b"")?.as_slice());
    let brackets = fault_of(alloc, repeated(alloc, b"", b"(", 600, b"")?.as_slice());
    let tree = fault_of(alloc, repeated(alloc, b"all p: profile. ", b"!", 589, b"wins(@a, p)")?.as_slice());
    let open = repeated(alloc, b"x = ", b"f(", 198, b"x")?;
    let calls = fault_of(alloc, repeated(alloc, open.as_slice(), b")", 198, b"")?.as_slice());
    let unclosed = fault_of(alloc, repeated(alloc, b"x = ", b"f(", 299, b"")?.as_slice());
    let left = repeated(alloc, b"", b"(", 99, b"x = x")?;
    let groups = fault_of(alloc, repeated(alloc, left.as_slice(), b" & y = y)", 99, b"")?.as_slice());
    let right = repeated(alloc, b"", b"(x = x | ", 99, b"y = y")?;
    let chains = fault_of(alloc, repeated(alloc, right.as_slice(), b")", 99, b"")?.as_slice());
    println!(rt; "{signs:?} {brackets:?} {tree:?} {calls:?} {unclosed:?} {groups:?} {chains:?}")?;
    let denied = printed(alloc, repeated(alloc, b"", b"!", 62, b"x = x")?.as_slice());
    let within = repeated(alloc, b"x = ", b"f(", 62, b"x")?;
    let applied = printed(alloc, repeated(alloc, within.as_slice(), b")", 62, b"")?.as_slice());
    println!(rt; "{denied} {applied}")
}
RT
wanted='Some(NoReading) Some(NoReading) Some(Deep) Some(Deep) Some(NoReading) Some(Deep) Some(Deep)
67 191'
cd "$work/crates/hostile"
answers() { # whether the program answers as wanted within so many KB
    [ "$( (ulimit -s "$2" && "$1") 2>/dev/null || true)" = "$wanted" ]
}
least() { # the least stack by halving, to 16 KB
    local low=0 high=65536 middle
    answers "$1" "$high" || { echo "no answer within $high KB" >&2; exit 1; }
    while [ $((high - low)) -gt 16 ]; do
        middle=$(((low + high) / 2))
        if answers "$1" "$middle"; then high=$middle; else low=$middle; fi
    done
    echo "$high"
}
status=0
for build in llvm rattle; do
    limit=2048
    flags=()
    if [ "$build" = rattle ]; then
        limit=4096
        flags=(--backend rattle)
    fi
    rt run "${flags[@]}" >"$work/$build.log" 2>&1 || { tail -20 "$work/$build.log" >&2; exit 1; }
    cp out/hostile "$work/$build"
    found=$(least "$work/$build")
    echo "$build $found KB of $limit"
    [ "$found" -le "$limit" ] || status=1
done
exit $status
