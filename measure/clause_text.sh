#!/usr/bin/env bash
# Seconds for reading clauses and a derivation from text, checking it and writing both, by crates `clause_text` and
# `lrat_check`, against the same work in plain Rust built by `rustc -O` (measure/lrat.rs). The clauses are all of 16 variables,
# and the derivation resolves them in pairs, a variable less each time, until the empty clause is left: 65,536 clauses and 65,535
# added ones of up to 15 literals, with deletions between. Each runs 5 times, and the shortest run counts. The answers and the
# number of bytes written are compared too. The calls are made by a program that is proved and built in a copy of the repository.
# The last lines are `ratio NAME R`: the seconds of each part by those of the plain one.
set -eu
. "$(dirname -- "$(readlink -f -- "${BASH_SOURCE[0]}")")/setup.sh"
copy_crates lists vocab cnf lrat_check meaning edge texts verdicts clause_text
echo "lrat_calls: lists cnf edge clause_text lrat_check" >>"$work/copy/crates.txt"
mkdir -p "$work/copy/crates/lrat_calls/src"
cat >"$work/copy/crates/lrat_calls/src/main.rt" <<'RT'
// The answer to a derivation over clauses, how many bytes both have as they are written, and the nanoseconds of reading the
// clauses, of reading the derivation, of checking it, and of writing both into memory.
#![tactic(auto)]

use clause_text::{read_dimacs, read_lrat, write_dimacs, write_lrat};
use edge::{FileShelf, MemorySink, read_all};
use lrat_check::check;
use std::io;
use std::time::Instant;

fn main(rt: HostRuntime) -> io::Result<()> {
    let alloc = rt.alloc();
    let mut shelf = FileShelf::new(&rt, alloc);
    let Ok(text) = read_all(alloc, &mut shelf, "halves.cnf", 100_000_000) else {
        return Ok(());
    };
    let Ok(proof) = read_all(alloc, &mut shelf, "halves.lrat", 100_000_000) else {
        return Ok(());
    };
    let Ok(mut out) = MemorySink::new(alloc, 100_000_000, &[]) else {
        return Ok(());
    };
    let start = Instant::now(&rt)?;
    let Ok(formulas) = read_dimacs(alloc, text.as_slice()) else {
        return Ok(());
    };
    let read = start.elapsed(&rt)?.as_nanos();
    let start = Instant::now(&rt)?;
    let Ok(lines) = read_lrat(alloc, proof.as_slice(), formulas.variables) else {
        return Ok(());
    };
    let told = start.elapsed(&rt)?.as_nanos();
    let start = Instant::now(&rt)?;
    let answer = check(alloc, &formulas.clauses, &lines).is_ok();
    let checked = start.elapsed(&rt)?.as_nanos();
    let start = Instant::now(&rt)?;
    let done = write_dimacs(b"x", &formulas.clauses, formulas.variables, &mut out).is_ok()
        && write_lrat(&lines, &mut out).is_ok();
    let wrote = start.elapsed(&rt)?.as_nanos();
    let word = if answer && done { "confirmed" } else { "refused" };
    let count = out.bytes().len();
    println!(rt; "{word} {count} {read} {told} {checked} {wrote}")?;
    Ok(())
}
RT
(cd "$work/copy/crates/lrat_calls" && rt run >"$work/run.log" 2>&1) || { tail -20 "$work/run.log"; exit 1; }
rustc -O --edition 2021 -o "$work/plain" "$root/measure/lrat.rs"
python3 - "$work" <<'PY'
import subprocess, sys
work, k = sys.argv[1], 16
def words(bits, count):
    return [v + 1 if bits >> v & 1 else -(v + 1) for v in range(count)]
with open(work + "/halves.cnf", "w") as out:
    print("p cnf %d %d" % (k, 2 ** k), file=out)
    for bits in range(2 ** k):
        print(*words(bits, k), 0, file=out)
with open(work + "/halves.lrat", "w") as out:
    first, free = 1, 2 ** k + 1
    for count in range(k - 1, -1, -1):
        for bits in range(2 ** count):
            print(free + bits, *words(bits, count), 0, first + bits, first + bits + 2 ** count, 0, file=out)
        print(0, "d", *range(first, free), 0, file=out)
        first, free = free, free + 2 ** count
def shortest(*words):
    best = None
    for _ in range(5):
        word, count, *times = subprocess.run(words, cwd=work, capture_output=True, text=True, check=True).stdout.split()
        assert word == "confirmed", word
        now = [int(time) for time in times]
        best = now if best is None else [min(a, b) for a, b in zip(best, now)]
    return count, best
count, ours = shortest(work + "/copy/crates/lrat_calls/out/lrat_calls")
plain_count, plain = shortest(work + "/plain", "halves.cnf", "halves.lrat", "parts")
assert count == plain_count, (count, plain_count)
names = ("clauses", "derivation", "check", "writing")
for name, mine, other in zip(names, ours, plain):
    print("%s: %.4f s, plain %.4f s" % (name, mine / 1e9, other / 1e9))
for name, mine, other in zip(names, ours, plain):
    print("ratio %s %.2f" % (name, mine / other))
PY
