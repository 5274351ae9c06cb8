#!/usr/bin/env bash
# Nanoseconds for the test of independence of irrelevant alternatives over all its 5,308,416 instances, for a rule that
# ranks 4 alternatives at the profiles of 2 voters, against the same test in plain Rust built by `rustc -O`
# (measure/tables.rs). The rule is constant, so that every instance is true and none is left out. Each program runs
# 5 times, and the shortest run counts. The answers are compared too.
# The test of the crate is called by a program that is proved and built in a copy of the repository.
# The last lines are the instances in a second, and `ratio R`: the time of the test by that of plain Rust.
set -eu
. "$(dirname -- "$(readlink -f -- "${BASH_SOURCE[0]}")")/setup.sh"
copy_crates lists vocab cnf meaning profiles outcomes worlds
echo "failure_calls: lists vocab profiles outcomes worlds" >>"$work/copy/crates.txt"
mkdir -p "$work/copy/crates/failure_calls/src" "$work/copy/crates/failure_calls/proofs/constant_table"
cat >"$work/copy/crates/failure_calls/proofs/constant_table/Invariants.antt" <<'ANTT'
use Rattle.std.proofs.Common.{◌≡◌, replicate}
use Rattle.failure_calls.proofs.constant_table.Given as goal

abbrev pub invariant-loop-place : goal.invariant-loop-place
invariant-loop-place l = l.table ≡ replicate l._place 0
ANTT
cat >"$work/copy/crates/failure_calls/src/main.rt" <<'RT'
// Nanoseconds for the test of a sentence over all its instances.
#![tactic(auto)]

ghost use Rattle.std.specs.Prelude.{◌≡◌, ◌≤◌, IfOk, replicate};
ghost use Rattle.vocab.specs.Tree.{Tree, Leaf, All, Implies, Same, Prefers, Ranks, Var, tree_of};
ghost use Rattle.vocab.specs.declared.kinds.Sort.TheVariants.{Voter, Alt, Profile};

use lists::{Items, NoMemory};
use outcomes::{OutcomeKind, RankingKind};
use profiles::Space;
use std::alloc::Global;
use std::io;
use std::time::Instant;
use vocab::{Atom, Axiom, Formula, Kind, Name, Size, Sort, Table, Term};
use worlds::{first_failure, instance_count};

fn boxed(alloc: Global, part: Formula) -> Result<Box<Formula>, NoMemory>
    ensures { IfOk result (λ b. b.value ≡ part) }
{
    Ok(Box::new(alloc, part)?)
}

fn prefers(p: u8) -> Formula
    ensures { tree_of result ≡ Leaf (Prefers (Var 4) (Var 2) (Var 3) (Var p)) }
{
    Formula::Leaf(Atom::Prefers(Term::Var(4), Term::Var(2), Term::Var(3), Term::Var(p)))
}

fn ranks(p: u8) -> Formula
    ensures { tree_of result ≡ Leaf (Ranks (Var 2) (Var 3) (Var p)) }
{
    Formula::Leaf(Atom::Ranks(Term::Var(2), Term::Var(3), Term::Var(p)))
}

fn all(alloc: Global, sort: Sort, body: Formula) -> Result<Formula, NoMemory>
    ensures { IfOk result (λ f. tree_of f ≡ All sort (tree_of body)) }
{
    Ok(Formula::All(sort, boxed(alloc, body)?))
}

fn same(alloc: Global, left: Formula, right: Formula) -> Result<Formula, NoMemory>
    ensures { IfOk result (λ f. tree_of f ≡ Same (tree_of left) (tree_of right)) }
{
    Ok(Formula::Same(boxed(alloc, left)?, boxed(alloc, right)?))
}

fn implies(alloc: Global, left: Formula, right: Formula) -> Result<Formula, NoMemory>
    ensures { IfOk result (λ f. tree_of f ≡ Implies (tree_of left) (tree_of right)) }
{
    Ok(Formula::Implies(boxed(alloc, left)?, boxed(alloc, right)?))
}

fn independence(alloc: Global) -> Result<Formula, NoMemory>
    ensures { IfOk result (λ f. tree_of f ≡ All Profile (All Profile (All Alt (All Alt (Implies (All Voter (Same (Leaf (Prefers (Var 4) (Var 2) (Var 3) (Var 0))) (Leaf (Prefers (Var 4) (Var 2) (Var 3) (Var 1))))) (Same (Leaf (Ranks (Var 2) (Var 3) (Var 0))) (Leaf (Ranks (Var 2) (Var 3) (Var 1))))))))) }
{
    let alike = all(alloc, Sort::Voter, same(alloc, prefers(0), prefers(1))?)?;
    let body = implies(alloc, alike, same(alloc, ranks(0), ranks(1))?)?;
    let pairs = all(alloc, Sort::Alt, all(alloc, Sort::Alt, body)?)?;
    all(alloc, Sort::Profile, all(alloc, Sort::Profile, pairs)?)
}

fn constant_table(alloc: Global) -> Result<Table, NoMemory>
    ensures { IfOk result (λ table. table ≡ replicate 576 0) }
{
    let mut table = Items::new(alloc);
    for _place in 0..576_u32 {
        table.push(0)?;
    }
    Ok(table)
}

fn main(rt: HostRuntime) -> io::Result<()> {
    let Ok(size) = Size::check(Kind::Ranking, 2, 4) else {
        return Ok(());
    };
    let kind = RankingKind::new(Space::new(size));
    let Ok(table) = constant_table(rt.alloc()) else {
        return Ok(());
    };
    let Ok(sentence) = independence(rt.alloc()) else {
        return Ok(());
    };
    let Some(name) = Name::new(b"independence") else {
        return Ok(());
    };
    let axiom = Axiom::new(name, sentence);
    let count = instance_count(kind.space(), axiom.sentence());
    let start = Instant::now(&rt)?;
    let found = first_failure(&kind, &table, &axiom, 0, count);
    let spent = start.elapsed(&rt)?.as_nanos();
    println!(rt; "{} {count} {spent}", found.is_some())?;
    Ok(())
}
RT
(cd "$work/copy/crates/failure_calls" && rt run >"$work/run.log" 2>&1) || { tail -20 "$work/run.log"; exit 1; }
rustc -O --edition 2021 -o "$work/baseline" "$root/measure/tables.rs"
python3 - "$work/copy/crates/failure_calls/out/failure_calls" "$work/baseline" <<'PY'
import subprocess, sys
def run(program):
    found, count, spent = subprocess.run([program], capture_output=True, text=True, check=True).stdout.split()
    return found, int(count), int(spent)
ours, plain = [], []
for _ in range(5):
    ours.append(run(sys.argv[1]))
    plain.append(run(sys.argv[2]))
assert len({row[:2] for row in ours + plain}) == 1, (ours, plain)
bench, baseline = min(row[2] for row in ours), min(row[2] for row in plain)
print("independence: %d ns, plain %d ns" % (bench, baseline))
print("%d instances a second" % (ours[0][1] * 10 ** 9 // bench))
print("ratio %.2f" % (bench / baseline))
PY
