#!/usr/bin/env bash
# Seconds for the search of crate `cdcl` on lists of clauses, against the same algorithm in plain Rust built by `rustc -O`
# (measure/watched.rs) and against `minisat` and `cadical`, where they are installed: random lists of three literals a clause near the
# threshold, over 150 and 200 variables, with and without an assignment; pigeons in one hole fewer, also among 1,000,000 variables;
# and what `export` writes for two studies of two voters and four alternatives: the axioms of Arrow, and `onto`, `strategyproof` and
# `non_dictatorship`. On a list over 120 variables the plain one is compared with the search that scans all clauses at each step
# (measure/search.rs). The search and the plain one are timed without the reading of the list, a stock solver with it; each runs 5
# times in turn, and the shortest run counts. The answers and the numbers of lines are compared too, so that the search and the plain
# one do the same work: a step that changes in one, as where a learned clause is watched, changes in the other.
# The search is called by a program that is proved and built in a copy of the repository.
# The last lines are `ratio scanning R`, the plain one by the scanning one; `ratio studies R`, the search by
# `minisat` on the study where that is more; and `ratio watched R`, the search by the plain one over all lists.
set -eu
. "$(dirname -- "$(readlink -f -- "${BASH_SOURCE[0]}")")/setup.sh"
build_program
copy_crates lists cnf edge propagate cdcl
echo "search_calls: lists cnf edge propagate cdcl" >>"$work/copy/crates.txt"
mkdir -p "$work/copy/crates/search_calls/src"
cat >"$work/copy/crates/search_calls/src/main.rt" <<'RT'
// The answer to the clauses of the file input.cnf, the number of its lines or of its true variables, and the nanoseconds of the search.
#![tactic(auto)]

ghost use Rattle.std.specs.Prelude.{◌<◌, ◌≤◌, ◌^◌, length};

use cdcl::{Search, solve};
use cnf::{Bits, Clauses, Lit};
use edge::{FileShelf, read_all};
use lists::{Items, NoMemory};
use propagate::stay_within;
use std::alloc::Global;
use std::io;
use std::time::Instant;

fn trues(bits: &Bits, variables: u32) -> u32
    requires { variables < 2 ^ 31 }
{
    let mut count: u32 = 0;
    for v in 1..variables + 1 {
        if (v as usize) <= bits.len() {
            count = count.wrapping_add(bits.get(v) as u32);
        }
    }
    count
}

fn answer(alloc: Global, clauses: &Clauses, variables: u32) -> Result<(&'static str, u32), NoMemory>
    requires { variables < 2 ^ 31 }
{
    if !stay_within(clauses, variables) {
        return Err(NoMemory);
    }
    match solve(alloc, clauses, variables, 1_000_000)? {
        Search::Found(bits) => Ok(("found", trues(&bits, variables))),
        Search::Refuted(lines) => Ok(("refuted", (lines.len() % 10_000_000) as u32)),
        Search::Spent(lines) => Ok(("spent", (lines.len() % 10_000_000) as u32)),
    }
}

/// The clauses of numbers, each ended by 0. Lines that begin with `c` or `p` are passed over.
fn clauses_of(alloc: Global, bytes: &[u8]) -> Result<Clauses, NoMemory> {
    let mut clauses = Clauses::new(alloc);
    let mut clause = Items::new(alloc);
    let mut number: u32 = 0;
    let mut positive = true;
    let mut inside = false;
    let mut starts = true;
    let mut skips = false;
    for byte in bytes {
        let b = *byte;
        skips = skips || (starts && (b == b'c' || b == b'p'));
        starts = b == b'\n';
        if skips {
            skips = !starts;
        } else if b == b'-' {
            positive = false;
        } else if b >= b'0' && b <= b'9' {
            number = number.wrapping_mul(10).wrapping_add((b - b'0') as u32) % 100_000_000;
            inside = true;
        } else if inside {
            if number == 0 {
                if clauses.push(clause.as_slice(), 0).is_err() {
                    return Err(NoMemory);
                }
                clause = Items::new(alloc);
            } else if number < 100_000_000 {
                clause.push(Lit::new(number, positive))?;
            }
            number = 0;
            positive = true;
            inside = false;
        }
    }
    Ok(clauses)
}

/// The greatest variable.
fn most(clauses: &Clauses) -> u32 {
    let mut most = 0;
    for k in 0..clauses.len() {
        for lit in clauses.get(k) {
            most = most.max(lit.variable());
        }
    }
    most
}

fn main(rt: HostRuntime) -> io::Result<()> {
    let alloc = rt.alloc();
    let mut shelf = FileShelf::new(&rt, alloc);
    let Ok(text) = read_all(alloc, &mut shelf, "input.cnf", 100_000_000) else {
        return Ok(());
    };
    let Ok(clauses) = clauses_of(alloc, text.as_slice()) else {
        return Ok(());
    };
    let variables = most(&clauses);
    if variables >= 2_147_483_648 {
        return Ok(());
    }
    let start = Instant::now(&rt)?;
    let Ok((name, number)) = answer(alloc, &clauses, variables) else {
        return Ok(());
    };
    let spent = start.elapsed(&rt)?.as_nanos();
    println!(rt; "{name} {number} {spent}")?;
    Ok(())
}
RT
(cd "$work/copy/crates/search_calls" && printf 'p cnf 1 1\n1 0\n' >input.cnf && rt run >"$work/run.log" 2>&1) || { tail -20 "$work/run.log"; exit 1; }
rustc -O --edition 2021 -o "$work/scanning" "$root/measure/search.rs"
rustc -O --edition 2021 -o "$work/watched" "$root/measure/watched.rs"
cat >"$work/choice.toml" <<'TOML'
kind = "choice"
voters = 2
alternatives = 4
axioms = ["onto", "strategyproof", "non_dictatorship"]
TOML
"$program" export "$root/studies/arrow_four.toml" >"$work/arrow_four.cnf"
"$program" export "$work/choice.toml" >"$work/choice_four.cnf"
python3 - "$work" <<'PY'
import os, random, resource, shutil, subprocess, sys
work = sys.argv[1]
def write(name, variables, clauses):
    with open("%s/%s.cnf" % (work, name), "w") as file:
        file.write("p cnf %d %d\n" % (variables, len(clauses)))
        for clause in clauses: file.write(" ".join(map(str, clause)) + " 0\n")
def three(name, variables, count, seed):
    draw = random.Random(seed)
    write(name, variables, [[v * draw.choice((1, -1)) for v in draw.sample(range(1, variables + 1), 3)] for _ in range(count)])
def pigeons(name, holes, more=[]):
    at = lambda pigeon, hole: pigeon * holes + hole + 1
    some = [[at(pigeon, hole) for hole in range(holes)] for pigeon in range(holes + 1)]
    write(name, 1000000 if more else holes * (holes + 1), some + more + [[-at(one, hole), -at(other, hole)] for one in range(holes + 1) for other in range(one) for hole in range(holes)])
threes = [(150, 640, seed) for seed in (2, 4, 9, 10)] + [(200, 853, seed) for seed in (0, 7, 21)]
for variables, count, seed in threes: three("random_%d_%d" % (variables, seed), variables, count, seed)
pigeons("pigeons_7", 7); pigeons("pigeons_8", 8); pigeons("pigeons_7_wide", 7, [[1000000, 999999]])
def seconds_of_user(words, ends):
    before = resource.getrusage(resource.RUSAGE_CHILDREN).ru_utime
    status = subprocess.run(words, stdout=subprocess.DEVNULL, stderr=subprocess.DEVNULL).returncode
    assert status in ends, (words, status)
    return resource.getrusage(resource.RUSAGE_CHILDREN).ru_utime - before
def run(solver, name):
    file = "%s/%s.cnf" % (work, name)
    if solver == "search":
        shutil.copy(file, work + "/copy/crates/search_calls/input.cnf")
        words = subprocess.run([work + "/copy/crates/search_calls/out/search_calls"], cwd=work + "/copy/crates/search_calls", capture_output=True, text=True, check=True).stdout.split()
    elif solver == "watched":
        words = subprocess.run([work + "/watched", file], capture_output=True, text=True, check=True).stdout.split()
    else:
        return None, seconds_of_user([solver, "-q", file] if solver == "cadical" else [solver, file], (10, 20))
    return words[:2], int(words[2]) / 1e9
stock = [name for name in ("minisat", "cadical") if shutil.which(name)]
totals, studies = {"search": 0, "watched": 0}, []
names = ["random_%d_%d" % (variables, seed) for variables, _, seed in threes] + ["pigeons_7", "pigeons_8", "pigeons_7_wide", "arrow_four", "choice_four"]
for name in names:
    best, said = {}, {}
    for _ in range(5):
        for solver in ["search", "watched"] + stock:
            said[solver], spent = run(solver, name)
            best[solver] = min(spent, best.get(solver, spent))
    assert said["search"] == said["watched"], (name, said)
    for solver in totals: totals[solver] += best[solver]
    if name.endswith("_four") and "minisat" in best: studies.append(best["search"] / best["minisat"])
    print("%s: %s; %s" % (name, " ".join(said["search"]), ", ".join("%s %.4f s" % pair for pair in best.items())))
# the list of measure/search.rs, by its own generator
plain = min((subprocess.run([work + "/scanning"], capture_output=True, text=True, check=True).stdout.split() for _ in range(3)), key=lambda row: int(row[2]))
same = min((subprocess.run([work + "/watched", "120", "530"], capture_output=True, text=True, check=True).stdout.split() for _ in range(3)), key=lambda row: int(row[2]))
assert plain[0] == same[0], (plain, same)
print("ratio scanning %.4f" % (int(same[2]) / int(plain[2])))
if studies: print("ratio studies %.2f" % max(studies))
print("ratio watched %.2f" % (totals["search"] / totals["watched"]))
PY
