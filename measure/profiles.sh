#!/usr/bin/env bash
# Nanoseconds for calls of a space, against the same calls in plain Rust built by `rustc -O` (measure/profiles.rs).
# Each call goes over all profiles of four sizes and all other arguments, 20 times; each program runs 5 times, and the
# shortest run counts. `ballots` is `ballot_of` and `casts`, `texts` writes the text of a profile and reads it back, and so does
# `ballot_texts` that of a ballot. The answers are compared too. The last size has about a million calls of most.
# The calls of the crate are made by a program that is proved and built in a copy of the repository (over what an earlier
# check of these crates left, if anything).
# The last line is `ratio R`: the time of all calls by that of plain Rust.
set -eu
. "$(dirname -- "$(readlink -f -- "${BASH_SOURCE[0]}")")/setup.sh"
copy_crates lists vocab cnf meaning profiles
echo "profile_calls: vocab profiles" >>"$work/copy/crates.txt"
mkdir -p "$work/copy/crates/profile_calls/src" "$work/copy/crates/profile_calls/proofs/voted"
cat >"$work/copy/crates/profile_calls/proofs/voted/Answers.antt" <<'ANTT'
use Rattle.std.proofs.Common.{◌<◌, ◌+◌, ◌≡◌, cond, subst, Bool, ℕ}
use Rattle.vocab.specs.Size.{ballot_count}
use Rattle.profile_calls.proofs.voted.Goals as goal

pub returns : goal.returns
returns c = subst (λ (absent : Bool). c.ballot_of.result < cond absent (ballot_count c.args.space.now + 1) (ballot_count c.args.space.now)) c.requires.present c.ballot_of.ensures.in_range
ANTT
cat >"$work/copy/crates/profile_calls/src/main.rt" <<'RT'
// Nanoseconds for calls of a space.
#![tactic(auto)]

ghost use Rattle.std.specs.Prelude.{◌≡◌, ◌<◌, false};
ghost use Rattle.vocab.specs.declared.kinds.Sort.TheVariants.{Ballot, Profile};
ghost use Rattle.vocab.specs.Size.{sort_count};

use profiles::Space;
use std::io;
use std::time::Instant;
use vocab::{Kind, Size};

// The ballot of a voter, where nobody may be absent.
fn voted(space: &Space, p: u32, i: u32) -> u32
    requires present { space.now.absent ≡ false }
    requires profile { p < sort_count space.now Profile }
    requires voter { i < space.now.voters }
    ensures { result < sort_count space.now Ballot }
{
    space.ballot_of(p, i)
}

fn prefers(space: &Space) -> u32 {
    let voters = space.size().voters() as u32;
    let alternatives = space.size().alternatives() as u32;
    let mut sum: u32 = 0;
    for i in 0..voters {
        for x in 0..alternatives {
            for y in 0..alternatives {
                for p in 0..space.count() {
                    sum = sum.wrapping_mul(31).wrapping_add(space.prefers(i, x, y, p) as u32);
                }
            }
        }
    }
    sum
}

fn majority(space: &Space) -> u32 {
    let alternatives = space.size().alternatives() as u32;
    let mut sum: u32 = 0;
    for x in 0..alternatives {
        for y in 0..alternatives {
            for p in 0..space.count() {
                sum = sum.wrapping_mul(31).wrapping_add(space.majority(x, y, p) as u32);
            }
        }
    }
    sum
}

fn swap_alts(space: &Space) -> u32 {
    if !space.size().has_all_ballots() {
        return 0;
    }
    let alternatives = space.size().alternatives() as u32;
    let mut sum: u32 = 0;
    for x in 0..alternatives {
        for y in 0..alternatives {
            for p in 0..space.count() {
                sum = sum.wrapping_mul(31).wrapping_add(space.swap_alts(p, x, y));
            }
        }
    }
    sum
}

fn swap_voters(space: &Space) -> u32 {
    let voters = space.size().voters() as u32;
    let mut sum: u32 = 0;
    for i in 0..voters {
        for j in 0..voters {
            for p in 0..space.count() {
                sum = sum.wrapping_mul(31).wrapping_add(space.swap_voters(p, i, j));
            }
        }
    }
    sum
}

fn ballots(space: &Space) -> u32 {
    if space.size().absent() {
        return 0;
    }
    let voters = space.size().voters() as u32;
    let mut sum: u32 = 0;
    for i in 0..voters {
        for j in 0..voters {
            for p in 0..space.count() {
                let ballot = voted(space, p, i);
                let cast = ballot.wrapping_add(space.casts(j, ballot, p) as u32);
                sum = sum.wrapping_mul(31).wrapping_add(cast);
            }
        }
    }
    sum
}

fn better(space: &Space) -> u32 {
    if space.size().absent() {
        return 0;
    }
    let voters = space.size().voters() as u32;
    let alternatives = space.size().alternatives() as u32;
    let mut sum: u32 = 0;
    for x in 0..alternatives {
        for y in 0..alternatives {
            for i in 0..voters.min(1) {
                for p in 0..space.count() {
                    let ballot = voted(space, p, i);
                    sum = sum.wrapping_mul(31).wrapping_add(space.better(ballot, x, y) as u32);
                }
            }
        }
    }
    sum
}

fn with(space: &Space) -> u32 {
    if space.size().absent() {
        return 0;
    }
    let voters = space.size().voters() as u32;
    let mut sum: u32 = 0;
    for i in 0..voters {
        for j in 0..voters {
            for p in 0..space.count() {
                let ballot = voted(space, p, i);
                sum = sum.wrapping_mul(31).wrapping_add(space.with(p, j, ballot));
            }
        }
    }
    sum
}

fn swap(space: &Space) -> u32 {
    let alternatives = space.size().alternatives() as u32;
    let mut sum: u32 = 0;
    for x in 0..alternatives {
        for y in 0..alternatives {
            for z in 0..alternatives {
                for _i in 0..1000 {
                    sum = sum.wrapping_mul(31).wrapping_add(space.swap(x, y, z));
                }
            }
        }
    }
    sum
}

fn ballot_texts(space: &Space) -> u32 {
    if space.size().absent() {
        return 0;
    }
    let voters = space.size().voters() as u32;
    let mut sum: u32 = 0;
    for i in 0..voters.min(1) {
        for p in 0..space.count() {
            let text = space.ballot_text(voted(space, p, i));
            let read = match space.read_ballot(text.bytes()) {
                Some(ballot) => ballot,
                None => 1,
            };
            sum = sum.wrapping_mul(31).wrapping_add(read);
        }
    }
    sum
}

fn texts(space: &Space) -> u32 {
    let mut sum: u32 = 0;
    for p in 0..space.count() {
        let text = space.profile_text(p);
        let read = match space.read_profile(text.bytes()) {
            Ok(q) => q,
            Err(_) => 1,
        };
        sum = sum.wrapping_mul(31).wrapping_add(read);
    }
    sum
}

fn line(rt: &HostRuntime, call: &str, space: &Space) -> io::Result<()> {
    let mut sum: u32 = 0;
    let start = Instant::now(rt)?;
    for _i in 0..20 {
        sum = sum.wrapping_add(match call {
            "prefers" => prefers(space),
            "majority" => majority(space),
            "swap_alts" => swap_alts(space),
            "swap_voters" => swap_voters(space),
            "ballots" => ballots(space),
            "better" => better(space),
            "with" => with(space),
            "swap" => swap(space),
            "ballot_texts" => ballot_texts(space),
            _ => texts(space),
        });
    }
    let spent = start.elapsed(rt)?.as_nanos();
    println!(rt; "{call} {sum} {spent}")?;
    Ok(())
}

fn main(rt: HostRuntime) -> io::Result<()> {
    for (voters, alternatives) in [(8, 2), (5, 3), (3, 4), (2, 5)] {
        let Ok(size) = Size::check(Kind::Choice, voters, alternatives) else {
            return Ok(());
        };
        let space = Space::new(size);
        for call in ["prefers", "majority", "swap_alts", "swap_voters", "ballots", "better", "with", "swap", "ballot_texts", "texts"] {
            line(&rt, call, &space)?;
        }
    }
    Ok(())
}
RT
(cd "$work/copy/crates/profile_calls" && rt run >"$work/run.log" 2>&1) || { grep -E "error|not proved" "$work/run.log" || tail -20 "$work/run.log"; exit 1; }
rustc -O --edition 2021 -o "$work/baseline" "$root/measure/profiles.rs"
python3 - "$work/copy/crates/profile_calls/out/profile_calls" "$work/baseline" <<'PY'
import subprocess, sys
def shortest(program):
    best = None
    for _ in range(5):
        lines = [line.split() for line in subprocess.run([program], capture_output=True, text=True, check=True).stdout.splitlines()]
        now = [(call, answer, int(spent)) for call, answer, spent in lines]
        best = now if best is None else [min(a, b, key=lambda row: row[2]) for a, b in zip(best, now)]
    return best
bench, plain = shortest(sys.argv[1]), shortest(sys.argv[2])
sizes = [size for size in ("8 voters 2", "5 voters 3", "3 voters 4", "2 voters 5") for _ in range(10)]
for size, ours, theirs in zip(sizes, bench, plain):
    assert ours[:2] == theirs[:2], (size, ours, theirs)
    print("%s: %s %d ns, plain %d ns, ratio %.2f" % (size, ours[0], ours[2], theirs[2], ours[2] / theirs[2]))
print("ratio %.2f" % (sum(row[2] for row in bench) / sum(row[2] for row in plain)))
PY
