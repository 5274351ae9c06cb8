// Writes clauses and a refutation of them: refutation CNF PROOF COUNT VARIABLES CLAUSES. The clauses are so many random lists of
// clauses of three literals that no assignment satisfies, each list over variables of its own and with one more literal that turns
// it off, and last the clause that one list is on. The refutation has the lines that the search of measure/watched.rs learns from
// each list. A clause that is not cited any more is taken away, some of them at a time.
use std::fs::File;
use std::io::{BufWriter, Result, Write};

#[allow(dead_code)]
#[path = "watched.rs"]
mod watched;
use watched::{random, solve, Answer, Line, Lit, Store, SEED};

// The most clauses that a search learns.
const LIMIT: u32 = 100_000;

// How many clauses are taken away at a time.
const DROPPED: usize = 50;

// A list that no assignment satisfies, and its refutation.
struct Part {
    clauses: Store,
    lines: Vec<Line>,
}

fn parts(count: usize, variables: u32, clauses: u32) -> Vec<Part> {
    let mut parts = Vec::new();
    let mut state = SEED;
    while parts.len() < count {
        let (list, after) = random(variables, clauses, state);
        state = after;
        if let Answer::Refuted(lines) = solve(&list, variables, LIMIT) {
            parts.push(Part { clauses: list, lines });
        }
    }
    parts
}

fn put_lits(out: &mut impl Write, lits: &[Lit], before: u32, switch: u32) -> Result<()> {
    for lit in lits {
        let sign = if lit.positive() { "" } else { "-" };
        write!(out, "{sign}{} ", lit.variable() + before)?;
    }
    write!(out, "{switch} 0")
}

fn put_ids(out: &mut impl Write, ids: &[u64]) -> Result<()> {
    for id in ids {
        write!(out, "{id} ")?;
    }
    writeln!(out, "0")
}

// For each line, the clauses that no later one cites; the last line is for the end of all.
fn droppable(part: &Part) -> Vec<Vec<u64>> {
    let mut last = vec![0; part.clauses.len() + part.lines.len()];
    for (place, (id, _, hints)) in part.lines.iter().enumerate() {
        for cited in hints.iter().chain([id]) {
            last[*cited as usize - 1] = place;
        }
    }
    last.pop();
    let mut ids = vec![Vec::new(); part.lines.len()];
    for (k, place) in last.iter().enumerate() {
        ids[*place].push(k as u64 + 1);
    }
    ids
}

fn main() -> Result<()> {
    let words: Vec<String> = std::env::args().skip(1).collect();
    let numbers: Vec<u32> = words[2..].iter().map(|word| word.parse().unwrap()).collect();
    let (count, variables, length) = (numbers[0], numbers[1], numbers[2]);
    let parts = parts(count as usize, variables, length);
    let total = u64::from(count * length + 1);
    let switches = count * variables + 1..=count * (variables + 1);
    let mut cnf = BufWriter::new(File::create(&words[0])?);
    writeln!(cnf, "p cnf {} {total}", switches.end())?;
    for (k, part) in parts.iter().enumerate() {
        for place in 0..part.clauses.len() {
            put_lits(&mut cnf, part.clauses.get(place), k as u32 * variables, switches.start() + k as u32)?;
            writeln!(cnf)?;
        }
    }
    switches.clone().try_for_each(|switch| write!(cnf, "-{switch} "))?;
    writeln!(cnf, "0")?;
    let mut proof = BufWriter::new(File::create(&words[1])?);
    let mut added = total;
    let mut ends = Vec::new();
    for (k, part) in parts.iter().enumerate() {
        let start = added;
        let whole = |id: u64| if id <= u64::from(length) { k as u64 * u64::from(length) + id } else { start + id - u64::from(length) };
        let mut dropped = Vec::new();
        for ((id, clause, hints), gone) in part.lines.iter().zip(droppable(part)) {
            added = whole(*id);
            write!(proof, "{added} ")?;
            put_lits(&mut proof, clause, k as u32 * variables, switches.start() + k as u32)?;
            write!(proof, " ")?;
            put_ids(&mut proof, &hints.iter().map(|id| whole(*id)).collect::<Vec<u64>>())?;
            dropped.extend(gone.into_iter().map(whole));
            if dropped.len() >= DROPPED || clause.is_empty() {
                write!(proof, "{added} d ")?;
                put_ids(&mut proof, &dropped)?;
                dropped.clear();
            }
        }
        ends.push(added);
    }
    write!(proof, "{} 0 ", added + 1)?;
    put_ids(&mut proof, &ends.into_iter().chain([total]).collect::<Vec<u64>>())?;
    cnf.flush()?;
    proof.flush()
}
