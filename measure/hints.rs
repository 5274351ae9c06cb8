// Gives a proof its hints: hints CNF DRAT LRAT reads clauses in DIMACS CNF and a proof in DRAT as text, without RAT steps, and writes the
// same proof as LRAT. Each clause that the proof adds is checked as it comes: with its literals false, unit propagation over all clauses
// that stand (two literals of each are watched) has to falsify one. Its hints are the clauses that made true what the conflict
// needs, in that order, and then the falsified one. What is true whatever is supposed stays so, with its reasons: a clause that is such
// a reason is not taken away, as in `drat-trim`; other deletions are passed on. The proof ends at the first empty clause, also where the
// text would only say it later. A clause that does not follow so stops the program, which says where.
use std::collections::HashMap;
use std::fs::File;
use std::io::{BufWriter, Result, Write};

const NONE: u32 = u32::MAX;

// A literal is twice its variable, and one more where it is negated.
type Lit = u32;

fn opposite(lit: Lit) -> Lit {
    lit ^ 1
}

fn stop(text: &str) -> ! {
    eprintln!("hints: {text}");
    std::process::exit(1)
}

// A watched clause, and a literal of it: where that is true the clause need not be looked at.
#[derive(Clone, Copy)]
struct Watch {
    clause: u32,
    blocker: Lit,
}

#[derive(Default)]
struct Clauses {
    literals: Vec<Lit>,
    ends: Vec<usize>,
    // the clauses that stand, by a sum over their literals: the last of each sum, and the one before each
    last: HashMap<u64, u32>,
    before: Vec<u32>,
    // the id of each clause in the text that is written
    ids: Vec<u64>,
    gone: Vec<bool>,
}

// A sum that does not depend on the order of the literals.
fn sum(clause: &[Lit]) -> u64 {
    clause.iter().fold(0, |total: u64, lit| {
        let mixed = (u64::from(*lit) + 1).wrapping_mul(0x9E37_79B9_7F4A_7C15);
        total.wrapping_add((mixed ^ mixed >> 29).wrapping_mul(0xBF58_476D_1CE4_E5B9))
    })
}

impl Clauses {
    fn range(&self, k: u32) -> std::ops::Range<usize> {
        let from = if k == 0 { 0 } else { self.ends[k as usize - 1] };
        from..self.ends[k as usize]
    }
    fn get(&self, k: u32) -> &[Lit] {
        &self.literals[self.range(k)]
    }
    fn push(&mut self, clause: &[Lit], id: u64) -> u32 {
        let k = self.ends.len() as u32;
        self.literals.extend_from_slice(clause);
        self.ends.push(self.literals.len());
        self.before.push(self.last.insert(sum(clause), k).unwrap_or(NONE));
        self.ids.push(id);
        self.gone.push(false);
        k
    }
    // The last clause with these literals, sorted, that is not gone and that may go.
    fn find(&self, clause: &[Lit], may_go: impl Fn(u32) -> bool) -> Option<u32> {
        let mut k = *self.last.get(&sum(clause))?;
        while k != NONE {
            if !self.gone[k as usize] && may_go(k) {
                let mut found = self.get(k).to_vec();
                found.sort_unstable();
                if found == clause {
                    return Some(k);
                }
            }
            k = self.before[k as usize];
        }
        None
    }
}

// What is true, and by which clause, above the clauses that stand.
struct Checker {
    clauses: Clauses,
    watches: Vec<Vec<Watch>>,
    truth: Vec<bool>,
    reasons: Vec<u32>,
    trail: Vec<Lit>,
    // how many entries of the trail have been propagated, and how many stay whatever is supposed
    done: usize,
    kept: usize,
    needed: Vec<bool>,
}

impl Checker {
    fn new(variables: usize) -> Checker {
        Checker {
            clauses: Clauses::default(),
            watches: vec![Vec::new(); 2 * variables + 2],
            truth: vec![false; 2 * variables + 2],
            reasons: vec![NONE; variables + 1],
            trail: Vec::new(),
            done: 0,
            kept: 0,
            needed: vec![false; variables + 1],
        }
    }
    fn is_true(&self, lit: Lit) -> bool {
        self.truth[lit as usize]
    }
    fn is_false(&self, lit: Lit) -> bool {
        self.truth[opposite(lit) as usize]
    }
    fn make_true(&mut self, lit: Lit, reason: u32) {
        self.truth[lit as usize] = true;
        self.reasons[lit as usize / 2] = reason;
        self.trail.push(lit);
    }
    // Whether the clause is the reason of what stays true.
    fn is_reason(&self, k: u32) -> bool {
        self.clauses.get(k).iter().any(|lit| self.is_true(*lit) && self.reasons[*lit as usize / 2] == k)
    }

    // Propagates all that is true, up to the first clause that is falsified.
    fn propagate(&mut self) -> Option<u32> {
        while self.done < self.trail.len() {
            let lost = opposite(self.trail[self.done]);
            self.done += 1;
            let mut list = std::mem::take(&mut self.watches[lost as usize]);
            let (mut from, mut to) = (0, 0);
            let mut conflict = None;
            while from < list.len() {
                let watch = list[from];
                from += 1;
                if self.clauses.gone[watch.clause as usize] {
                    continue;
                }
                if self.is_true(watch.blocker) {
                    list[to] = watch;
                    to += 1;
                    continue;
                }
                let range = self.clauses.range(watch.clause);
                let clause = &mut self.clauses.literals[range];
                if clause[0] == lost {
                    clause.swap(0, 1);
                }
                let other = clause[0];
                if !self.truth[other as usize] {
                    if let Some(place) = (2..clause.len()).find(|place| !self.truth[opposite(clause[*place]) as usize]) {
                        clause.swap(1, place);
                        self.watches[clause[1] as usize].push(Watch { clause: watch.clause, blocker: other });
                        continue;
                    }
                }
                list[to] = Watch { clause: watch.clause, blocker: other };
                to += 1;
                if self.is_false(other) {
                    conflict = Some(watch.clause);
                    break;
                }
                if !self.is_true(other) {
                    self.make_true(other, watch.clause);
                }
            }
            list.copy_within(from.., to);
            list.truncate(list.len() - (from - to));
            self.watches[lost as usize] = list;
            if conflict.is_some() {
                return conflict;
            }
        }
        None
    }

    // The ids of the clauses that made true what falsifies this one, and last its own.
    fn hints(&mut self, conflict: u32) -> Vec<u64> {
        let mut hints = vec![self.clauses.ids[conflict as usize]];
        let mut left = 0;
        for lit in self.clauses.get(conflict) {
            left += !std::mem::replace(&mut self.needed[*lit as usize / 2], true) as usize;
        }
        for place in (0..self.trail.len()).rev() {
            if left == 0 {
                break;
            }
            let variable = self.trail[place] as usize / 2;
            if !std::mem::replace(&mut self.needed[variable], false) {
                continue;
            }
            left -= 1;
            let reason = self.reasons[variable];
            if reason != NONE {
                hints.push(self.clauses.ids[reason as usize]);
                for lit in self.clauses.get(reason) {
                    if *lit as usize / 2 != variable {
                        left += !std::mem::replace(&mut self.needed[*lit as usize / 2], true) as usize;
                    }
                }
            }
        }
        hints.reverse();
        hints
    }

    // Takes a clause in, which is new: two of its literals that are not false are watched. Where one is left it is true from now on, and
    // where none is, the clause is falsified.
    fn add(&mut self, clause: &[Lit], id: u64) -> Option<u32> {
        let mut sorted = clause.to_vec();
        sorted.sort_by_key(|lit| self.is_false(*lit));
        let open = sorted.iter().filter(|lit| !self.is_false(**lit)).count();
        let k = self.clauses.push(&sorted, id);
        match open {
            0 => return Some(k),
            1 => {
                if !self.is_true(sorted[0]) {
                    self.make_true(sorted[0], k);
                }
            }
            _ => {
                for place in 0..2 {
                    self.watches[sorted[place] as usize].push(Watch { clause: k, blocker: sorted[1 - place] });
                }
            }
        }
        None
    }

    // The hints of a clause that follows by unit propagation. Nothing is true afterwards but what was before.
    fn follows(&mut self, clause: &[Lit]) -> Option<Vec<u64>> {
        // where a literal is true for good, the clause that made it so is falsified
        let held = clause.iter().any(|lit| self.is_true(*lit));
        let first = if held { self.trail.iter().find(|lit| clause.contains(lit)) } else { None };
        let mut conflict = first.map(|lit| self.reasons[*lit as usize / 2]);
        // what is supposed needs no reason, though it may have one
        let mut supposed = Vec::new();
        for lit in clause {
            let variable = *lit as usize / 2;
            if self.is_true(*lit) || self.is_false(*lit) {
                supposed.push((variable, std::mem::replace(&mut self.reasons[variable], NONE)));
            } else if !held {
                self.make_true(opposite(*lit), NONE);
            }
        }
        if !held {
            conflict = self.propagate();
        }
        let hints = conflict.map(|k| self.hints(k));
        for (variable, reason) in supposed {
            self.reasons[variable] = reason;
        }
        for lit in self.trail.drain(self.kept..) {
            self.truth[lit as usize] = false;
        }
        self.done = self.kept;
        hints
    }

    // Propagates what was added, which stays; the hints of the empty clause where it comes to a conflict.
    fn settle(&mut self, falsified: Option<u32>) -> Option<Vec<u64>> {
        let conflict = falsified.or_else(|| self.propagate());
        self.kept = self.trail.len();
        conflict.map(|k| self.hints(k))
    }
}

// The literals of some words up to their 0, sorted and each once.
fn clause_of<'a>(words: &mut impl Iterator<Item = &'a str>, variables: usize) -> Option<Vec<Lit>> {
    let mut clause = Vec::new();
    loop {
        match words.next()?.parse::<i64>() {
            Ok(0) => break,
            Ok(n) if n.unsigned_abs() <= variables as u64 => clause.push(2 * n.unsigned_abs() as Lit + (n < 0) as Lit),
            _ => return None,
        }
    }
    clause.sort_unstable();
    clause.dedup();
    Some(clause)
}

// Clauses with a variable and its negation are true: nothing follows from them.
fn is_tautology(clause: &[Lit]) -> bool {
    clause.windows(2).any(|pair| pair[0] == opposite(pair[1]))
}

fn put_ids(out: &mut impl Write, ids: &[u64]) -> Result<()> {
    for id in ids {
        write!(out, "{id} ")?;
    }
    writeln!(out, "0")
}

fn put_clause(out: &mut impl Write, id: u64, clause: &[Lit], hints: &[u64]) -> Result<()> {
    write!(out, "{id} ")?;
    for lit in clause {
        write!(out, "{}{} ", if lit % 2 == 1 { "-" } else { "" }, lit / 2)?;
    }
    write!(out, "0 ")?;
    put_ids(out, hints)
}

fn put_deleted(out: &mut impl Write, last: u64, gone: &mut Vec<u64>) -> Result<()> {
    if !gone.is_empty() {
        write!(out, "{last} d ")?;
        put_ids(out, gone)?;
        gone.clear();
    }
    Ok(())
}

// The clauses of a text that are no tautologies, held by the checker, with the hints of the empty clause where propagation alone comes
// to it; and how many clauses the text has.
fn read_clauses(text: &str) -> (usize, Checker, Option<Vec<u64>>, u64) {
    let mut lines = text.lines().filter(|line| !line.starts_with('c') && !line.trim().is_empty());
    let header = lines.next().and_then(|line| line.trim().strip_prefix("p cnf ")).unwrap_or("");
    let numbers: Vec<u64> = header.split_whitespace().filter_map(|word| word.parse().ok()).collect();
    let [variables, count] = numbers[..] else { stop("the clauses have no line `p cnf V C`") };
    let mut checker = Checker::new(variables as usize);
    let mut falsified = None;
    let mut id = 0;
    let mut words = lines.flat_map(str::split_whitespace).peekable();
    while words.peek().is_some() {
        id += 1;
        let Some(clause) = clause_of(&mut words, variables as usize) else { stop(&format!("clause {id} of the clauses has no form")) };
        if !is_tautology(&clause) {
            falsified = checker.add(&clause, id).or(falsified);
        }
    }
    if id != count {
        stop(&format!("there are {id} clauses, not {count}"));
    }
    let empty = checker.settle(falsified);
    (variables as usize, checker, empty, id)
}

fn main() -> Result<()> {
    let files: Vec<String> = std::env::args().skip(1).collect();
    let (variables, mut checker, mut empty, mut id) = read_clauses(&std::fs::read_to_string(&files[0])?);
    let Ok(proof) = String::from_utf8(std::fs::read(&files[1])?) else { stop("the proof is no text: DRAT in binary form is not read") };
    let mut out = BufWriter::new(File::create(&files[2])?);
    let mut gone = Vec::new();
    for (line, text) in (1..).zip(proof.lines()) {
        if empty.is_some() {
            break;
        }
        let mut words = text.split_whitespace().peekable();
        let dropped = words.next_if_eq(&"d").is_some();
        if !dropped && (words.peek().is_none() || words.peek() == Some(&"c")) {
            continue;
        }
        let Some(clause) = clause_of(&mut words, variables) else { stop(&format!("line {line} of the proof has no form")) };
        if dropped {
            if let Some(k) = checker.clauses.find(&clause, |k| !checker.is_reason(k)) {
                checker.clauses.gone[k as usize] = true;
                gone.push(checker.clauses.ids[k as usize]);
            }
        } else if !is_tautology(&clause) {
            let Some(hints) = checker.follows(&clause) else {
                stop(&format!("line {line} of the proof does not follow by unit propagation: a RAT step, or no step"))
            };
            put_deleted(&mut out, id, &mut gone)?;
            id += 1;
            put_clause(&mut out, id, &clause, &hints)?;
            let falsified = checker.add(&clause, id);
            empty = checker.settle(falsified);
        }
    }
    let Some(hints) = empty else { stop("the proof ends before the empty clause") };
    put_deleted(&mut out, id, &mut gone)?;
    put_clause(&mut out, id + 1, &[], &hints)?;
    out.flush()
}
