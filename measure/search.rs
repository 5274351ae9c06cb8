// A search for an assignment in plain Rust, by the textbook: scanning propagation, the clause of the first unique implication
// point, a jump to its assertion level, the least variable first, false first. Crate `cdcl` once ran it step by step; now it is
// the fixed baseline of measure/search.sh. Prints the answer and the nanoseconds of the search.
use std::time::Instant;

#[derive(Clone, Copy, PartialEq, Eq)]
struct Lit {
    code: u32,
}

impl Lit {
    fn new(variable: u32, positive: bool) -> Lit {
        Lit { code: 2 * variable + positive as u32 }
    }
    fn variable(self) -> u32 {
        self.code / 2
    }
    fn positive(self) -> bool {
        self.code % 2 == 1
    }
    fn opposite(self) -> Lit {
        Lit { code: self.code ^ 1 }
    }
}

struct Store {
    literals: Vec<Lit>,
    ends: Vec<usize>,
}

impl Store {
    fn new() -> Store {
        Store { literals: Vec::new(), ends: Vec::new() }
    }
    fn len(&self) -> usize {
        self.ends.len()
    }
    fn get(&self, k: usize) -> &[Lit] {
        let from = if k == 0 { 0 } else { self.ends[k - 1] };
        &self.literals[from..self.ends[k]]
    }
    fn push(&mut self, clause: &[Lit]) {
        self.literals.extend_from_slice(clause);
        self.ends.push(self.literals.len());
    }
}

#[derive(Clone, Copy)]
struct Entry {
    literal: Lit,
    level: u32,
    reason: Option<u32>,
}

enum Scan {
    Falsified,
    LastLeft(Lit),
    AtRest,
}

struct Trail {
    clauses: Store,
    marks: Vec<Option<Entry>>,
    entries: Vec<Entry>,
    level: u32,
}

impl Trail {
    fn entry(&self, variable: u32) -> Option<Entry> {
        self.marks[variable as usize - 1]
    }
    fn value(&self, variable: u32) -> Option<bool> {
        self.entry(variable).map(|e| e.literal.positive())
    }
    fn put(&mut self, e: Entry) {
        self.marks[e.literal.variable() as usize - 1] = Some(e);
        self.entries.push(e);
    }
    fn scan(&self, clause: &[Lit]) -> Scan {
        let mut left: Option<Lit> = None;
        for lit in clause {
            match self.value(lit.variable()) {
                Some(value) => {
                    if value == lit.positive() {
                        return Scan::AtRest;
                    }
                }
                None => match left {
                    None => left = Some(*lit),
                    Some(first) => {
                        if first != *lit {
                            return Scan::AtRest;
                        }
                    }
                },
            }
        }
        match left {
            None => Scan::Falsified,
            Some(lit) => Scan::LastLeft(lit),
        }
    }
    fn propagate(&mut self) -> Option<u32> {
        loop {
            let before = self.entries.len();
            for k in 0..self.clauses.len() {
                match self.scan(self.clauses.get(k)) {
                    Scan::Falsified => return Some(k as u32),
                    Scan::LastLeft(literal) => {
                        let level = self.level;
                        self.put(Entry { literal, level, reason: Some(k as u32) })
                    }
                    Scan::AtRest => {}
                }
            }
            if self.entries.len() == before {
                return None;
            }
        }
    }
    fn back_to(&mut self, level: u32) {
        while let Some(e) = self.entries.last() {
            if e.level <= level {
                break;
            }
            self.marks[e.literal.variable() as usize - 1] = None;
            self.entries.pop();
        }
        self.level = level;
    }
}

struct Lesson {
    clause: Vec<Lit>,
    hints: Vec<u32>,
    level: u32,
}

fn mark_clause(trail: &Trail, clause: &[Lit], skip: Option<Lit>, seen: &mut [bool], lower: &mut Vec<Lit>, pending: &mut usize) {
    for lit in clause {
        if skip == Some(*lit) || seen[lit.variable() as usize - 1] {
            continue;
        }
        seen[lit.variable() as usize - 1] = true;
        if trail.entry(lit.variable()).is_some_and(|e| e.level == trail.level) {
            *pending += 1;
        } else {
            lower.push(*lit);
        }
    }
}

fn analyze(trail: &Trail, conflict: u32) -> Lesson {
    let mut seen = vec![false; trail.marks.len()];
    let mut lower = Vec::new();
    let mut hints = vec![conflict];
    let mut pending = 0;
    mark_clause(trail, trail.clauses.get(conflict as usize), None, &mut seen, &mut lower, &mut pending);
    let mut place = trail.entries.len();
    loop {
        place -= 1;
        let lit = trail.entries[place].literal;
        let e = trail.entry(lit.variable()).unwrap();
        if !seen[lit.variable() as usize - 1] || e.level != trail.level {
            continue;
        }
        if pending == 1 {
            let level = lower.iter().map(|l| trail.entry(l.variable()).unwrap().level).max().unwrap_or(0);
            lower.push(lit.opposite());
            hints.reverse();
            return Lesson { clause: lower, hints, level };
        }
        let k = e.reason.unwrap();
        hints.push(k);
        pending -= 1;
        mark_clause(trail, trail.clauses.get(k as usize), Some(lit), &mut seen, &mut lower, &mut pending);
    }
}

fn solve(clauses: &Store, variables: u32, limit: u32) -> String {
    let mut store = Store::new();
    for k in 0..clauses.len() {
        store.push(clauses.get(k));
    }
    let mut trail = Trail { clauses: store, marks: vec![None; variables as usize], entries: Vec::with_capacity(variables as usize), level: 0 };
    let mut lines: Vec<(u64, Vec<Lit>, Vec<u64>)> = Vec::new();
    for _ in 0..limit {
        let conflict = loop {
            if let Some(k) = trail.propagate() {
                break Some(k);
            }
            match (1..=variables).find(|v| trail.value(*v).is_none()) {
                None => break None,
                Some(v) => {
                    trail.level += 1;
                    let level = trail.level;
                    trail.put(Entry { literal: Lit::new(v, false), level, reason: None });
                }
            }
        };
        let Some(conflict) = conflict else {
            return format!("found {}", (1..=variables).filter(|v| trail.value(*v) == Some(true)).count());
        };
        if trail.level == 0 {
            return format!("refuted {}", lines.len() + 1);
        }
        let lesson = analyze(&trail, conflict);
        trail.back_to(lesson.level);
        trail.clauses.push(&lesson.clause);
        let id = (clauses.len() + lines.len() + 1) as u64;
        lines.push((id, lesson.clause.clone(), lesson.hints.iter().map(|h| *h as u64 + 1).collect()));
    }
    format!("spent {}", lines.len())
}

fn next(state: u64) -> u64 {
    let a = state ^ (state << 13);
    let b = a ^ (a >> 7);
    b ^ (b << 17)
}

fn pick(state: u64, below: u32) -> u32 {
    ((state >> 33) % u64::from(below)) as u32
}

fn main() {
    let (variables, count) = (120, 530);
    let mut state: u64 = 88172645463325252;
    let mut clauses = Store::new();
    for _ in 0..count {
        let mut clause = Vec::new();
        for _ in 0..3 {
            state = next(state);
            let variable = pick(state, variables) + 1;
            state = next(state);
            clause.push(Lit::new(variable, pick(state, 2) == 1));
        }
        clauses.push(&clause);
    }
    let start = Instant::now();
    let answer = solve(&clauses, variables, 100_000);
    println!("{answer} {}", start.elapsed().as_nanos());
}
