// The search of crate `cdcl` in plain Rust, the same algorithm step by step: each clause of two different literals or more is
// watched at two of them, the watchers of a literal are a linked list, the variable of greatest activity is decided with the sign
// that it last had, the clause of the first unique implication point is learned and watched at the literal that it forces and at the
// one that is false by the last entry, and the search begins anew after 64 times the next number of Luby's series. For the clauses of
// a file, or for random lists by pairs of a number of variables and one of clauses, it prints the answer and the nanoseconds of the
// search. measure/refutation.rs takes the lines of a refutation from it.
use std::time::Instant;

#[derive(Clone, Copy, PartialEq, Eq)]
pub struct Lit {
    code: u32,
}

impl Lit {
    fn new(variable: u32, positive: bool) -> Lit {
        Lit { code: 2 * variable + positive as u32 }
    }
    pub fn variable(self) -> u32 {
        self.code / 2
    }
    pub fn positive(self) -> bool {
        self.code % 2 == 1
    }
    fn opposite(self) -> Lit {
        Lit { code: self.code ^ 1 }
    }
}

pub struct Store {
    literals: Vec<Lit>,
    ends: Vec<usize>,
}

impl Store {
    fn new() -> Store {
        Store { literals: Vec::new(), ends: Vec::new() }
    }
    pub fn len(&self) -> usize {
        self.ends.len()
    }
    pub fn get(&self, k: usize) -> &[Lit] {
        let from = if k == 0 { 0 } else { self.ends[k - 1] };
        &self.literals[from..self.ends[k]]
    }
    fn push(&mut self, clause: &[Lit]) {
        self.literals.extend_from_slice(clause);
        self.ends.push(self.literals.len());
    }
}

#[derive(Clone, Copy)]
struct Entry {
    literal: Lit,
    level: u32,
    reason: Option<u32>,
}

const END: usize = usize::MAX;

// Linked lists of nodes: clause k has the nodes 2k and 2k + 1, each in the list of its literal, or in list 0.
struct Links {
    owners: Vec<u32>,
    heads: Vec<usize>,
    next: Vec<usize>,
}

impl Links {
    fn add(&mut self, list: u32) {
        self.next.push(self.heads[list as usize]);
        self.heads[list as usize] = self.owners.len();
        self.owners.push(list);
    }
    fn put(&mut self, node: usize, list: u32) {
        self.owners[node] = list;
        self.next[node] = self.heads[list as usize];
        self.heads[list as usize] = node;
    }
}

struct Trail {
    clauses: Store,
    marks: Vec<Option<Entry>>,
    entries: Vec<Entry>,
    level: u32,
    links: Links,
    visited: usize,
    scanned: usize,
}

impl Trail {
    fn new(clauses: &Store, variables: u32) -> Trail {
        let links = Links { owners: Vec::new(), heads: vec![END; 2 * variables as usize + 2], next: Vec::new() };
        let entries = Vec::with_capacity(variables as usize);
        let mut trail = Trail { clauses: Store::new(), marks: vec![None; variables as usize], entries, level: 0, links, visited: 0, scanned: 0 };
        for k in 0..clauses.len() {
            let lists = trail.pick(clauses.get(k));
            trail.add(clauses.get(k), lists);
        }
        trail
    }
    fn entry(&self, variable: u32) -> Option<Entry> {
        self.marks[variable as usize - 1]
    }
    fn value(&self, variable: u32) -> Option<bool> {
        self.entry(variable).map(|e| e.literal.positive())
    }
    fn put(&mut self, e: Entry) {
        self.marks[e.literal.variable() as usize - 1] = Some(e);
        self.entries.push(e);
    }
    fn decide(&mut self, literal: Lit) {
        self.level += 1;
        self.put(Entry { literal, level: self.level, reason: None });
    }
    fn is_ready(&self, lit: Lit) -> bool {
        self.entry(lit.variable()).is_none_or(|e| e.literal == lit || e.level == self.level)
    }
    fn pick(&self, clause: &[Lit]) -> (u32, u32) {
        let mut ready = clause.iter().filter(|lit| self.is_ready(**lit));
        let Some(first) = ready.next() else {
            return (0, 0);
        };
        ready.find(|lit| *lit != first).map_or((0, 0), |other| (first.code, other.code))
    }
    fn add(&mut self, clause: &[Lit], (a, b): (u32, u32)) {
        self.clauses.push(clause);
        self.links.add(a);
        self.links.add(b);
    }
    // How many of the entries visited have a lower level than the current one.
    fn start(&self) -> usize {
        let top = self.entries[..self.visited].iter().rev().take_while(|e| e.level == self.level);
        self.visited - top.count()
    }
    // The literal of the clause that is false by the last entry of the current level, and the place of that entry.
    fn last_false(&self, clause: &[Lit]) -> Option<(Lit, usize)> {
        let places = (self.start()..self.visited).rev();
        places.map(|place| (self.entries[place].literal.opposite(), place)).find(|(lit, _)| clause.contains(lit))
    }
    fn choose(&self, clause: &[Lit]) -> ((u32, u32), usize) {
        if let Some((failing, place)) = self.last_false(clause) {
            if let Some(left) = self.replacement(clause, failing) {
                return ((left.code, failing.code), place);
            }
        }
        let lists = self.pick(clause);
        (lists, if lists == (0, 0) { self.visited } else { self.start() })
    }
    fn learn(&mut self, clause: &[Lit]) {
        let (lists, place) = self.choose(clause);
        self.add(clause, lists);
        self.visited = place;
    }
    fn force_unwatched(&mut self) -> Option<u32> {
        for k in self.scanned..self.clauses.len() {
            let clause = self.clauses.get(k);
            if self.links.owners[2 * k] != 0 || clause.iter().any(|l| self.value(l.variable()) == Some(l.positive())) {
                continue;
            }
            match clause.iter().find(|l| self.value(l.variable()).is_none()) {
                None => return Some(k as u32),
                Some(l) => {
                    let e = Entry { literal: *l, level: self.level, reason: Some(k as u32) };
                    self.put(e);
                }
            }
        }
        self.scanned = self.clauses.len();
        None
    }
    fn replacement(&self, clause: &[Lit], other: Lit) -> Option<Lit> {
        let left = |lit: &&Lit| **lit != other && self.value(lit.variable()).is_none_or(|value| value == lit.positive());
        clause.iter().find(left).copied()
    }
    fn visit(&mut self, list: u32) -> Option<u32> {
        let mut node = self.links.heads[list as usize];
        self.links.heads[list as usize] = END;
        while node != END {
            let after = self.links.next[node];
            let other = Lit { code: self.links.owners[node ^ 1] };
            let value = self.value(other.variable());
            if value == Some(other.positive()) {
                self.links.put(node, list);
            } else if let Some(lit) = self.replacement(self.clauses.get(node / 2), other) {
                self.links.put(node, lit.code);
            } else if value.is_none() {
                self.put(Entry { literal: other, level: self.level, reason: Some((node / 2) as u32) });
                self.links.put(node, list);
            } else {
                let k = (node / 2) as u32;
                while node != END {
                    let after = self.links.next[node];
                    self.links.put(node, list);
                    node = after;
                }
                return Some(k);
            }
            node = after;
        }
        None
    }
    fn propagate(&mut self) -> Option<u32> {
        if let Some(k) = self.force_unwatched() {
            return Some(k);
        }
        while self.visited < self.entries.len() {
            let list = self.entries[self.visited].literal.opposite().code;
            if let Some(k) = self.visit(list) {
                return Some(k);
            }
            self.visited += 1;
        }
        None
    }
    fn back_to(&mut self, level: u32) {
        while let Some(e) = self.entries.last() {
            if e.level <= level {
                break;
            }
            self.marks[e.literal.variable() as usize - 1] = None;
            self.entries.pop();
        }
        self.level = level;
        self.visited = self.visited.min(self.entries.len());
    }
}

// A heap of variables, the greatest activity first, and of those the least variable. Those that it holds stand at the first places.
struct Order {
    activity: Vec<u64>,
    phase: Vec<bool>,
    heap: Vec<u32>,
    place: Vec<u32>,
    size: usize,
}

impl Order {
    fn new(variables: u32) -> Order {
        let count = variables as usize;
        Order { activity: vec![0; count], phase: vec![false; count], heap: (0..variables).collect(), place: (0..variables).collect(), size: count }
    }
    fn is_before(&self, i: usize, j: usize) -> bool {
        let (a, b) = (self.heap[i], self.heap[j]);
        let (one, other) = (self.activity[a as usize], self.activity[b as usize]);
        if one == other { a < b } else { one > other }
    }
    fn swap(&mut self, i: usize, j: usize) {
        self.heap.swap(i, j);
        self.place[self.heap[i] as usize] = i as u32;
        self.place[self.heap[j] as usize] = j as u32;
    }
    fn rise(&mut self, mut at: usize) {
        while at > 0 && self.is_before(at, (at - 1) / 2) {
            self.swap(at, (at - 1) / 2);
            at = (at - 1) / 2;
        }
    }
    fn sink(&mut self, mut at: usize) {
        while at < self.size / 2 {
            let left = 2 * at + 1;
            let best = if left + 1 < self.size && self.is_before(left + 1, left) { left + 1 } else { left };
            if !self.is_before(best, at) {
                return;
            }
            self.swap(at, best);
            at = best;
        }
    }
    fn pop(&mut self) -> Option<u32> {
        if self.size == 0 {
            return None;
        }
        let first = self.heap[0];
        self.swap(0, self.size - 1);
        self.size -= 1;
        self.sink(0);
        Some(first + 1)
    }
    fn put_back(&mut self, lit: Lit) {
        let v = lit.variable() as usize - 1;
        self.phase[v] = lit.positive();
        let at = self.place[v] as usize;
        if at >= self.size {
            self.swap(at, self.size);
            self.size += 1;
            self.rise(self.size - 1);
        }
    }
    fn raise(&mut self, variable: u32) {
        let v = variable as usize - 1;
        self.activity[v] += 1;
        if self.activity[v] >= 1 << 62 {
            self.activity.iter_mut().for_each(|a| *a /= 2);
            (0..self.size).rev().for_each(|at| self.sink(at));
        } else if (self.place[v] as usize) < self.size {
            self.rise(self.place[v] as usize);
        }
    }
}

struct Lesson {
    clause: Vec<Lit>,
    hints: Vec<u32>,
    level: u32,
}

fn mark_clause(trail: &Trail, clause: &[Lit], skip: Option<Lit>, seen: &mut [bool], lower: &mut Vec<Lit>, pending: &mut usize) {
    for lit in clause {
        if skip == Some(*lit) || seen[lit.variable() as usize - 1] {
            continue;
        }
        seen[lit.variable() as usize - 1] = true;
        if trail.entry(lit.variable()).is_some_and(|e| e.level == trail.level) {
            *pending += 1;
        } else {
            lower.push(*lit);
        }
    }
}

fn analyze(trail: &Trail, conflict: u32) -> Lesson {
    let mut seen = vec![false; trail.marks.len()];
    let mut lower = Vec::new();
    let mut hints = vec![conflict];
    let mut pending = 0;
    mark_clause(trail, trail.clauses.get(conflict as usize), None, &mut seen, &mut lower, &mut pending);
    let mut place = trail.entries.len();
    loop {
        place -= 1;
        let e = trail.entries[place];
        if !seen[e.literal.variable() as usize - 1] || e.level != trail.level {
            continue;
        }
        if pending == 1 {
            let level = lower.iter().map(|l| trail.entry(l.variable()).unwrap().level).max().unwrap_or(0);
            lower.push(e.literal.opposite());
            hints.reverse();
            return Lesson { clause: lower, hints, level };
        }
        let k = e.reason.unwrap();
        hints.push(k);
        pending -= 1;
        mark_clause(trail, trail.clauses.get(k as usize), Some(e.literal), &mut seen, &mut lower, &mut pending);
    }
}

fn luby(place: u32) -> u64 {
    let mut n = place;
    loop {
        let power = 1 << n.ilog2();
        if n == 2 * power - 1 {
            return power.into();
        }
        n = n - power + 1;
    }
}

fn descend(trail: &mut Trail, order: &mut Order) -> Option<u32> {
    loop {
        if let Some(k) = trail.propagate() {
            return Some(k);
        }
        let v = loop {
            let v = order.pop()?;
            if trail.value(v).is_none() {
                break v;
            }
        };
        trail.decide(Lit::new(v, order.phase[v as usize - 1]));
    }
}

fn go_back(trail: &mut Trail, order: &mut Order, level: u32) {
    for e in trail.entries.iter().rev().take_while(|e| e.level > level) {
        order.put_back(e.literal);
    }
    trail.back_to(level);
}

// A clause that is added, its id, and those of the clauses by which it follows.
pub type Line = (u64, Vec<Lit>, Vec<u64>);

pub enum Answer {
    Found(usize),
    Refuted(Vec<Line>),
    Spent(Vec<Line>),
}

// The empty clause, from a conflict that follows from no decision.
fn last_line(trail: &Trail, conflict: u32, id: u64) -> Line {
    let reasons = trail.entries.iter().filter_map(|e| e.reason).chain([conflict]);
    (id, Vec::new(), reasons.map(|k| u64::from(k) + 1).collect())
}

pub fn solve(clauses: &Store, variables: u32, limit: u32) -> Answer {
    let mut trail = Trail::new(clauses, variables);
    let mut order = Order::new(variables);
    let mut lines: Vec<Line> = Vec::new();
    let (mut round, mut count) = (1, 0);
    for _ in 0..limit {
        let Some(conflict) = descend(&mut trail, &mut order) else {
            return Answer::Found((1..=variables).filter(|v| trail.value(*v) == Some(true)).count());
        };
        let id = (clauses.len() + lines.len() + 1) as u64;
        if trail.level == 0 {
            lines.push(last_line(&trail, conflict, id));
            return Answer::Refuted(lines);
        }
        let lesson = analyze(&trail, conflict);
        lesson.clause.iter().for_each(|l| order.raise(l.variable()));
        go_back(&mut trail, &mut order, lesson.level);
        trail.learn(&lesson.clause);
        lines.push((id, lesson.clause, lesson.hints.iter().map(|h| *h as u64 + 1).collect()));
        count += 1;
        if count == 64 * luby(round) {
            (round, count) = (round + 1, 0);
            go_back(&mut trail, &mut order, 0);
        }
    }
    Answer::Spent(lines)
}

fn next(state: u64) -> u64 {
    let a = state ^ (state << 13);
    let b = a ^ (a >> 7);
    b ^ (b << 17)
}

fn pick(state: u64, below: u32) -> u32 {
    ((state >> 33) % u64::from(below)) as u32
}

// A list of clauses of three literals each, and the state that the next one begins with.
pub fn random(variables: u32, count: u32, mut state: u64) -> (Store, u64) {
    let mut clauses = Store::new();
    for _ in 0..count {
        let mut clause = Vec::new();
        for _ in 0..3 {
            state = next(state);
            let variable = pick(state, variables) + 1;
            state = next(state);
            clause.push(Lit::new(variable, pick(state, 2) == 1));
        }
        clauses.push(&clause);
    }
    (clauses, state)
}

pub const SEED: u64 = 88172645463325252;

// The clauses of a text, and the greatest of their variables.
fn read(text: &str) -> (Store, u32) {
    let (mut clauses, mut clause, mut most) = (Store::new(), Vec::new(), 0);
    for word in text.lines().filter(|line| !line.starts_with(['c', 'p'])).flat_map(str::split_whitespace) {
        let number: i32 = word.parse().unwrap();
        if number == 0 {
            clauses.push(&clause);
            clause.clear();
        } else {
            most = most.max(number.unsigned_abs());
            clause.push(Lit::new(number.unsigned_abs(), number > 0));
        }
    }
    (clauses, most)
}

fn tell(clauses: &Store, variables: u32, limit: u32) {
    let start = Instant::now();
    let answer = match solve(clauses, variables, limit) {
        Answer::Found(number) => format!("found {number}"),
        Answer::Refuted(lines) => format!("refuted {}", lines.len()),
        Answer::Spent(lines) => format!("spent {}", lines.len()),
    };
    println!("{answer} {}", start.elapsed().as_nanos());
}

fn main() {
    let words: Vec<String> = std::env::args().skip(1).collect();
    if let [file] = words.as_slice() {
        let (clauses, variables) = read(&std::fs::read_to_string(file).unwrap());
        return tell(&clauses, variables, 1_000_000);
    }
    let sizes: Vec<u32> = words.iter().map(|word| word.parse().unwrap()).collect();
    for size in sizes.chunks(2) {
        let (clauses, _) = random(size[0], size[1], SEED);
        tell(&clauses, size[0], 100_000);
    }
}
