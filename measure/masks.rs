// What `export` writes, in plain Rust, by two ways: `passes`, two passes of a recursion over each instance on one thread, and `masks`,
// which asks of up to 64 instances at once what is known of them, by tables of the atoms that need no rule, and makes clauses of the rest
// alone. For rules that choose and rules that rank, over all rankings and without absence; limits are asserted, not refused.
// Arguments: the way, the number of workers (for `masks`), and a study. Writes the seconds of the grounding alone to standard error.
use std::collections::{HashMap, HashSet};
use std::io::{self, Write};
use std::time::Instant;

#[derive(Clone, Copy, PartialEq, Eq, Debug, Hash)]
enum Sort { Voter, Alt, Ballot, Profile }
#[derive(Clone, Debug)]
enum Term { Var(u8), Const(u32), With(Box<Term>, Box<Term>, Box<Term>), SwapVoters(Box<Term>, Box<Term>, Box<Term>), SwapAlts(Box<Term>, Box<Term>, Box<Term>), Swap(Box<Term>, Box<Term>, Box<Term>) }
#[derive(Clone, Debug)]
enum Atom { Equal(Term, Term), Prefers(Term, Term, Term, Term), Better(Term, Term, Term), Casts(Term, Term, Term), Majority(Term, Term, Term), Wins(Term, Term), Ranks(Term, Term, Term) }
#[derive(Clone, Debug)]
enum Formula { Leaf(Atom), Not(Box<Formula>), Both(Box<Formula>, Box<Formula>), Either(Box<Formula>, Box<Formula>), Implies(Box<Formula>, Box<Formula>), Same(Box<Formula>, Box<Formula>), All(Sort, Box<Formula>), Exists(Sort, Box<Formula>) }
use Formula::*;

// ---------------------------------------------------------------- the space
struct Space { choice: bool, n: u32, m: u32, ballots: u32, profiles: u32, weights: [u32; 8], masks: Vec<u32>, rankings: Vec<Vec<u8>>, casts: Vec<u8>, pairs: [u32; 25], bits: u32, swaps: Vec<u8> }

impl Space {
    fn new(choice: bool, n: u32, m: u32) -> Space {
        let mut rankings: Vec<Vec<u8>> = vec![vec![]];
        for _ in 0..m {
            let mut next = vec![];
            for order in &rankings { for x in (0..m as u8).filter(|x| !order.contains(x)) { let mut l = order.clone(); l.push(x); next.push(l); } }
            rankings = next;
        }
        let masks = rankings.iter().map(|o| { let mut k = 0u32; for i in 0..o.len() { for j in i + 1..o.len() { k |= 1 << (o[i] as u32 * 5 + o[j] as u32); } } k }).collect();
        let ballots = rankings.len() as u32;
        let mut weights = [1; 8];
        let mut profiles = 1;
        for i in (0..n as usize).rev() { weights[i] = profiles; profiles *= ballots; }
        let mut casts = vec![0; (profiles * n) as usize];
        for p in 0..profiles { for i in 0..n { casts[(p * n + i) as usize] = (p / weights[i as usize] % ballots) as u8; } }
        let mut pairs = [0; 25];
        let mut bits = 0;
        for x in 0..m { for y in x + 1..m { pairs[(x * 5 + y) as usize] = bits; bits += 1; } }
        if choice { bits = m; }
        let index: HashMap<Vec<u8>, u8> = rankings.iter().enumerate().map(|(k, o)| (o.clone(), k as u8)).collect();
        let mut swaps = vec![0; (m * m * ballots) as usize];
        for x in 0..m { for y in 0..m { for b in 0..ballots {
            let o: Vec<u8> = rankings[b as usize].iter().map(|&z| if z as u32 == x { y as u8 } else if z as u32 == y { x as u8 } else { z }).collect();
            swaps[((x * m + y) * ballots + b) as usize] = index[&o];
        } } }
        Space { choice, n, m, ballots, profiles, weights, masks, rankings, casts, pairs, bits, swaps }
    }
    fn len(&self, s: Sort) -> u32 { match s { Sort::Voter => self.n, Sort::Alt => self.m, Sort::Ballot => self.ballots, Sort::Profile => self.profiles } }
    #[inline] fn cast(&self, p: u32, i: u32) -> u32 { self.casts[(p * self.n + i) as usize] as u32 }
    #[inline] fn better(&self, b: u32, x: u32, y: u32) -> bool { self.masks[b as usize] >> (x * 5 + y) & 1 == 1 }
    #[inline] fn prefers(&self, i: u32, x: u32, y: u32, p: u32) -> bool { self.better(self.cast(p, i), x, y) }
    fn majority(&self, x: u32, y: u32, p: u32) -> bool { let (mut a, mut b) = (0, 0); for i in 0..self.n { a += self.prefers(i, x, y, p) as u32; b += self.prefers(i, y, x, p) as u32; } b < a }
    #[inline] fn with(&self, p: u32, i: u32, b: u32) -> u32 { let w = self.weights[i as usize]; p - self.cast(p, i) * w + b * w }
    #[inline] fn swap_voters(&self, p: u32, i: u32, j: u32) -> u32 { let (a, b) = (self.cast(p, i), self.cast(p, j)); let h = self.with(p, i, b); self.with(h, j, a) }
    fn swap_alts(&self, p: u32, x: u32, y: u32) -> u32 { let mut r = 0; for i in 0..self.n { r += self.swaps[((x * self.m + y) * self.ballots + self.cast(p, i)) as usize] as u32 * self.weights[i as usize]; } r }
    #[inline] fn wins_code(&self, x: u32, p: u32) -> u32 { 2 * (p * self.m + x + 1) + 1 }
    #[inline] fn ranks_code(&self, x: u32, y: u32, p: u32) -> u32 { if x < y { 2 * (p * self.bits + self.pairs[(x * 5 + y) as usize] + 1) + 1 } else { 2 * (p * self.bits + self.pairs[(y * 5 + x) as usize] + 1) } }
}

// ---------------------------------------------------------------- sentences
struct Parser<'a> { t: Vec<String>, k: usize, scope: Vec<(String, Sort)>, s: &'a Space }
fn lex(text: &str) -> Vec<String> {
    let b: Vec<char> = text.chars().collect();
    let (mut i, mut out) = (0, vec![]);
    while i < b.len() {
        let c = b[i];
        if c.is_whitespace() { i += 1; continue; }
        if c == '<' && b[i..].starts_with(&['<', '-', '>']) { out.push("<->".into()); i += 3; continue; }
        if c == '-' { out.push("->".into()); i += 2; continue; }
        let start = i;
        if c == '<' { while b[i] != '>' { i += 1; } i += 1; }
        else if c.is_alphanumeric() || c == '#' || c == '@' { i += 1; while i < b.len() && (b[i].is_alphanumeric() || b[i] == '_') { i += 1; } }
        else { i += 1; }
        out.push(b[start..i].iter().collect());
    }
    out
}
impl Parser<'_> {
    fn next(&mut self) -> String { self.k += 1; self.t[self.k - 1].clone() }
    fn eat(&mut self, w: &str) { let t = self.next(); assert_eq!(t, w); }
    fn formula(&mut self) -> Formula {
        match self.t[self.k].as_str() {
            "all" | "some" => {
                let all = self.next() == "all";
                let name = self.next(); self.eat(":");
                let sort = match self.next().as_str() { "voter" => Sort::Voter, "alt" => Sort::Alt, "ballot" => Sort::Ballot, "profile" => Sort::Profile, w => panic!("sort {w}") };
                self.eat(".");
                self.scope.push((name, sort));
                let f = Box::new(self.formula());
                self.scope.pop();
                if all { All(sort, f) } else { Exists(sort, f) }
            }
            "!" => { self.next(); Not(Box::new(self.formula())) }
            "(" => { self.next(); let a = self.formula(); let f = self.rest(a); f }
            _ => self.atom(),
        }
    }
    fn rest(&mut self, a: Formula) -> Formula {
        let op = self.next();
        let b = self.formula();
        let b = if (op == "&" || op == "|") && self.t[self.k] == op { self.rest(b) } else { self.eat(")"); b };
        let (a, b) = (Box::new(a), Box::new(b));
        match op.as_str() { "&" => Both(a, b), "|" => Either(a, b), "->" => Implies(a, b), "<->" => Same(a, b), w => panic!("op {w}") }
    }
    fn args(&mut self) -> Vec<Term> { let mut v = vec![]; self.eat("("); loop { v.push(self.term()); if self.next() == ")" { return v; } } }
    fn term(&mut self) -> Term {
        let t = self.next();
        if let Some(d) = t.strip_prefix('#') { return Term::Const(d.parse::<u32>().unwrap() - 1); }
        if let Some(d) = t.strip_prefix('@') { return Term::Const((d.as_bytes()[0] - b'a') as u32); }
        if let Some(d) = t.strip_prefix('<') { let o: Vec<u8> = d.trim_end_matches('>').bytes().map(|c| c - b'a').collect(); return Term::Const(self.s.rankings.iter().position(|r| *r == o).unwrap() as u32); }
        if self.t[self.k] == "(" {
            let mut a = self.args().into_iter().map(Box::new);
            let (x, y, z) = (a.next().unwrap(), a.next().unwrap(), a.next().unwrap());
            return match t.as_str() { "with" => Term::With(x, y, z), "swap_voters" => Term::SwapVoters(x, y, z), "swap_alts" => Term::SwapAlts(x, y, z), "swap" => Term::Swap(x, y, z), w => panic!("fn {w}") };
        }
        Term::Var(self.scope.iter().rposition(|v| v.0 == t).unwrap_or_else(|| panic!("unbound {t}")) as u8)
    }
    fn atom(&mut self) -> Formula {
        let t = self.t[self.k].clone();
        if ["prefers", "better", "casts", "majority", "wins", "ranks"].contains(&t.as_str()) {
            self.next();
            let mut a = self.args().into_iter();
            let mut n = || a.next().unwrap();
            return Leaf(match t.as_str() { "prefers" => Atom::Prefers(n(), n(), n(), n()), "better" => Atom::Better(n(), n(), n()), "casts" => Atom::Casts(n(), n(), n()), "majority" => Atom::Majority(n(), n(), n()), "wins" => Atom::Wins(n(), n()), _ => Atom::Ranks(n(), n(), n()) });
        }
        let a = self.term(); self.eat("="); let b = self.term();
        Leaf(Atom::Equal(a, b))
    }
}
static CHOICE: [(&str, &str); 9] = [
    ("unanimity", "all p: profile. all x: alt. (all i: voter. all y: alt. (x = y | prefers(i, x, y, p)) -> wins(x, p))"),
    ("pareto", "all p: profile. all x: alt. all y: alt. (all i: voter. prefers(i, x, y, p) -> !wins(y, p))"),
    ("onto", "all x: alt. some p: profile. wins(x, p)"),
    ("non_dictatorship", "all i: voter. some p: profile. some x: alt. some y: alt. (prefers(i, y, x, p) & wins(x, p))"),
    ("strategyproof", "all p: profile. all i: voter. all b: ballot. all x: alt. all y: alt. ((wins(x, p) & wins(y, with(p, i, b))) -> !prefers(i, y, x, p))"),
    ("maskin", "all p: profile. all q: profile. all x: alt. ((wins(x, p) & all i: voter. all y: alt. (prefers(i, x, y, p) -> prefers(i, x, y, q))) -> wins(x, q))"),
    ("condorcet", "all p: profile. all x: alt. (all y: alt. (x = y | majority(x, y, p)) -> wins(x, p))"),
    ("anonymity", "all p: profile. all i: voter. all j: voter. all x: alt. (wins(x, p) <-> wins(x, swap_voters(p, i, j)))"),
    ("neutrality", "all p: profile. all x: alt. all y: alt. all z: alt. (wins(z, p) <-> wins(swap(x, y, z), swap_alts(p, x, y)))"),
];
static RANKING: [(&str, &str); 5] = [
    ("pareto", "all p: profile. all x: alt. all y: alt. (all i: voter. prefers(i, x, y, p) -> ranks(x, y, p))"),
    ("independence", "all p: profile. all q: profile. all x: alt. all y: alt. (all i: voter. (prefers(i, x, y, p) <-> prefers(i, x, y, q)) -> (ranks(x, y, p) <-> ranks(x, y, q)))"),
    ("non_dictatorship", "all i: voter. some p: profile. some x: alt. some y: alt. (prefers(i, x, y, p) & !ranks(x, y, p))"),
    ("anonymity", "all p: profile. all i: voter. all j: voter. all x: alt. all y: alt. (ranks(x, y, p) <-> ranks(x, y, swap_voters(p, i, j)))"),
    ("neutrality", "all p: profile. all x: alt. all y: alt. all z: alt. all w: alt. (ranks(z, w, p) <-> ranks(swap(x, y, z), swap(x, y, w), swap_alts(p, x, y)))"),
];
fn read_study(path: &str) -> (Space, Vec<(String, Formula)>) {
    let text = std::fs::read_to_string(path).unwrap();
    let (mut keys, mut own, mut inside) = (HashMap::new(), HashMap::new(), false);
    for line in text.lines() {
        let line = line.trim();
        if line.is_empty() || line.starts_with('#') { continue; }
        if line.starts_with("[sentences]") { inside = true; continue; }
        let (k, v) = line.split_once('=').unwrap();
        if inside { own.insert(k.trim().to_string(), v.trim().trim_matches('"').to_string()); } else { keys.insert(k.trim().to_string(), v.trim().to_string()); }
    }
    let choice = keys["kind"].contains("choice");
    let s = Space::new(choice, keys["voters"].parse().unwrap(), keys["alternatives"].parse().unwrap());
    let mut axioms = vec![];
    for name in keys["axioms"].trim_matches(|c| c == '[' || c == ']').split(',').map(|w| w.trim().trim_matches('"')).filter(|w| !w.is_empty()) {
        let lib: &[(&str, &str)] = if choice { &CHOICE } else { &RANKING };
        let text = lib.iter().find(|e| e.0 == name).map(|e| e.1.to_string()).or_else(|| own.get(name).cloned()).unwrap();
        let mut p = Parser { t: lex(&text), k: 0, scope: vec![], s: &s };
        let f = p.formula();
        assert_eq!(p.k, p.t.len());
        axioms.push((name.to_string(), f));
    }
    (s, axioms)
}

// ---------------------------------------------------------------- environments, terms, atoms
#[derive(Clone, Copy)]
struct Env { values: [u32; 12], len: u8 }
impl Env {
    fn none() -> Env { Env { values: [0; 12], len: 0 } }
    #[inline] fn with(&self, v: u32) -> Env { let mut values = self.values; values[self.len as usize] = v; Env { values, len: self.len + 1 } }
}
#[inline] fn value(s: &Space, t: &Term, e: &[u32; 12]) -> u32 {
    match t {
        Term::Var(l) => e[*l as usize],
        Term::Const(c) => *c,
        _ => value_of(s, t, e),
    }
}
fn value_of(s: &Space, t: &Term, e: &[u32; 12]) -> u32 {
    match t {
        Term::Var(l) => e[*l as usize],
        Term::Const(c) => *c,
        Term::With(p, i, b) => s.with(value(s, p, e), value(s, i, e), value(s, b, e)),
        Term::SwapVoters(p, i, j) => s.swap_voters(value(s, p, e), value(s, i, e), value(s, j, e)),
        Term::SwapAlts(p, x, y) => s.swap_alts(value(s, p, e), value(s, x, e), value(s, y, e)),
        Term::Swap(x, y, z) => { let (x, y, z) = (value(s, x, e), value(s, y, e), value(s, z, e)); if z == x { y } else if z == y { x } else { z } }
    }
}
// a truth value, or the code of a literal
#[inline] fn atom_at(s: &Space, a: &Atom, e: &[u32; 12]) -> Result<bool, u32> {
    let v = |t: &Term| value(s, t, e);
    Ok(match a {
        Atom::Equal(x, y) => v(x) == v(y),
        Atom::Prefers(i, x, y, p) => s.prefers(v(i), v(x), v(y), v(p)),
        Atom::Better(b, x, y) => s.better(v(b), v(x), v(y)),
        Atom::Casts(i, b, p) => s.cast(v(p), v(i)) == v(b),
        Atom::Majority(x, y, p) => s.majority(v(x), v(y), v(p)),
        Atom::Wins(x, p) => return Err(s.wins_code(v(x), v(p))),
        Atom::Ranks(x, y, p) => { let (x, y) = (v(x), v(y)); if x == y { false } else { return Err(s.ranks_code(x, y, v(p))) } }
    })
}

// ---------------------------------------------------------------- counts
#[derive(Clone, Copy, Debug)]
struct Counts { clauses: u64, literals: u64 }
impl Counts {
    fn sum(self, o: Counts) -> Counts { Counts { clauses: self.clauses.saturating_add(o.clauses), literals: self.literals.saturating_add(o.literals) } }
    fn product(self, o: Counts) -> Counts { Counts { clauses: self.clauses.saturating_mul(o.clauses), literals: self.literals.saturating_mul(o.clauses).saturating_add(self.clauses.saturating_mul(o.literals)) } }
    fn wide(self) -> bool { self.clauses > 100_000 || self.literals > 4_000_000 }
}
// What every instance's measure stays within, from the shape alone: None is always known.
fn bound(s: &Space, f: &Formula) -> Option<(Counts, Counts)> {
    let both = |a: Option<(Counts, Counts)>, b: Option<(Counts, Counts)>| match (a, b) { (None, b) => b, (a, None) => a, (Some((p, m)), Some((q, n))) => Some((p.sum(q), m.product(n))) };
    let turn = |a: Option<(Counts, Counts)>| a.map(|(p, m)| (m, p));
    match f {
        Leaf(Atom::Wins(..)) | Leaf(Atom::Ranks(..)) => { let one = Counts { clauses: 1, literals: 1 }; Some((one, one)) }
        Leaf(_) => None,
        Not(f) => turn(bound(s, f)),
        Both(f, g) => both(bound(s, f), bound(s, g)),
        Either(f, g) => turn(both(turn(bound(s, f)), turn(bound(s, g)))),
        Implies(f, g) => turn(both(bound(s, f), turn(bound(s, g)))),
        Same(f, g) => match (bound(s, f), bound(s, g)) {
            (None, b) => b.map(|(p, m)| { let k = Counts { clauses: p.clauses.max(m.clauses), literals: p.literals.max(m.literals) }; (k, k) }),
            (a, None) => a.map(|(p, m)| { let k = Counts { clauses: p.clauses.max(m.clauses), literals: p.literals.max(m.literals) }; (k, k) }),
            (Some((p, m)), Some((q, n))) => Some((m.product(q).sum(p.product(n)), m.product(n).sum(p.product(q)))),
        },
        All(sort, f) => { let b = bound(s, f); let mut a = b; for _ in 1..s.len(*sort) { a = both(b, a); } a }
        Exists(sort, f) => { let b = turn(bound(s, f)); let mut a = b; for _ in 1..s.len(*sort) { a = both(b, a); } turn(a) }
    }
}

// ---------------------------------------------------------------- clause lists and the set of clauses seen
#[derive(Default)]
struct List { codes: Vec<u32>, ends: Vec<u32>, origins: Vec<u64> }
impl List {
    #[inline] fn clause(&self, k: usize) -> &[u32] { let from = if k == 0 { 0 } else { self.ends[k - 1] as usize }; &self.codes[from..self.ends[k] as usize] }
    #[inline] fn add(&mut self, c: &[u32], origin: u64) { self.codes.extend_from_slice(c); self.ends.push(self.codes.len() as u32); self.origins.push(origin); }
    fn len(&self) -> usize { self.ends.len() }
}
#[inline] fn hash(c: &[u32]) -> u64 {
    let mut h = c.len() as u64;
    for &x in c { h = (h.rotate_left(5) ^ x as u64).wrapping_mul(0x9E37_79B9_7F4A_7C15); }
    h ^ (h >> 29)
}
// open addressing: slots of (clause number + 1 | upper hash bits << 32)
struct Seen { slots: Vec<u64>, count: usize, first: usize }
impl Seen {
    fn new(first: usize) -> Seen { Seen { slots: vec![0; 1024], count: 0, first } }
    #[inline] fn find(&self, out: &List, c: &[u32], h: u64) -> Result<(), usize> {
        let mask = self.slots.len() - 1;
        let mut at = h as usize & mask;
        loop {
            let slot = self.slots[at];
            if slot == 0 { return Err(at); }
            if slot >> 32 == h >> 32 && out.clause(slot as u32 as usize - 1 + self.first) == c { return Ok(()); }
            at = (at + 1) & mask;
        }
    }
}
// sorted by variable, equal literals once; false where a variable has both signs
#[inline] fn normalize(c: &mut Vec<u32>) -> bool {
    if c.len() == 2 {
        let (a, b) = (c[0], c[1]);
        if a > b { c[0] = b; c[1] = a; }
        if a == b { c.truncate(1); return true; }
        return a ^ b != 1;
    }
    if c.len() < 16 { for i in 1..c.len() { let x = c[i]; let mut j = i; while j > 0 && c[j - 1] > x { c[j] = c[j - 1]; j -= 1; } c[j] = x; } } else { c.sort_unstable(); }
    c.dedup();
    c.windows(2).all(|w| w[0] / 2 != w[1] / 2)
}

// ---------------------------------------------------------------- variant two: two passes of a recursion, as today
#[derive(Clone, Copy)] enum Weight { Known(bool), Open(Counts, Counts) }
enum Form { Known(bool), Open(Rows, Rows) }
#[derive(Clone)] struct Rows { codes: Vec<u32>, ends: Vec<u32> }
impl Rows {
    fn new() -> Rows { Rows { codes: vec![], ends: vec![] } }
    fn one(c: u32) -> Rows { Rows { codes: vec![c], ends: vec![1] } }
    fn clause(&self, k: usize) -> &[u32] { let from = if k == 0 { 0 } else { self.ends[k - 1] as usize }; &self.codes[from..self.ends[k] as usize] }
    fn add(&mut self, a: &[u32], b: &[u32]) { self.codes.extend_from_slice(a); self.codes.extend_from_slice(b); self.ends.push(self.codes.len() as u32); }
    fn after(mut self, r: &Rows) -> Rows { for k in 0..r.ends.len() { self.add(r.clause(k), &[]); } self }
    fn joined(&self, o: &Rows) -> Rows { let mut all = Rows::new(); for i in 0..self.ends.len() { for j in 0..o.ends.len() { all.add(self.clause(i), o.clause(j)); } } all }
}
trait Algebra { type V; fn known(t: bool) -> Self::V; fn literal(c: u32) -> Self::V; fn is_known(v: &Self::V, t: bool) -> bool; fn not(a: Self::V) -> Self::V; fn and(a: Self::V, b: Self::V) -> Self::V; fn same(a: Self::V, b: Self::V) -> Self::V; fn or(a: Self::V, b: Self::V) -> Self::V { Self::not(Self::and(Self::not(a), Self::not(b))) } }
struct Measure;
impl Algebra for Measure {
    type V = Weight;
    fn known(t: bool) -> Weight { Weight::Known(t) }
    fn literal(_: u32) -> Weight { let one = Counts { clauses: 1, literals: 1 }; Weight::Open(one, one) }
    fn is_known(v: &Weight, t: bool) -> bool { matches!(v, Weight::Known(k) if *k == t) }
    fn not(a: Weight) -> Weight { match a { Weight::Known(t) => Weight::Known(!t), Weight::Open(p, m) => Weight::Open(m, p) } }
    fn and(a: Weight, b: Weight) -> Weight { match (a, b) { (Weight::Known(true), b) => b, (Weight::Known(false), _) | (_, Weight::Known(false)) => Weight::Known(false), (a, Weight::Known(true)) => a, (Weight::Open(p, m), Weight::Open(q, n)) => Weight::Open(p.sum(q), m.product(n)) } }
    fn same(a: Weight, b: Weight) -> Weight { match (a, b) { (Weight::Known(true), b) => b, (Weight::Known(false), b) => Self::not(b), (a, Weight::Known(true)) => a, (a, Weight::Known(false)) => Self::not(a), (Weight::Open(p, m), Weight::Open(q, n)) => Weight::Open(m.product(q).sum(p.product(n)), m.product(n).sum(p.product(q))) } }
}
struct Forms;
impl Algebra for Forms {
    type V = Form;
    fn known(t: bool) -> Form { Form::Known(t) }
    fn literal(c: u32) -> Form { Form::Open(Rows::one(c), Rows::one(c ^ 1)) }
    fn is_known(v: &Form, t: bool) -> bool { matches!(v, Form::Known(k) if *k == t) }
    fn not(a: Form) -> Form { match a { Form::Known(t) => Form::Known(!t), Form::Open(p, m) => Form::Open(m, p) } }
    fn and(a: Form, b: Form) -> Form { match (a, b) { (Form::Known(true), b) => b, (Form::Known(false), _) | (_, Form::Known(false)) => Form::Known(false), (a, Form::Known(true)) => a, (Form::Open(p, m), Form::Open(q, n)) => { let j = m.joined(&n); Form::Open(p.after(&q), j) } } }
    fn same(a: Form, b: Form) -> Form { match (a, b) { (Form::Known(true), b) => b, (Form::Known(false), b) => Self::not(b), (a, Form::Known(true)) => a, (a, Form::Known(false)) => Self::not(a), (Form::Open(p, m), Form::Open(q, n)) => Form::Open(m.joined(&q).after(&p.joined(&n)), m.joined(&n).after(&p.joined(&q))) } }
}
fn chain<A: Algebra>(s: &Space, sort: Sort, f: &Formula, e: &Env, end: bool) -> A::V {
    let last = s.len(sort) - 1;
    let mut v = eval::<A>(s, f, &e.with(last));
    for k in (0..last).rev() {
        if A::is_known(&v, end) { return v; }
        let first = eval::<A>(s, f, &e.with(k));
        v = if end { A::or(first, v) } else { A::and(first, v) };
    }
    v
}
fn eval<A: Algebra>(s: &Space, f: &Formula, e: &Env) -> A::V {
    match f {
        Leaf(a) => match atom_at(s, a, &e.values) { Ok(t) => A::known(t), Err(c) => A::literal(c) },
        Not(f) => A::not(eval::<A>(s, f, e)),
        Both(f, g) => { let v = eval::<A>(s, f, e); if A::is_known(&v, false) { v } else { A::and(v, eval::<A>(s, g, e)) } }
        Either(f, g) => { let v = eval::<A>(s, f, e); if A::is_known(&v, true) { v } else { A::or(v, eval::<A>(s, g, e)) } }
        Implies(f, g) => { let v = A::not(eval::<A>(s, f, e)); if A::is_known(&v, true) { v } else { A::or(v, eval::<A>(s, g, e)) } }
        Same(f, g) => A::same(eval::<A>(s, f, e), eval::<A>(s, g, e)),
        All(sort, f) => chain::<A>(s, *sort, f, e, false),
        Exists(sort, f) => chain::<A>(s, *sort, f, e, true),
    }
}
fn prefix(f: &Formula) -> (Vec<Sort>, &Formula) { let (mut b, mut v) = (f, vec![]); while let All(s, i) = b { v.push(*s); b = i; } (v, b) }
fn env_of(s: &Space, sorts: &[Sort], count: u64, k: u64) -> Env {
    let (mut rest, mut block, mut e) = (k, count, Env::none());
    for sort in sorts { block /= s.len(*sort) as u64; e = e.with((rest / block) as u32); rest %= block; }
    e
}
// Two passes: each instance is measured, and then its clauses are made by a second recursion.
fn by_passes(s: &Space, axiom: &Formula, base: u64, out: &mut List) {
    let (sorts, body) = prefix(axiom);
    let count: u64 = sorts.iter().map(|x| s.len(*x) as u64).product();
    for k in 0..count { if let Weight::Open(p, _) = eval::<Measure>(s, body, &env_of(s, &sorts, count, k)) { assert!(!p.wide(), "wide"); } }
    let mut set: HashSet<Vec<u32>> = HashSet::new();
    let mut keep = |mut c: Vec<u32>, k: u64, out: &mut List| { if normalize(&mut c) && set.insert(c.clone()) { out.add(&c, base + k); } };
    for k in 0..count {
        let e = env_of(s, &sorts, count, k);
        if let Weight::Known(true) = eval::<Measure>(s, body, &e) { continue; }
        match eval::<Forms>(s, body, &e) {
            Form::Known(true) => {}
            Form::Known(false) => keep(vec![], k, out),
            Form::Open(p, _) => for j in 0..p.ends.len() { keep(p.clause(j).to_vec(), k, out); },
        }
    }
}

// ---------------------------------------------------------------- masks: what is known of up to 64 instances at once
// A body compiled once: tables of masks for the atoms that need no rule, and a number for each part that stands under no quantifier
// of its own. Lanes are up to 64 consecutive instances: those of a chunk of the last `t` leading universals.
enum Node { Table { masks: Vec<u64>, vars: Vec<(u8, u32)> }, Direct(Atom), Wins(Term, Term), Ranks(Term, Term, Term, Box<Node>), Not(Box<Part>), Both(Box<Part>, Box<Part>), Either(Box<Part>, Box<Part>), Implies(Box<Part>, Box<Part>), Same(Box<Part>, Box<Part>), All(u8, u32, Box<Part>), Exists(u8, u32, Box<Part>) }
struct Part { id: usize, node: Node } // id: place of its masks, or NONE under an inner quantifier
const NONE: usize = usize::MAX;
type Values = [u32; 13]; // at 12 the number of the chunk

fn vars_of(t: &Term, v: &mut Vec<u8>) { match t { Term::Var(l) => if !v.contains(l) { v.push(*l) }, Term::Const(_) => {}, Term::With(a, b, c) | Term::SwapVoters(a, b, c) | Term::SwapAlts(a, b, c) | Term::Swap(a, b, c) => { vars_of(a, v); vars_of(b, v); vars_of(c, v); } } }
fn atom_vars(a: &Atom) -> Vec<u8> {
    let mut v = vec![];
    match a { Atom::Equal(x, y) | Atom::Wins(x, y) => for t in [x, y] { vars_of(t, &mut v) }, Atom::Prefers(i, x, y, p) => for t in [i, x, y, p] { vars_of(t, &mut v) }, Atom::Better(x, y, z) | Atom::Casts(x, y, z) | Atom::Majority(x, y, z) | Atom::Ranks(x, y, z) => for t in [x, y, z] { vars_of(t, &mut v) } }
    v
}
struct Compiled { first_lane: usize, u: usize, lens: Vec<u32>, group: u32, outer: u64, lane_values: Vec<[u32; 12]>, body: Part, parts: usize }
struct Compiler<'a> { s: &'a Space, lens: Vec<u32>, first_lane: usize, u: usize, chunks: u32, group: u32, next: usize, work: u64 }
fn put_lane(e: &mut [u32; 12], lens: &[u32], first: usize, u: usize, number: u32) { let mut rest = number; for l in (first..u).rev() { e[l] = rest % lens[l]; rest /= lens[l]; } }
impl Compiler<'_> {
    fn table(&mut self, a: &Atom) -> Node {
        if std::env::var("NOTAB").is_ok() { return Node::Direct(a.clone()); }
        let used = atom_vars(a);
        let is_lane = |v: &u8| (*v as usize) >= self.first_lane && (*v as usize) < self.u;
        let on_lanes = used.iter().any(is_lane);
        let mut outer: Vec<u8> = used.into_iter().filter(|v| !is_lane(v)).collect();
        outer.sort();
        let chunks = if on_lanes { self.chunks } else { 1 };
        let mut entries = chunks as u64;
        for v in &outer { entries = entries.saturating_mul(self.lens[*v as usize] as u64); }
        let cost = entries.saturating_mul(if on_lanes { 64.min(self.group) as u64 } else { 1 });
        if cost > self.work / 2 || entries > 2_000_000 { return Node::Direct(a.clone()); }
        let (mut vars, mut stride) = (vec![], 1);
        for v in &outer { vars.push((*v, stride)); stride *= self.lens[*v as usize]; }
        if chunks > 1 { vars.push((12, stride)); }
        let mut masks = vec![0u64; entries as usize];
        let mut e = [0; 12];
        for (k, mask) in masks.iter_mut().enumerate() {
            let mut rest = k as u32;
            for v in &outer { e[*v as usize] = rest % self.lens[*v as usize]; rest /= self.lens[*v as usize]; }
            if on_lanes {
                for lane in 0..64.min(self.group - 64 * rest) { put_lane(&mut e, &self.lens, self.first_lane, self.u, 64 * rest + lane); if atom_at(self.s, a, &e) == Ok(true) { *mask |= 1 << lane; } }
            } else if atom_at(self.s, a, &e) == Ok(true) { *mask = !0; }
        }
        Node::Table { masks, vars }
    }
    fn part(&mut self, f: &Formula, level: usize) -> Part {
        let id = if level > self.u { NONE } else { self.next += 1; self.next - 1 };
        let node = match f {
            Leaf(Atom::Wins(x, p)) => Node::Wins(x.clone(), p.clone()),
            Leaf(Atom::Ranks(x, y, p)) => Node::Ranks(x.clone(), y.clone(), p.clone(), Box::new(self.table(&Atom::Equal(x.clone(), y.clone())))),
            Leaf(a) => self.table(a),
            Not(f) => Node::Not(Box::new(self.part(f, level))),
            Both(f, g) => Node::Both(Box::new(self.part(f, level)), Box::new(self.part(g, level))),
            Either(f, g) => Node::Either(Box::new(self.part(f, level)), Box::new(self.part(g, level))),
            Implies(f, g) => Node::Implies(Box::new(self.part(f, level)), Box::new(self.part(g, level))),
            Same(f, g) => Node::Same(Box::new(self.part(f, level)), Box::new(self.part(g, level))),
            All(s, f) => { let n = self.open(*s, level); Node::All(level as u8, n, Box::new(self.part(f, level + 1))) }
            Exists(s, f) => { let n = self.open(*s, level); Node::Exists(level as u8, n, Box::new(self.part(f, level + 1))) }
        };
        Part { id, node }
    }
    fn open(&mut self, s: Sort, level: usize) -> u32 { let n = self.s.len(s); if self.lens.len() <= level { self.lens.resize(level + 1, 0); } self.lens[level] = n; n }
}
fn atoms_in(s: &Space, f: &Formula) -> u64 { match f { Leaf(_) => 1, Not(f) => atoms_in(s, f), Both(f, g) | Either(f, g) | Implies(f, g) | Same(f, g) => atoms_in(s, f) + atoms_in(s, g), All(x, f) | Exists(x, f) => s.len(*x) as u64 * atoms_in(s, f) } }
fn compile_with(s: &Space, axiom: &Formula, t: usize) -> Compiled {
    let (sorts, body) = prefix(axiom);
    let u = sorts.len();
    let lens: Vec<u32> = sorts.iter().map(|x| s.len(*x)).collect();
    let first_lane = u - t;
    let group: u32 = lens[first_lane..].iter().product();
    let chunks = group.div_ceil(64);
    let outer: u64 = lens[..first_lane].iter().map(|x| *x as u64).product();
    let work = outer * group as u64 * atoms_in(s, body);
    let mut c = Compiler { s, lens: lens.clone(), first_lane, u, chunks, group, next: 0, work };
    let body = c.part(body, u);
    let lane_values = (0..group).map(|n| { let mut e = [0; 12]; put_lane(&mut e, &lens, first_lane, u, n); e }).collect();
    Compiled { first_lane, u, lens, group, outer, lane_values, body, parts: c.next }
}
// how many of the last universals are lanes: the fewest masks, of blocks and of tables
fn compile(s: &Space, axiom: &Formula) -> Compiled {
    let (sorts, body) = prefix(axiom);
    let lens: Vec<u64> = sorts.iter().map(|x| s.len(*x) as u64).collect();
    let atoms = atoms_in(s, body);
    let mut best = (u64::MAX, 0);
    for t in 0..=lens.len() {
        let group: u64 = lens[lens.len() - t..].iter().product();
        if group > 100_000 { break; }
        let outer: u64 = lens[..lens.len() - t].iter().product();
        // a table of an atom over a profile and the lanes: about as many masks as outer profiles; counted by lane
        let cost = outer * group.div_ceil(64) * atoms;
        let tables = group.div_ceil(64) * 64 * if t < lens.len() && group > 64 { lens[..lens.len() - t].iter().max().copied().unwrap_or(1) } else { 1 };
        let cost = cost + tables;
        if cost < best.0 { best = (cost, t); }
    }
    if let Ok(t) = std::env::var("LANES") { best.1 = t.parse::<usize>().unwrap().min(lens.len()); }
    compile_with(s, axiom, best.1)
}

#[derive(Clone, Copy, Default)]
struct Masks { t: u64, f: u64 }
struct Worker<'a> { s: &'a Space, c: &'a Compiled, memo: Vec<Masks>, codes: Vec<u32>, ends: Vec<u32>, clause: Vec<u32> }
#[inline] fn index(vars: &[(u8, u32)], e: &Values) -> usize { let mut k = 0; for (v, stride) in vars { k += e[*v as usize] * stride; } k as usize }
#[derive(Clone, Copy)] struct Range { a: u32, b: u32 }
const PLUS: u8 = 1;
const MINUS: u8 = 2;
fn turned(w: u8) -> u8 { (w & 1) << 1 | w >> 1 }

impl Worker<'_> {
    fn new<'a>(s: &'a Space, c: &'a Compiled) -> Worker<'a> { Worker { s, c, memo: vec![Masks::default(); c.parts], codes: vec![], ends: vec![0], clause: vec![] } }
    // of the lanes that live: where the part is known to be true, and where false
    fn known(&mut self, p: &Part, e: &mut Values, live: u64) -> Masks {
        let m = match &p.node {
            Node::Table { masks, vars } => { let t = masks[index(vars, e)]; Masks { t, f: !t } }
            Node::Direct(a) => { let t = self.direct(a, e, live); Masks { t, f: !t } }
            Node::Wins(..) => Masks { t: 0, f: 0 },
            Node::Ranks(_, _, _, same) => match &**same { Node::Table { masks, vars } => Masks { t: 0, f: masks[index(vars, e)] }, Node::Direct(a) => Masks { t: 0, f: self.direct(a, e, live) }, _ => unreachable!() },
            Node::Not(f) => { let a = self.known(f, e, live); Masks { t: a.f, f: a.t } }
            Node::Both(f, g) => { let a = self.known(f, e, live); let l = live & !a.f; if l == 0 { Masks { t: 0, f: live } } else { let b = self.known(g, e, l); Masks { t: a.t & b.t, f: a.f | b.f & l } } }
            Node::Either(f, g) => { let a = self.known(f, e, live); let l = live & !a.t; if l == 0 { Masks { t: live, f: 0 } } else { let b = self.known(g, e, l); Masks { t: a.t | b.t & l, f: a.f & b.f } } }
            Node::Implies(f, g) => { let a = self.known(f, e, live); let l = live & !a.f; if l == 0 { Masks { t: live, f: 0 } } else { let b = self.known(g, e, l); Masks { t: a.f | b.t & l, f: a.t & b.f } } }
            Node::Same(f, g) => { let a = self.known(f, e, live); let b = self.known(g, e, live); Masks { t: a.t & b.t | a.f & b.f, f: a.t & b.f | a.f & b.t } }
            Node::All(level, n, f) => { let (mut all, mut l) = (Masks { t: !0, f: 0 }, live); for v in (0..*n).rev() { e[*level as usize] = v; let b = self.known(f, e, l); all.t &= b.t; all.f |= b.f & l; l &= !b.f; if l == 0 { break; } } all.t &= !all.f; all }
            Node::Exists(level, n, f) => { let (mut all, mut l) = (Masks { t: 0, f: !0 }, live); for v in (0..*n).rev() { e[*level as usize] = v; let b = self.known(f, e, l); all.f &= b.f; all.t |= b.t & l; l &= !b.t; if l == 0 { break; } } all.f &= !all.t; all }
        };
        if p.id != NONE { self.memo[p.id] = m; }
        m
    }
    fn direct(&mut self, a: &Atom, e: &Values, live: u64) -> u64 {
        let (mut rest, mut t, mut v) = (live, 0, [0; 12]);
        v.copy_from_slice(&e[..12]);
        while rest != 0 {
            let lane = rest.trailing_zeros();
            let from = &self.c.lane_values[(64 * e[12] + lane) as usize];
            v[self.c.first_lane..self.c.u].copy_from_slice(&from[self.c.first_lane..self.c.u]);
            if atom_at(self.s, a, &v) == Ok(true) { t |= 1 << lane; }
            rest &= rest - 1;
        }
        t
    }
    fn one(&mut self, code: u32) -> Range { let a = self.ends.len() as u32 - 1; self.codes.push(code); self.ends.push(self.codes.len() as u32); Range { a, b: a + 1 } }
    fn begin(&self) -> u32 { self.ends.len() as u32 - 1 }
    fn copy(&mut self, r: Range) { for k in r.a..r.b { let (x, y) = (self.ends[k as usize], self.ends[k as usize + 1]); self.codes.extend_from_within(x as usize..y as usize); self.ends.push(self.codes.len() as u32); } }
    fn join(&mut self, l: Range, r: Range) {
        for i in l.a..l.b { for j in r.a..r.b {
            let (x, y) = (self.ends[i as usize], self.ends[i as usize + 1]);
            self.codes.extend_from_within(x as usize..y as usize);
            let (x, y) = (self.ends[j as usize], self.ends[j as usize + 1]);
            self.codes.extend_from_within(x as usize..y as usize);
            self.ends.push(self.codes.len() as u32);
        } }
    }
    fn summed(&mut self, l: Range, r: Range, wanted: bool) -> Range { let a = self.begin(); if wanted { if l.b == r.a { return Range { a: l.a, b: r.b }; } self.copy(l); self.copy(r); } Range { a, b: self.begin() } }
    fn joined(&mut self, l: Range, r: Range, wanted: bool) -> Range { let a = self.begin(); if wanted { self.join(l, r); } Range { a, b: self.begin() } }
}
// The same with a literal kept in place, so that no list is made for it, and with a set for clauses of one or two literals that
// holds them in its slots.
#[derive(Clone, Copy)] enum Val { Known(bool), One(u32), Open(Range, Range) }
fn denied(a: Val) -> Val { match a { Val::Known(t) => Val::Known(!t), Val::One(c) => Val::One(c ^ 1), Val::Open(p, m) => Val::Open(m, p) } }
struct Pairs { slots: Vec<u64>, count: usize }
impl Pairs {
    fn new() -> Pairs { Pairs { slots: vec![0; 4096], count: 0 } }
    #[inline] fn hash(k: u64) -> u64 { let h = (k >> 32).wrapping_mul(0x9E37_79B9_7F4A_7C15); (h >> 32) + k }
    #[inline] fn insert(&mut self, k: u64) -> bool {
        let mask = self.slots.len() - 1;
        let mut at = Self::hash(k) as usize & mask;
        loop {
            let s = self.slots[at];
            if s == k { return false; }
            if s == 0 { break; }
            at = (at + 1) & mask;
        }
        self.slots[at] = k;
        self.count += 1;
        if self.count * 2 > self.slots.len() { self.grow(); }
        true
    }
    #[cold] fn grow(&mut self) { let mask = self.slots.len() * 4 - 1; let mut slots = vec![0u64; mask + 1]; for &k in &self.slots { if k != 0 { let mut at = Self::hash(k) as usize & mask; while slots[at] != 0 { at = (at + 1) & mask; } slots[at] = k; } } self.slots = slots; }
}
struct Kept { pairs: Pairs, seen: Seen }
impl Kept {
    fn new(first: usize) -> Kept { Kept { pairs: Pairs::new(), seen: Seen::new(first) } }
    #[inline] fn add(&mut self, out: &mut List, c: &[u32], origin: u64) -> bool {
        match c { [a, b] => { let fresh = self.pairs.insert((*a as u64) << 32 | *b as u64); if fresh { out.add(c, origin); } fresh } _ => self.seen.add_long(out, c, hash(c), origin) }
    }
}
impl Seen {
    fn add_long(&mut self, out: &mut List, c: &[u32], h: u64, origin: u64) -> bool {
        match self.find(out, c, h) {
            Ok(()) => false,
            Err(at) => {
                out.add(c, origin);
                self.slots[at] = (h >> 32 << 32) | (out.len() - self.first) as u64;
                self.count += 1;
                if self.count * 2 > self.slots.len() { let mask = self.slots.len() * 4 - 1; let old = std::mem::replace(&mut self.slots, vec![0u64; mask + 1]); for s in old { if s != 0 { let h = hash(out.clause(s as u32 as usize - 1 + self.first)); let mut at = h as usize & mask; while self.slots[at] != 0 { at = (at + 1) & mask; } self.slots[at] = s; } } }
                true
            }
        }
    }
}
impl Worker<'_> {
    fn listed(&mut self, a: Val, minus: bool) -> Range { match a { Val::One(c) => self.one(if minus { c ^ 1 } else { c }), Val::Open(p, m) => if minus { m } else { p }, Val::Known(_) => unreachable!() } }
    fn val_and(&mut self, a: Val, b: Val, w: u8) -> Val {
        match (a, b) {
            (Val::Known(true), b) => b,
            (Val::Known(false), _) | (_, Val::Known(false)) => Val::Known(false),
            (a, Val::Known(true)) => a,
            (Val::One(x), Val::One(y)) => {
                let a = self.begin();
                if w & PLUS != 0 { self.one(x); self.one(y); }
                let b = self.begin();
                if w & MINUS != 0 { self.two(x ^ 1, y ^ 1); }
                Val::Open(Range { a, b }, Range { a: b, b: self.begin() })
            }
            (a, b) => {
                let t = if w & PLUS != 0 { let (p, q) = (self.listed(a, false), self.listed(b, false)); self.summed(p, q, true) } else { Range { a: 0, b: 0 } };
                let f = if w & MINUS != 0 { let (m, n) = (self.listed(a, true), self.listed(b, true)); self.joined(m, n, true) } else { Range { a: 0, b: 0 } };
                Val::Open(t, f)
            }
        }
    }
    #[inline] fn two(&mut self, x: u32, y: u32) { self.codes.push(x); self.codes.push(y); self.ends.push(self.codes.len() as u32); }
    fn val_or(&mut self, a: Val, b: Val, w: u8) -> Val { let r = self.val_and(denied(a), denied(b), turned(w)); denied(r) }
    fn val(&mut self, p: &Part, e: &mut Values, lane: u32, w: u8) -> Val {
        if p.id != NONE { let m = self.memo[p.id]; if m.t >> lane & 1 == 1 { return Val::Known(true); } if m.f >> lane & 1 == 1 { return Val::Known(false); } }
        match &p.node {
            Node::Table { masks, vars } => Val::Known(masks[index(vars, e)] >> lane & 1 == 1),
            Node::Direct(a) => Val::Known(atom_at(self.s, a, e[..12].try_into().unwrap()) == Ok(true)),
            Node::Wins(x, p) => { let v: &[u32; 12] = e[..12].try_into().unwrap(); Val::One(self.s.wins_code(value(self.s, x, v), value(self.s, p, v))) }
            Node::Ranks(x, y, p, _) => { let v: &[u32; 12] = e[..12].try_into().unwrap(); let (x, y) = (value(self.s, x, v), value(self.s, y, v)); if x == y { return Val::Known(false); } Val::One(self.s.ranks_code(x, y, value(self.s, p, v))) }
            Node::Not(f) => denied(self.val(f, e, lane, turned(w))),
            Node::Both(f, g) => { let a = self.val(f, e, lane, w); if let Val::Known(false) = a { return a; } let b = self.val(g, e, lane, w); self.val_and(a, b, w) }
            Node::Either(f, g) => { let a = self.val(f, e, lane, w); if let Val::Known(true) = a { return a; } let b = self.val(g, e, lane, w); self.val_or(a, b, w) }
            Node::Implies(f, g) => { let a = denied(self.val(f, e, lane, turned(w))); if let Val::Known(true) = a { return a; } let b = self.val(g, e, lane, w); self.val_or(a, b, w) }
            Node::Same(f, g) => {
                let a = self.val(f, e, lane, 3);
                if let Val::Known(t) = a { return if t { self.val(g, e, lane, w) } else { denied(self.val(g, e, lane, turned(w))) }; }
                let b = self.val(g, e, lane, 3);
                if let Val::Known(t) = b { return if t { a } else { denied(a) }; }
                if let (Val::One(x), Val::One(y)) = (a, b) {
                    let a = self.begin();
                    if w & PLUS != 0 { self.two(x ^ 1, y); self.two(x, y ^ 1); }
                    let b = self.begin();
                    if w & MINUS != 0 { self.two(x ^ 1, y ^ 1); self.two(x, y); }
                    return Val::Open(Range { a, b }, Range { a: b, b: self.begin() });
                }
                let (p, m) = (self.listed(a, false), self.listed(a, true));
                let (q, n) = (self.listed(b, false), self.listed(b, true));
                let x = self.begin();
                if w & PLUS != 0 { self.join(m, q); self.join(p, n); }
                let y = self.begin();
                if w & MINUS != 0 { self.join(m, n); self.join(p, q); }
                Val::Open(Range { a: x, b: y }, Range { a: y, b: self.begin() })
            }
            Node::All(level, n, f) => {
                e[*level as usize] = n - 1;
                let mut v = self.val(f, e, lane, w);
                for k in (0..n - 1).rev() { if let Val::Known(false) = v { break; } e[*level as usize] = k; let first = self.val(f, e, lane, w); v = self.val_and(first, v, w); }
                v
            }
            Node::Exists(level, n, f) => {
                e[*level as usize] = n - 1;
                let mut v = self.val(f, e, lane, w);
                for k in (0..n - 1).rev() { if let Val::Known(true) = v { break; } e[*level as usize] = k; let first = self.val(f, e, lane, w); v = self.val_or(first, v, w); }
                v
            }
        }
    }
    fn run_lits(&mut self, from: u64, to: u64, keep: &mut impl FnMut(&[u32], u64)) {
        let c = self.c;
        let group = c.group as u64;
        let mut k = from;
        let mut e: Values = [0; 13];
        while k < to {
            let (mut outer, in_group) = (k / group, k % group);
            for l in (0..c.first_lane).rev() { e[l] = (outer % c.lens[l] as u64) as u32; outer /= c.lens[l] as u64; }
            e[12] = (in_group / 64) as u32;
            let first = in_group % 64;
            let lanes = (64 - first).min(group - in_group).min(to - k);
            let live = (if lanes == 64 { !0 } else { (1u64 << lanes) - 1 }) << first;
            let m = self.known(&c.body, &mut e, live);
            let mut rest = live & !m.t;
            while rest != 0 {
                let lane = rest.trailing_zeros();
                rest &= rest - 1;
                let number = k - first + lane as u64;
                if m.f >> lane & 1 == 1 { keep(&[], number); continue; }
                let from = &c.lane_values[(64 * e[12] + lane) as usize];
                for l in c.first_lane..c.u { e[l] = from[l]; }
                self.codes.clear();
                self.ends.truncate(1);
                match self.val(&c.body, &mut e, lane, PLUS) {
                    Val::One(code) => keep(&[code], number),
                    Val::Known(_) => unreachable!(),
                    Val::Open(r, _) => for j in r.a..r.b {
                        let (x, y) = (self.ends[j as usize] as usize, self.ends[j as usize + 1] as usize);
                        if y - x == 2 {
                            let (a, b) = (self.codes[x], self.codes[x + 1]);
                            if a == b { keep(&[a], number); } else if a ^ b != 1 { keep(&[a.min(b), a.max(b)], number); }
                            continue;
                        }
                        self.clause.clear();
                        self.clause.extend_from_slice(&self.codes[x..y]);
                        if normalize(&mut self.clause) { keep(&self.clause, number); }
                    },
                }
            }
            k += lanes;
        }
    }
}
// The clauses of an axiom: with one worker each is kept as it comes; with more, in rounds of `ROUND` instances, of which the workers make parts
// of `PART` instances each, while one thread more keeps what is new of the parts of the round before. A part leaves out a clause of two
// literals that it has as one of the last.
const ROUND: u64 = 65_536;
const PART: u64 = 256;
fn part_of(w: &mut Worker, base: u64, from: u64, to: u64) -> List {
    let (mut list, mut recent) = (List::default(), [(0, 0); 64]);
    w.run_lits(from, to, &mut |clause, k| {
        if let [a, b] = *clause {
            let place = &mut recent[b as usize % 64];
            if *place == (a, b) { return; }
            *place = (a, b);
        }
        list.add(clause, base + k);
    });
    list
}
fn parts_of(s: &Space, c: &Compiled, base: u64, from: u64, to: u64, workers: u64) -> Vec<List> {
    let step = (to - from).div_ceil(workers * PART) * PART;
    let run = |n: u64| {
        let (from, to, mut w) = ((from + step * n).min(to), (from + step * (n + 1)).min(to), Worker::new(s, c));
        (from..to).step_by(PART as usize).map(|k| part_of(&mut w, base, k, to.min(k + PART))).collect::<Vec<_>>()
    };
    std::thread::scope(|scope| {
        let run = &run;
        let others: Vec<_> = (1..workers).map(|n| scope.spawn(move || run(n))).collect();
        let mut all = run(0);
        for other in others { all.append(&mut other.join().unwrap()); }
        all
    })
}
fn by_masks(s: &Space, axiom: &Formula, base: u64, out: &mut List, workers: usize) {
    let c = compile(s, axiom);
    let count = c.outer * c.group as u64;
    let (_, body) = prefix(axiom);
    assert!(bound(s, body).map_or(true, |b| !b.0.wide()));
    let mut kept = Kept::new(out.len());
    if workers == 1 {
        Worker::new(s, &c).run_lits(0, count, &mut |clause, k| { kept.add(out, clause, base + k); });
        return;
    }
    let make = |from: u64| parts_of(s, &c, base, from.min(count), count.min(from + ROUND), workers as u64);
    let (mut from, mut parts) = (0, make(0));
    while from < count {
        from += ROUND;
        parts = std::thread::scope(|scope| {
            let more = scope.spawn(|| make(from));
            for part in &parts { for k in 0..part.len() { kept.add(out, part.clause(k), part.origins[k]); } }
            more.join().unwrap()
        });
    }
}

fn frames(s: &Space, out: &mut List) {
    for p in 0..s.profiles {
        if s.choice {
            let all: Vec<u32> = (0..s.m).map(|x| s.wins_code(x, p)).collect();
            out.add(&all, p as u64);
            for x in 0..s.m { for y in x + 1..s.m { out.add(&[s.wins_code(x, p) ^ 1, s.wins_code(y, p) ^ 1], p as u64); } }
        } else {
            for x in 0..s.m { for y in x + 1..s.m { for z in y + 1..s.m {
                let mut r = [s.ranks_code(y, x, p), s.ranks_code(z, y, p), s.ranks_code(x, z, p)]; r.sort(); out.add(&r, p as u64);
                let mut r = [s.ranks_code(z, x, p), s.ranks_code(y, z, p), s.ranks_code(x, y, p)]; r.sort(); out.add(&r, p as u64);
            } } }
        }
    }
}
fn write_number(buf: &mut Vec<u8>, mut n: u32) { let mut d = [0u8; 10]; let mut k = 10; loop { k -= 1; d[k] = b'0' + (n % 10) as u8; n /= 10; if n == 0 { break; } } buf.extend_from_slice(&d[k..]); }
fn main() -> io::Result<()> {
    let a: Vec<String> = std::env::args().collect();
    let (variant, workers, path) = (a[1].as_str(), a[2].parse::<usize>().unwrap(), &a[3]);
    let start = Instant::now();
    let (s, axioms) = read_study(path);
    let mut out = List::default();
    frames(&s, &mut out);
    for (k, (_, f)) in axioms.iter().enumerate() {
        let base = (k as u64 + 1) << 32;
        match variant {
            "passes" => by_passes(&s, f, base, &mut out),
            "masks" => by_masks(&s, f, base, &mut out, workers),
            _ => panic!("a way is passes or masks"),
        }
    }
    let ground = start.elapsed().as_secs_f64();
    let mut buf = Vec::with_capacity(1 << 20);
    let mut o = io::stdout().lock();
    write!(buf, "c bench export 1\nc kind {} voters {} alternatives {}\np cnf {} {}\n", if s.choice { "choice" } else { "ranking" }, s.n, s.m, s.profiles * s.bits, out.len())?;
    for k in 0..out.len() {
        for code in out.clause(k) { if code % 2 == 0 { buf.push(b'-'); } write_number(&mut buf, code / 2); buf.push(b' '); }
        buf.extend_from_slice(b"0\n");
        if buf.len() > 1 << 16 { o.write_all(&buf)?; buf.clear(); }
    }
    o.write_all(&buf)?;
    eprintln!("ground {ground:.4}");
    Ok(())
}
