// The baseline of measure/tables.sh: the test of independence over all its instances in plain Rust, with nothing
// proved. It evaluates the same tree in the same order, and walks through the instances block by block.
mod rankings;

use rankings::rankings;
use std::time::Instant;

#[derive(Clone, Copy)]
enum Sort { Voter, Alt, Profile }

enum Term { Var(u8), Const(u32) }

enum Atom { Prefers(Term, Term, Term, Term), Ranks(Term, Term, Term) }

enum Formula { Leaf(Atom), Implies(Box<Formula>, Box<Formula>), Same(Box<Formula>, Box<Formula>), All(Sort, Box<Formula>) }

#[derive(Clone, Copy)]
struct Env { values: [u32; 12], len: u8 }

impl Env {
    fn with(&self, value: u32) -> Env {
        let mut more = *self;
        more.values[more.len as usize] = value;
        more.len += 1;
        more
    }
}

struct Space { voters: u32, alternatives: u32, ballots: u32, profiles: u32, weights: [u32; 8], places: Vec<[u8; 5]> }

impl Space {
    fn new(voters: u32, alternatives: u32) -> Space {
        let all = rankings(&(0..alternatives as u8).collect::<Vec<_>>());
        let ballots = all.len() as u32;
        let mut weights = [0; 8];
        for i in 0..voters { weights[i as usize] = ballots.pow(voters - 1 - i); }
        let places = all.iter().map(|ranking| {
            let mut place = [0; 5];
            for (k, x) in ranking.iter().enumerate() { place[*x as usize] = k as u8; }
            place
        }).collect();
        Space { voters, alternatives, ballots, profiles: ballots.pow(voters), weights, places }
    }
    fn sort_len(&self, sort: Sort) -> u32 {
        match sort { Sort::Voter => self.voters, Sort::Alt => self.alternatives, Sort::Profile => self.profiles }
    }
    fn better(&self, b: u32, x: u32, y: u32) -> bool {
        let places = &self.places[b as usize];
        places[x as usize] < places[y as usize]
    }
    fn value(&self, term: &Term, env: &Env) -> u32 {
        match term { Term::Var(level) => env.values[*level as usize], Term::Const(number) => *number }
    }
    fn is_true(&self, table: &[u8], formula: &Formula, env: &Env) -> bool {
        match formula {
            Formula::Leaf(Atom::Prefers(i, x, y, p)) => {
                let ballot = self.value(p, env) / self.weights[self.value(i, env) as usize] % self.ballots;
                self.better(ballot, self.value(x, env), self.value(y, env))
            }
            Formula::Leaf(Atom::Ranks(x, y, p)) => {
                let (above, below) = (self.value(x, env), self.value(y, env));
                above != below && self.better(table[self.value(p, env) as usize] as u32, above, below)
            }
            Formula::Implies(f, g) => !self.is_true(table, f, env) || self.is_true(table, g, env),
            Formula::Same(f, g) => self.is_true(table, f, env) == self.is_true(table, g, env),
            Formula::All(sort, f) => (0..self.sort_len(*sort)).rev().all(|v| self.is_true(table, f, &env.with(v))),
        }
    }
    fn instance_count(&self, formula: &Formula) -> u64 {
        match formula { Formula::All(sort, f) => self.sort_len(*sort) as u64 * self.instance_count(f), _ => 1 }
    }
    fn first_false(&self, table: &[u8], formula: &Formula, env: &Env, from: u64, to: u64) -> Option<u64> {
        if from >= to { return None; }
        match formula {
            Formula::All(sort, f) => {
                let block = self.instance_count(f);
                for v in (from / block) as u32..self.sort_len(*sort) {
                    let start = v as u64 * block;
                    if start >= to { return None; }
                    if let Some(k) = self.first_false(table, f, &env.with(v), from.saturating_sub(start), block.min(to - start)) { return Some(start + k); }
                }
                None
            }
            _ => if self.is_true(table, formula, env) { None } else { Some(from) },
        }
    }
}

fn main() {
    let var = |level| Term::Var(level);
    let prefers = |p| Box::new(Formula::Leaf(Atom::Prefers(var(4), var(2), var(3), var(p))));
    let ranks = |p| Box::new(Formula::Leaf(Atom::Ranks(var(2), var(3), var(p))));
    let alike = Box::new(Formula::All(Sort::Voter, Box::new(Formula::Same(prefers(0), prefers(1)))));
    let body = Box::new(Formula::Implies(alike, Box::new(Formula::Same(ranks(0), ranks(1)))));
    let sentence = [Sort::Alt, Sort::Alt, Sort::Profile, Sort::Profile].into_iter().fold(body, |f, sort| Box::new(Formula::All(sort, f)));
    let space = Space::new(2, 4);
    let table = vec![0; space.profiles as usize];
    let none = Env { values: [0; 12], len: 0 };
    let count = space.instance_count(&sentence);
    let start = Instant::now();
    let found = space.first_false(&table, &sentence, &none, 0, std::hint::black_box(count));
    let spent = start.elapsed().as_nanos();
    let _ = Term::Const(0);
    println!("{} {} {}", found.is_some(), count, spent);
}
