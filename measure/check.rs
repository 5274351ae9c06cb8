// The baseline of measure/check.sh: the test of a report that holds a rule, in plain Rust, with nothing proved.
// It does what `bench check` does over such a study: reads the report, cuts its lines off one by one, and tests
// unanimity and Pareto at each instance by one recursion over the sentence's tree.
mod rankings;

use rankings::rankings;
use std::{env, fs, process};

enum Sort { Voter, Alt, Profile }

enum Term { Var(usize) }

enum Formula {
    Equal(Term, Term),
    Prefers(Term, Term, Term, Term),
    Wins(Term, Term),
    Not(Box<Formula>),
    Either(Box<Formula>, Box<Formula>),
    Implies(Box<Formula>, Box<Formula>),
    All(Sort, Box<Formula>),
}

use Formula::*;

struct Space { voters: u32, alternatives: u32, ballots: u32, profiles: u32, weights: Vec<u32>, rankings: Vec<Vec<u8>>, places: Vec<Vec<u8>> }

impl Space {
    fn new(voters: u32, alternatives: u32) -> Space {
        let rankings = rankings(&(0..alternatives as u8).collect::<Vec<_>>());
        let places = rankings.iter().map(|r| (0..alternatives as u8).map(|x| r.iter().position(|y| *y == x).unwrap() as u8).collect()).collect();
        let ballots = rankings.len() as u32;
        let weights = (0..voters).map(|i| ballots.pow(voters - 1 - i)).collect();
        Space { voters, alternatives, ballots, profiles: ballots.pow(voters), weights, rankings, places }
    }
    fn ballot_of(&self, p: u32, i: u32) -> usize { (p / self.weights[i as usize] % self.ballots) as usize }
    fn prefers(&self, i: u32, x: u32, y: u32, p: u32) -> bool {
        let places = &self.places[self.ballot_of(p, i)];
        places[x as usize] < places[y as usize]
    }
    fn len(&self, sort: &Sort) -> u32 {
        match sort { Sort::Voter => self.voters, Sort::Alt => self.alternatives, Sort::Profile => self.profiles }
    }
    fn profile_text(&self, p: u32) -> Vec<u8> {
        let mut text = Vec::new();
        for i in 0..self.voters {
            if i > 0 { text.push(b'|'); }
            text.extend(self.rankings[self.ballot_of(p, i)].iter().map(|x| b'a' + x));
        }
        text
    }
}

#[derive(Clone, Copy)]
struct Values { values: [u32; 12], len: usize }

impl Values {
    fn with(&self, value: u32) -> Values {
        let mut next = *self;
        next.values[next.len] = value;
        next.len += 1;
        next
    }
}

fn value(term: &Term, env: &Values) -> u32 { match term { Term::Var(level) => env.values[*level] } }

fn truth(space: &Space, table: &[u8], formula: &Formula, env: &Values) -> bool {
    match formula {
        Equal(s, t) => value(s, env) == value(t, env),
        Prefers(i, x, y, p) => space.prefers(value(i, env), value(x, env), value(y, env), value(p, env)),
        Wins(x, p) => u32::from(table[value(p, env) as usize]) == value(x, env),
        Not(f) => !truth(space, table, f, env),
        Either(f, g) => truth(space, table, f, env) || truth(space, table, g, env),
        Implies(f, g) => !truth(space, table, f, env) || truth(space, table, g, env),
        All(sort, f) => (0..space.len(sort)).all(|v| truth(space, table, f, &env.with(v))),
    }
}

fn instances(space: &Space, formula: &Formula) -> u64 {
    match formula { All(sort, f) => u64::from(space.len(sort)) * instances(space, f), _ => 1 }
}

fn first_false(space: &Space, table: &[u8], formula: &Formula, env: &Values, first: u64) -> Option<u64> {
    match formula {
        All(sort, f) => {
            let block = instances(space, f);
            (0..space.len(sort)).find_map(|v| first_false(space, table, f, &env.with(v), first + u64::from(v) * block))
        }
        body => if truth(space, table, body, env) { None } else { Some(first) },
    }
}

fn var(level: usize) -> Term { Term::Var(level) }
fn all(sort: Sort, f: Formula) -> Formula { All(sort, Box::new(f)) }
fn implies(f: Formula, g: Formula) -> Formula { Implies(Box::new(f), Box::new(g)) }

fn unanimity() -> Formula {
    let best = Either(Box::new(Equal(var(1), var(3))), Box::new(Prefers(var(2), var(1), var(3), var(0))));
    all(Sort::Profile, all(Sort::Alt, implies(all(Sort::Voter, all(Sort::Alt, best)), Wins(var(1), var(0)))))
}

fn pareto() -> Formula {
    let above = all(Sort::Voter, Prefers(var(3), var(1), var(2), var(0)));
    all(Sort::Profile, all(Sort::Alt, all(Sort::Alt, implies(above, Not(Box::new(Wins(var(2), var(0))))))))
}

fn read_rule(space: &Space, report: &[u8]) -> Option<Vec<u8>> {
    let head = format!("bench report 1\nkind choice\nvoters {}\nalternatives {}\naxioms unanimity pareto\nverdict possible\nrule {}\n", space.voters, space.alternatives, space.profiles);
    let mut rest = report.strip_prefix(head.as_bytes())?;
    let mut table = Vec::with_capacity(space.profiles as usize);
    for p in 0..space.profiles {
        rest = rest.strip_prefix(space.profile_text(p).as_slice())?.strip_prefix(b" ")?;
        let (letter, after) = rest.split_first()?;
        table.push(letter.checked_sub(b'a').filter(|x| u32::from(*x) < space.alternatives)?);
        rest = after.strip_prefix(b"\n")?;
    }
    if rest == b"end\n" { Some(table) } else { None }
}

fn main() {
    let path = env::args().nth(1).expect("a report");
    let report = fs::read(path).expect("the report");
    let space = Space::new(2, 5);
    let Some(table) = read_rule(&space, &report) else { println!("refused: not built"); process::exit(1) };
    for (name, sentence) in [("unanimity", unanimity()), ("pareto", pareto())] {
        if let Some(k) = first_false(&space, &table, &sentence, &Values { values: [0; 12], len: 0 }, 0) {
            println!("refused line {}: fails {name} {k}", 7 + space.profiles);
            process::exit(1)
        }
    }
    println!("confirmed possible");
}
