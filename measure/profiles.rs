// The baseline of measure/profiles.sh: the calls of a space in plain Rust, with nothing proved. It numbers profiles and
// ballots in the same way, with places and rankings of ballots in tables and a weight for each voter.
mod rankings;

use rankings::rankings;
use std::time::Instant;

struct Space { voters: u32, alternatives: u32, ballots: u32, profiles: u32, weights: [u32; 8], rankings: Vec<[u8; 5]>, places: Vec<[u8; 5]>, exchanged: Vec<Vec<u8>> }

impl Space {
    fn new(voters: u32, alternatives: u32) -> Space {
        let m = alternatives as usize;
        let all = rankings(&(0..alternatives as u8).collect::<Vec<_>>());
        let ballots = all.len() as u32;
        let mut weights = [0; 8];
        for i in 0..voters { weights[i as usize] = ballots.pow(voters - 1 - i); }
        let mut places = Vec::new();
        let mut in_place = Vec::new();
        for ranking in &all {
            let mut row = [0; 5];
            let mut place = [0; 5];
            for (k, x) in ranking.iter().enumerate() { row[k] = *x; place[*x as usize] = k as u8; }
            in_place.push(row);
            places.push(place);
        }
        let mut exchanged = Vec::new();
        for x in 0..m as u8 {
            for y in 0..m as u8 {
                exchanged.push(all.iter().map(|r| {
                    let image: Vec<u8> = r.iter().map(|z| if *z == x { y } else if *z == y { x } else { *z }).collect();
                    all.iter().position(|s| *s == image).unwrap() as u8
                }).collect());
            }
        }
        Space { voters, alternatives, ballots, profiles: ballots.pow(voters), weights, rankings: in_place, places, exchanged }
    }
    fn ballot_of(&self, p: u32, i: u32) -> u32 { p / self.weights[i as usize] % self.ballots }
    fn better(&self, b: u32, x: u32, y: u32) -> bool {
        let places = &self.places[b as usize];
        places[x as usize] < places[y as usize]
    }
    fn prefers(&self, i: u32, x: u32, y: u32, p: u32) -> bool { self.better(self.ballot_of(p, i), x, y) }
    fn majority(&self, x: u32, y: u32, p: u32) -> bool {
        let (mut rest, mut above, mut below) = (p, 0, 0);
        for weight in &self.weights[..self.voters as usize] {
            let ballot = rest / weight;
            rest %= weight;
            above += self.better(ballot, x, y) as u32;
            below += self.better(ballot, y, x) as u32;
        }
        below < above
    }
    fn swap_alts(&self, p: u32, x: u32, y: u32) -> u32 {
        let row = &self.exchanged[(x * self.alternatives + y) as usize];
        let (mut rest, mut swapped) = (p, 0);
        for weight in &self.weights[..self.voters as usize] {
            swapped += row[(rest / weight) as usize] as u32 * weight;
            rest %= weight;
        }
        swapped
    }
    fn swap_voters(&self, p: u32, i: u32, j: u32) -> u32 {
        let (a, b) = (self.ballot_of(p, i), self.ballot_of(p, j));
        let (v, w) = (self.weights[i as usize], self.weights[j as usize]);
        p - a * v + b * v - b * w + a * w
    }
    fn with(&self, p: u32, i: u32, b: u32) -> u32 {
        let w = self.weights[i as usize];
        p - self.ballot_of(p, i) * w + b * w
    }
    fn swap(&self, x: u32, y: u32, z: u32) -> u32 { if z == x { y } else if z == y { x } else { z } }
    fn ballot_text(&self, b: u32) -> ([u8; 32], usize) {
        let mut text = [0; 32];
        for (k, x) in self.rankings[b as usize][..self.alternatives as usize].iter().enumerate() { text[k] = b'a' + x; }
        (text, self.alternatives as usize)
    }
    fn profile_text(&self, p: u32) -> ([u8; 48], usize) {
        let mut text = [0; 48];
        let mut len = 0;
        for i in 0..self.voters {
            if i > 0 { text[len] = b'|'; len += 1; }
            for x in &self.rankings[self.ballot_of(p, i) as usize][..self.alternatives as usize] { text[len] = b'a' + x; len += 1; }
        }
        (text, len)
    }
    fn read_ballot(&self, text: &[u8]) -> Option<u32> {
        if text.len() != self.alternatives as usize { return None; }
        let mut number = 0;
        for (k, letter) in text.iter().enumerate() {
            let lower = text[k + 1..].iter().filter(|y| *y < letter).count() as u32;
            number = number * (text.len() - k) as u32 + lower;
        }
        let row = &self.rankings[number as usize];
        if text.iter().zip(row).all(|(c, x)| *c == b'a' + x) { Some(number) } else { None }
    }
    fn read_profile(&self, text: &[u8]) -> Option<u32> {
        let mut profile = 0;
        let mut voters = 0;
        for part in text.split(|c| *c == b'|') {
            if voters == self.voters { return None; }
            profile = profile * self.ballots + self.read_ballot(part)?;
            voters += 1;
        }
        if voters == self.voters { Some(profile) } else { None }
    }
}

fn fold(sum: &mut u32, value: u32) { *sum = sum.wrapping_mul(31).wrapping_add(value); }

fn calls(call: &str, s: &Space) -> u32 {
    let mut sum = 0;
    match call {
        "prefers" => for i in 0..s.voters { for x in 0..s.alternatives { for y in 0..s.alternatives { for p in 0..s.profiles { fold(&mut sum, s.prefers(i, x, y, p) as u32); } } } },
        "majority" => for x in 0..s.alternatives { for y in 0..s.alternatives { for p in 0..s.profiles { fold(&mut sum, s.majority(x, y, p) as u32); } } },
        "swap_alts" => for x in 0..s.alternatives { for y in 0..s.alternatives { for p in 0..s.profiles { fold(&mut sum, s.swap_alts(p, x, y)); } } },
        "swap_voters" => for i in 0..s.voters { for j in 0..s.voters { for p in 0..s.profiles { fold(&mut sum, s.swap_voters(p, i, j)); } } },
        "ballots" => for i in 0..s.voters { for j in 0..s.voters { for p in 0..s.profiles { let b = s.ballot_of(p, i); fold(&mut sum, b + (s.ballot_of(p, j) == b) as u32); } } },
        "better" => for x in 0..s.alternatives { for y in 0..s.alternatives { for p in 0..s.profiles { fold(&mut sum, s.better(s.ballot_of(p, 0), x, y) as u32); } } },
        "with" => for i in 0..s.voters { for j in 0..s.voters { for p in 0..s.profiles { fold(&mut sum, s.with(p, j, s.ballot_of(p, i))); } } },
        "swap" => for x in 0..s.alternatives { for y in 0..s.alternatives { for z in 0..s.alternatives { for _ in 0..1000 { fold(&mut sum, std::hint::black_box(s).swap(x, y, z)); } } } },
        "ballot_texts" => for p in 0..s.profiles { let (text, len) = s.ballot_text(s.ballot_of(p, 0)); fold(&mut sum, s.read_ballot(&text[..len]).unwrap()); },
        _ => for p in 0..s.profiles { let (text, len) = s.profile_text(p); fold(&mut sum, s.read_profile(&text[..len]).unwrap()); },
    }
    sum
}

fn main() {
    for (voters, alternatives) in [(8, 2), (5, 3), (3, 4), (2, 5)] {
        let space = Space::new(voters, alternatives);
        for call in ["prefers", "majority", "swap_alts", "swap_voters", "ballots", "better", "with", "swap", "ballot_texts", "texts"] {
            let mut sum: u32 = 0;
            let start = Instant::now();
            for _ in 0..20 { sum = sum.wrapping_add(calls(call, std::hint::black_box(&space))); }
            println!("{call} {sum} {}", start.elapsed().as_nanos());
        }
    }
}
