// The command `lrat` in plain Rust, the same algorithm step by step: lrat CNF PROOF. Prints the answer. With one more word, `parts`,
// it writes both texts into memory too, and prints behind the answer the number of bytes written, and the nanoseconds of reading
// the clauses, of reading the derivation, of checking it, and of writing both.
use std::time::Instant;

const MOST_VARIABLES: u64 = 10_000_000;
const MOST_COUNT: u64 = 4_294_967_295;
const MOST_ID: u64 = 9_223_372_036_854_775_807;

struct Clauses {
    literals: Vec<i32>,
    ends: Vec<usize>,
}

impl Clauses {
    fn len(&self) -> usize {
        self.ends.len()
    }
    fn get(&self, k: usize) -> &[i32] {
        let start = if k == 0 { 0 } else { self.ends[k - 1] };
        &self.literals[start..self.ends[k]]
    }
}

enum Step {
    Add { id: u64, clause: Vec<i32>, hints: Vec<u64> },
    Drop { ids: Vec<u64> },
}

fn words(line: &[u8]) -> impl Iterator<Item = &[u8]> {
    line.split(|c| matches!(c, b'\t' | b'\r' | b' ')).filter(|word| !word.is_empty())
}

// The lines that say something, each with its number.
fn said(text: &[u8]) -> impl Iterator<Item = (usize, &[u8])> {
    text.split(|c| *c == b'\n').enumerate().map(|(place, line)| (place + 1, line)).filter(|(_, line)| line.first() != Some(&b'c') && words(line).next().is_some())
}

fn number(word: &[u8], most: u64) -> Option<u64> {
    if word.is_empty() || word.len() > 1 && word[0] == b'0' {
        return None;
    }
    let mut value: u64 = 0;
    for digit in word {
        if !digit.is_ascii_digit() {
            return None;
        }
        value = value.checked_mul(10)?.checked_add((digit - b'0') as u64)?;
    }
    if value <= most { Some(value) } else { None }
}

fn literal(word: &[u8], variables: u64) -> Option<i32> {
    match word {
        [b'-', rest @ ..] => number(rest, variables).filter(|n| *n > 0).map(|n| -(n as i32)),
        _ => number(word, variables).map(|n| n as i32),
    }
}

fn read_cnf(text: &[u8]) -> Result<(u64, Clauses), String> {
    let mut lines = said(text);
    let (_, first) = lines.next().ok_or("header")?;
    let header: Vec<&[u8]> = words(first).collect();
    if header.len() != 4 || header[0] != b"p" || header[1] != b"cnf" {
        return Err("header".into());
    }
    let variables = number(header[2], MOST_VARIABLES).ok_or("header")?;
    let count = number(header[3], MOST_COUNT).ok_or("header")?;
    let mut clauses = Clauses { literals: Vec::new(), ends: Vec::new() };
    for (at, line) in lines {
        for word in words(line) {
            match literal(word, variables) {
                None => return Err(format!("literal {at}")),
                Some(0) => clauses.ends.push(clauses.literals.len()),
                Some(lit) => clauses.literals.push(lit),
            }
        }
    }
    let open = clauses.literals.len() > clauses.ends.last().copied().unwrap_or(0);
    if open || clauses.len() as u64 != count {
        return Err(format!("count {}", clauses.len()));
    }
    Ok((variables, clauses))
}

fn id(word: &[u8]) -> Option<u64> {
    number(word, MOST_ID).filter(|n| *n > 0)
}

// Ids and then 0 as the last word; behind a minus too, where `signed` says so.
fn ids<'a>(mut words: impl Iterator<Item = &'a [u8]>, negative: &mut bool) -> Option<Vec<u64>> {
    let mut ids = Vec::new();
    loop {
        let word = words.next()?;
        if word == b"0" {
            return if words.next().is_none() { Some(ids) } else { None };
        }
        match word {
            [b'-', rest @ ..] => {
                *negative = true;
                ids.push(id(rest)?);
            }
            _ => ids.push(id(word)?),
        }
    }
}

fn step(line: &[u8], variables: u64) -> Result<Step, &'static str> {
    let mut words = words(line).peekable();
    let front = words.next().ok_or("line")?;
    let mut negative = false;
    if *words.peek().ok_or("line")? == b"d" {
        words.next();
        number(front, MOST_ID).ok_or("line")?;
        let ids = ids(words, &mut negative).ok_or("line")?;
        return if negative { Err("line") } else { Ok(Step::Drop { ids }) };
    }
    let id = id(front).ok_or("line")?;
    let mut clause = Vec::new();
    loop {
        match literal(words.next().ok_or("line")?, variables).ok_or("line")? {
            0 => break,
            lit => clause.push(lit),
        }
    }
    let hints = ids(words, &mut negative).ok_or("line")?;
    if negative { Err("rat") } else { Ok(Step::Add { id, clause, hints }) }
}

fn read_lrat(text: &[u8], variables: u64) -> Result<Vec<(usize, Step)>, String> {
    said(text).map(|(at, line)| step(line, variables).map(|step| (at, step)).map_err(|word| format!("line {at}: {word}"))).collect()
}

// The signs of the variables that are known, by stamp.
struct Marks {
    stamps: Vec<u32>,
    signs: Vec<bool>,
    now: u32,
}

impl Marks {
    fn sign(&self, lit: i32) -> Option<bool> {
        let v = lit.unsigned_abs() as usize;
        if self.stamps[v] == self.now { Some(self.signs[v]) } else { None }
    }
    fn set(&mut self, lit: i32) {
        let v = lit.unsigned_abs() as usize;
        self.stamps[v] = self.now;
        self.signs[v] = lit > 0;
    }
}

// Whether the hints lead to a clause whose literals are all false.
fn follows(marks: &mut Marks, clauses: &Clauses, lines: &[(usize, Step)], places: &[(u64, usize, bool)], inputs: &[bool], hints: &[u64]) -> Result<(), String> {
    for hint in hints {
        let clause: &[i32] = if *hint <= inputs.len() as u64 {
            if !inputs[*hint as usize - 1] {
                return Err(format!("hint {hint}"));
            }
            clauses.get(*hint as usize - 1)
        } else {
            match place_of(places, inputs.len(), *hint) {
                Some(k) if places[k].2 => match &lines[places[k].1].1 {
                    Step::Add { clause, .. } => clause,
                    Step::Drop { .. } => unreachable!(),
                },
                _ => return Err(format!("hint {hint}")),
            }
        };
        let mut open: Option<i32> = None;
        let mut holds = false;
        let mut several = false;
        for lit in clause {
            match marks.sign(*lit) {
                Some(sign) if sign == (*lit > 0) => holds = true,
                Some(_) => {}
                None if open.is_some() && open != Some(*lit) => several = true,
                None => open = Some(*lit),
            }
        }
        match open {
            _ if holds => {}
            _ if several => return Err(format!("not_unit {hint}")),
            Some(lit) => marks.set(lit),
            None => return Ok(()),
        }
    }
    Err("no_conflict".into())
}

// The place of an added clause, tried first where it is if each id is the next one.
fn place_of(places: &[(u64, usize, bool)], count: usize, id: u64) -> Option<usize> {
    let guess = id.checked_sub(count as u64 + 1)? as usize;
    if places.get(guess).is_some_and(|place| place.0 == id) {
        return Some(guess);
    }
    places.binary_search_by_key(&id, |place| place.0).ok()
}

fn check(variables: u64, clauses: &Clauses, lines: &[(usize, Step)]) -> Result<(), String> {
    let mut marks = Marks { stamps: vec![0; variables as usize + 1], signs: vec![false; variables as usize + 1], now: 0 };
    let mut inputs = vec![true; clauses.len()];
    let mut places: Vec<(u64, usize, bool)> = Vec::new();
    let mut greatest = clauses.len() as u64;
    for (place, (at, step)) in lines.iter().enumerate() {
        match step {
            Step::Drop { ids } => {
                for id in ids {
                    if *id <= inputs.len() as u64 {
                        inputs[*id as usize - 1] = false;
                    } else if let Some(k) = place_of(&places, inputs.len(), *id) {
                        places[k].2 = false;
                    }
                }
            }
            Step::Add { id, clause, hints } => {
                if *id <= greatest {
                    return Err(format!("line {at}: id"));
                }
                greatest = *id;
                marks.now += 1;
                let mut tautology = false;
                for lit in clause {
                    match marks.sign(*lit) {
                        Some(sign) if sign == (*lit > 0) => tautology = true,
                        _ => marks.set(-*lit),
                    }
                }
                if !tautology {
                    follows(&mut marks, clauses, lines, &places, &inputs, hints).map_err(|word| format!("line {at}: {word}"))?;
                }
                if clause.is_empty() {
                    return Ok(());
                }
                places.push((*id, place, true));
            }
        }
    }
    Err(format!("line {}: not_empty", lines.last().map_or(1, |line| line.0 + 1)))
}

fn put(out: &mut Vec<u8>, number: u64, behind: u8) {
    let mut digits = [0u8; 20];
    let mut from = digits.len();
    let mut rest = number;
    loop {
        from -= 1;
        digits[from] = b'0' + (rest % 10) as u8;
        rest /= 10;
        if rest == 0 {
            break;
        }
    }
    out.extend_from_slice(&digits[from..]);
    out.push(behind);
}

fn put_clause(out: &mut Vec<u8>, clause: &[i32]) {
    for lit in clause {
        if *lit < 0 {
            out.push(b'-');
        }
        put(out, lit.unsigned_abs() as u64, b' ');
    }
    out.push(b'0');
}

fn write_cnf(variables: u64, clauses: &Clauses, out: &mut Vec<u8>) {
    out.extend_from_slice(b"c bench export 1\nc x\np cnf ");
    put(out, variables, b' ');
    put(out, clauses.len() as u64, b'\n');
    for k in 0..clauses.len() {
        put_clause(out, clauses.get(k));
        out.push(b'\n');
    }
}

fn write_lrat(lines: &[(usize, Step)], out: &mut Vec<u8>) {
    for (_, step) in lines {
        if let Step::Add { id, clause, hints } = step {
            put(out, *id, b' ');
            put_clause(out, clause);
            out.push(b' ');
            for hint in hints {
                put(out, *hint, b' ');
            }
            out.extend_from_slice(b"0\n");
        }
    }
}

fn read_clauses(name: &str) -> (u64, Clauses, u128) {
    let text = std::fs::read(name).expect("a file");
    let start = Instant::now();
    let (variables, clauses) = read_cnf(&text).unwrap_or_else(|fault| panic!("cnf: {fault}"));
    (variables, clauses, start.elapsed().as_nanos())
}

fn read_lines(name: &str, variables: u64) -> (Vec<(usize, Step)>, u128) {
    let text = std::fs::read(name).expect("a file");
    let start = Instant::now();
    let lines = read_lrat(&text, variables).unwrap_or_else(|fault| panic!("proof {fault}"));
    (lines, start.elapsed().as_nanos())
}

fn main() {
    let words: Vec<String> = std::env::args().skip(1).collect();
    let (variables, clauses, read) = read_clauses(&words[0]);
    let (lines, told) = read_lines(&words[1], variables);
    let start = Instant::now();
    let answer = check(variables, &clauses, &lines).map_or_else(|fault| fault, |()| "confirmed".into());
    let checked = start.elapsed().as_nanos();
    if words.len() == 2 {
        println!("{answer}");
        return;
    }
    let start = Instant::now();
    let mut out = Vec::with_capacity(100_000_000);
    write_cnf(variables, &clauses, &mut out);
    write_lrat(&lines, &mut out);
    let written = out.len();
    let wrote = start.elapsed().as_nanos();
    println!("{answer} {written} {read} {told} {checked} {wrote}");
}
