// Runs a command so many times: peak COUNT COMMAND [WORD ..]. Prints the shortest seconds, the peak memory in KB over all
// runs (that of this small program at least, since a child begins as its copy), and what the last run wrote.
use std::process::Command;
use std::time::Instant;

// Two times of two words each, and then fourteen words, of which the first is the peak.
#[repr(C)]
struct Usage {
    words: [i64; 18],
}

extern "C" {
    fn getrusage(who: i32, usage: *mut Usage) -> i32;
}

const CHILDREN: i32 = -1;
const PEAK: usize = 4;

fn main() {
    let words: Vec<String> = std::env::args().skip(1).collect();
    let count: u32 = words[0].parse().expect("a count");
    let (mut best, mut text) = (f64::MAX, String::new());
    for _ in 0..count {
        let start = Instant::now();
        let run = Command::new(&words[1]).args(&words[2..]).output().expect("a command");
        best = best.min(start.elapsed().as_secs_f64());
        text = String::from_utf8(run.stdout).expect("a text");
    }
    let mut usage = Usage { words: [0; 18] };
    let told = unsafe { getrusage(CHILDREN, &mut usage) };
    assert_eq!(told, 0);
    print!("{best:.4} {} {text}", usage.words[PEAK]);
}
