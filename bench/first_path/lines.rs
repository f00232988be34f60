// Writes a script of mixed lines, the same at each run: lines COUNT [FILES TASKS MAPS]. It makes the files, the tasks and
// the maps first; then of each 100 lines some 40 store, 40 load, 5 ask for meminfo, and 15 are of the other four commands,
// most of which are refused.
use std::env;
use std::io::{self, BufWriter, Write};

struct Dice(u64);

impl Dice {
    fn below(&mut self, n: u64) -> u64 {
        self.0 ^= self.0 << 13;
        self.0 ^= self.0 >> 7;
        self.0 ^= self.0 << 17;
        (self.0 >> 11) % n
    }
}

fn main() -> io::Result<()> {
    let words: Vec<u64> = env::args().skip(1).map(|word| word.parse().expect("a number")).collect();
    let lines = words[0];
    let (files, tasks, maps) = match words[1..] {
        [files, tasks, maps] => (files, tasks, maps),
        _ => (8, 16, 32),
    };
    let mut out = BufWriter::new(io::stdout().lock());
    let mut nr = 8;
    writeln!(out, "nr {nr}")?;
    for task in 1..=tasks {
        writeln!(out, "connect {task} {}", task % 2)?;
    }
    for file in 0..files {
        writeln!(out, "create 0 file{file}")?;
    }
    // The pool has 8 pages: the maps of file k are of its page at index k, for the first 8 files.
    for map in 0..maps {
        let file = (map + map / tasks) % files.min(8);
        writeln!(out, "map {} 0 file{file} {file} 1 shared", map % tasks + 1)?;
    }
    let mut dice = Dice(0x9E37_79B9_7F4A_7C15);
    for _ in 1 + tasks + files + maps..lines {
        let map = dice.below(maps);
        let (task, number) = (map % tasks + 1, map / tasks + 1);
        let index = (map + map / tasks) % files.min(8);
        match dice.below(100) {
            0..40 => {
                write!(out, "store {task} 0 {number} {index} {} ", dice.below(1000))?;
                for _ in 0..=dice.below(16) {
                    write!(out, "{:02x}", dice.below(256))?;
                }
                writeln!(out)?;
            }
            40..80 => {
                let (offset, count) = (dice.below(1010), 1 + dice.below(16));
                writeln!(out, "load {task} 0 {number} {index} {offset} {count}")?;
            }
            80..85 => writeln!(out, "meminfo")?,
            85..90 => {
                // (the plain program knows no falling nr)
                nr = nr.max(4 + dice.below(8));
                writeln!(out, "nr {nr}")?
            }
            90..94 => writeln!(out, "connect {} {}", 1 + dice.below(tasks), dice.below(3))?,
            94..97 => writeln!(out, "create 0 file{}", dice.below(files))?,
            _ => writeln!(out, "map {task} 0 file{} {} 9 shared", dice.below(files + 1), dice.below(20))?,
        }
    }
    out.flush()
}
