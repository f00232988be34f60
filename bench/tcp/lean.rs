//! A lean client: lean PORT SESSIONS LINES WORK
//! Its lines are made before the clock starts, and the replies are read and thrown away, so that the server is what is timed. It prints
//! how many lines were sent, and the seconds.
//! WORK is `slots` (loads, stores and faults, each session on a slot of its own), `slot` (all on slot 0), or `faults` (each fault of 64 makes
//! a page; the homes go round four nodes, each session on a slot of its own).

use std::env;
use std::fmt::Write as _;
use std::io::{Read, Write};
use std::net::{Shutdown, TcpStream};
use std::sync::Barrier;
use std::thread;
use std::time::Instant;

/// A generator of numbers: the same ones in each run.
struct Numbers(u64);

impl Numbers {
    fn below(&mut self, most: u64) -> u64 {
        self.0 = self.0.wrapping_mul(6364136223846793005).wrapping_add(1442695040888963407);
        ((self.0 >> 33) * most) >> 31
    }
}

fn connect(port: u16) -> TcpStream {
    let stream = TcpStream::connect(("127.0.0.1", port)).expect("the server listens");
    stream.set_nodelay(true).expect("a socket has that option");
    stream
}

/// Loads, stores and faults of a task with two maps of a file.
fn accesses(number: u64, lines: u64, slot: u64) -> String {
    let (task, mut numbers) = (number + 1, Numbers(number * 7919 + 1));
    let mut text = format!(
        "connect {task} 0\ncreate {slot} f{number}\nmap {task} {slot} f{number} 0 32 shared\nmap {task} {slot} f{number} 0 16 private\n"
    );
    for _ in 4..lines {
        let map = 1 + numbers.below(2);
        let (index, offset) = (numbers.below(16 * (3 - map)), numbers.below(1000));
        let _ = match numbers.below(8) {
            0..=3 => writeln!(text, "store {task} {slot} {map} {index} {offset} {:08x}", numbers.below(1 << 30)),
            4..=6 => writeln!(text, "load {task} {slot} {map} {index} {offset} 8"),
            _ => writeln!(text, "fault {task} {slot} {map} {index} read"),
        };
    }
    text
}

/// Faults that make pages, which a truncate and an unmap give back.
fn faults(number: u64, lines: u64, slot: u64) -> String {
    let (task, home) = (number + 1, number % 4);
    let mapped = format!("map {task} {slot} f{number} 0 64 shared\n");
    let mut round: String = (0..64).map(|index| format!("fault {task} {slot} 1 {index} write\n")).collect();
    round += &format!("truncate {slot} f{number} 0\nunmap {task} {slot} 1 0 64\n{mapped}");
    format!("connect {task} {home}\ncreate {slot} f{number}\n{mapped}") + &round.repeat((lines / 67) as usize)
}

/// A mount for each session, and 4,096 pages.
fn prepare(port: u16, mounts: u64) {
    let mut text = String::from("nr 4096\n");
    for slot in 1..=mounts {
        let _ = writeln!(text, "mount {slot} -");
    }
    let mut stream = connect(port);
    stream.write_all(text.as_bytes()).expect("the server reads");
    stream.shutdown(Shutdown::Write).expect("the end is told");
    let mut replies = String::new();
    stream.read_to_string(&mut replies).expect("the server answers");
    assert!(!replies.contains("error"), "{replies}");
}

/// Sends a text while the replies are read, and says how many there were.
fn talk(mut stream: TcpStream, text: &str) -> u64 {
    let mut writer = stream.try_clone().expect("a socket has two ends");
    thread::scope(|scope| {
        scope.spawn(move || {
            for part in text.as_bytes().chunks(256 * 1024) {
                writer.write_all(part).expect("the server reads");
            }
            writer.shutdown(Shutdown::Write).expect("the end is told");
        });
        let (mut buffer, mut replies) = (vec![0; 1024 * 1024], 0);
        loop {
            match stream.read(&mut buffer).expect("the server answers") {
                0 => return replies,
                n => replies += buffer[..n].iter().filter(|byte| **byte == b'\n').count() as u64,
            }
        }
    })
}

fn main() {
    let words: Vec<String> = env::args().skip(1).collect();
    let [port, sessions, lines, work] = words.as_slice() else {
        panic!("lean PORT SESSIONS LINES WORK");
    };
    let port = port.parse().expect("a port");
    let (sessions, lines): (u64, u64) = (sessions.parse().expect("a number"), lines.parse().expect("a number"));
    prepare(port, if work == "slot" { 0 } else { sessions });
    let texts: Vec<String> = (0..sessions)
        .map(|number| match work.as_str() {
            "slot" => accesses(number, lines, 0),
            "slots" => accesses(number, lines, number + 1),
            _ => faults(number, lines, number + 1),
        })
        .collect();
    let sent: u64 = texts.iter().map(|text| text.lines().count() as u64).sum();
    let begin = Barrier::new(sessions as usize + 1);
    let (start, replies) = thread::scope(|scope| {
        let talks: Vec<_> = texts
            .iter()
            .map(|text| {
                let begin = &begin;
                scope.spawn(move || {
                    let stream = connect(port);
                    begin.wait();
                    talk(stream, text)
                })
            })
            .collect();
        begin.wait();
        let start = Instant::now();
        (start, talks.into_iter().map(|it| it.join().expect("a session ends")).sum::<u64>())
    });
    assert_eq!(replies, sent, "each line has one reply");
    println!("{sent} {:.6}", start.elapsed().as_secs_f64());
}
