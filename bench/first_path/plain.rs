// A plain program that answers the seven commands of a script as hugetlbd does: two nodes of 4 frames, pages of 1,024 bytes,
// slot 0 mounted. No part of it is proved; it stands here as a measure of speed alone.
use std::collections::HashMap;
use std::io::{self, BufRead, BufReader, BufWriter, Write};

const FRAMES: u64 = 8;
const PAGE: usize = 1024;
const LINE: usize = 1024;

enum Cell {
    Hole,
    Entered,
    Present(Box<[u8; PAGE]>),
}

struct Map {
    file: usize,
    start: u64,
    pages: u64,
}

#[derive(Default)]
struct Machine {
    nr: u64,
    used: u64,
    rsvd: u64,
    tasks: HashMap<u64, u64>,
    files: Vec<Vec<Cell>>,
    names: HashMap<Vec<u8>, usize>,
    maps: HashMap<(u64, u64), Map>,
    numbers: HashMap<u64, u64>,
}

#[derive(Clone, Copy)]
struct Refusal(u32, &'static str);

const NO_PAGES: Refusal = Refusal(2, "NoPages");
const BEYOND_END: Refusal = Refusal(4, "BeyondEnd");
const NO_SUCH_TASK: Refusal = Refusal(6, "NoSuchTask");
const TASK_EXISTS: Refusal = Refusal(7, "TaskExists");
const NO_SUCH_SLOT: Refusal = Refusal(8, "NoSuchSlot");
const NO_SUCH_FILE: Refusal = Refusal(12, "NoSuchFile");
const FILE_EXISTS: Refusal = Refusal(13, "FileExists");
const BAD_NAME: Refusal = Refusal(15, "BadName");
const NO_SUCH_MAP: Refusal = Refusal(16, "NoSuchMap");
const OUT_OF_RANGE: Refusal = Refusal(17, "OutOfRange");
const CROSSES_PAGE: Refusal = Refusal(18, "CrossesPage");
const TOO_MANY: Refusal = Refusal(20, "TooMany");
const BAD_LINE: Refusal = Refusal(21, "BadLine");
const LINE_TOO_LONG: Refusal = Refusal(22, "LineTooLong");
const NO_SUCH_NODE: Refusal = Refusal(25, "NoSuchNode");

struct Words<'a>(Option<&'a [u8]>);

impl<'a> Words<'a> {
    fn next(&mut self) -> Option<&'a [u8]> {
        let rest = self.0?;
        let at = rest.iter().position(|byte| *byte == b' ');
        self.0 = at.map(|at| &rest[at + 1..]);
        Some(&rest[..at.unwrap_or(rest.len())])
    }
}

fn number(words: &mut Words) -> Result<u64, Refusal> {
    let word = words.next().ok_or(BAD_LINE)?;
    if word.is_empty() || word.len() > 20 {
        return Err(BAD_LINE);
    }
    let mut value = 0u64;
    for byte in word {
        if !byte.is_ascii_digit() {
            return Err(BAD_LINE);
        }
        let digit = u64::from(byte - b'0');
        value = value.checked_mul(10).and_then(|v| v.checked_add(digit)).ok_or(BAD_LINE)?;
    }
    Ok(value)
}

fn name<'a>(words: &mut Words<'a>) -> Result<&'a [u8], Refusal> {
    let word = words.next().ok_or(BAD_LINE)?;
    if word.is_empty() || !word.iter().all(|b| (33..=126).contains(b)) {
        return Err(BAD_LINE);
    }
    Ok(word)
}

fn end(words: &mut Words) -> Result<(), Refusal> {
    match words.next() {
        None => Ok(()),
        Some(_) => Err(BAD_LINE),
    }
}

fn digit(byte: u8) -> Result<u8, Refusal> {
    match byte {
        b'0'..=b'9' => Ok(byte - b'0'),
        b'a'..=b'f' => Ok(byte - b'a' + 10),
        b'A'..=b'F' => Ok(byte - b'A' + 10),
        _ => Err(BAD_LINE),
    }
}

fn hex<'a>(words: &mut Words, room: &'a mut [u8; 512]) -> Result<&'a [u8], Refusal> {
    let word = words.next().ok_or(BAD_LINE)?;
    if word.len() % 2 != 0 || word.is_empty() {
        return Err(BAD_LINE);
    }
    let count = word.len() / 2;
    for (i, pair) in word.chunks_exact(2).enumerate() {
        room[i] = digit(pair[0])? << 4 | digit(pair[1])?;
    }
    Ok(&room[..count])
}

impl Machine {
    fn free(&self) -> u64 {
        self.nr - self.used
    }

    fn grant(&mut self, pages: u64) -> Result<(), Refusal> {
        if self.used + self.rsvd + pages > self.nr {
            return Err(NO_PAGES);
        }
        self.rsvd += pages;
        Ok(())
    }

    fn connect(&mut self, task: u64, home: u64) -> Result<(), Refusal> {
        if home >= 2 {
            return Err(NO_SUCH_NODE);
        }
        if self.tasks.contains_key(&task) {
            return Err(TASK_EXISTS);
        }
        if self.tasks.len() >= 256 {
            return Err(TOO_MANY);
        }
        self.tasks.insert(task, home);
        Ok(())
    }

    fn create(&mut self, slot: u64, name: &[u8]) -> Result<(), Refusal> {
        if slot != 0 {
            return Err(NO_SUCH_SLOT);
        }
        let good = |b: &u8| b.is_ascii_alphanumeric() || matches!(b, b'.' | b'_' | b'-');
        if name.is_empty() || name.len() > 64 || !name.iter().all(good) {
            return Err(BAD_NAME);
        }
        if self.names.contains_key(name) {
            return Err(FILE_EXISTS);
        }
        if self.files.len() >= 1024 {
            return Err(TOO_MANY);
        }
        self.names.insert(name.to_vec(), self.files.len());
        self.files.push(Vec::new());
        Ok(())
    }

    fn map(&mut self, task: u64, slot: u64, name: &[u8], from: u64, pages: u64) -> Result<u64, Refusal> {
        if !self.tasks.contains_key(&task) {
            return Err(NO_SUCH_TASK);
        }
        if slot != 0 {
            return Err(NO_SUCH_SLOT);
        }
        let file = *self.names.get(name).ok_or(NO_SUCH_FILE)?;
        if pages == 0 || from > 1_048_576 || pages > 1_048_576 - from {
            return Err(OUT_OF_RANGE);
        }
        if pages > 65_536 || self.maps.len() >= 4096 {
            return Err(TOO_MANY);
        }
        let (first, after) = (from as usize, (from + pages) as usize);
        let cells = &self.files[file];
        let there = cells[first.min(cells.len())..after.min(cells.len())]
            .iter()
            .filter(|cell| !matches!(cell, Cell::Hole))
            .count();
        self.grant(pages - there as u64)?;
        let cells = &mut self.files[file];
        if cells.len() < after {
            cells.resize_with(after, || Cell::Hole);
        }
        for cell in &mut cells[first..after] {
            if matches!(cell, Cell::Hole) {
                *cell = Cell::Entered;
            }
        }
        let number = self.numbers.entry(task).or_insert(0);
        *number += 1;
        self.maps.insert((task, *number), Map { file, start: from, pages });
        Ok(*number)
    }

    fn page(&mut self, task: u64, slot: u64, map: u64, index: u64, offset: u64, count: u64) -> Result<&mut [u8; PAGE], Refusal> {
        if !self.tasks.contains_key(&task) {
            return Err(NO_SUCH_TASK);
        }
        if slot != 0 {
            return Err(NO_SUCH_SLOT);
        }
        let map = self.maps.get(&(task, map)).ok_or(NO_SUCH_MAP)?;
        if index < map.start || index - map.start >= map.pages || count == 0 {
            return Err(OUT_OF_RANGE);
        }
        if offset > PAGE as u64 || count > PAGE as u64 - offset {
            return Err(CROSSES_PAGE);
        }
        if count > 256 {
            return Err(TOO_MANY);
        }
        let cells = &mut self.files[map.file];
        let cell = cells.get_mut(index as usize).ok_or(BEYOND_END)?;
        if matches!(cell, Cell::Hole) {
            if self.used + self.rsvd + 1 > self.nr {
                return Err(NO_PAGES);
            }
            self.rsvd += 1;
            *cell = Cell::Entered;
        }
        if matches!(cell, Cell::Entered) {
            self.rsvd -= 1;
            self.used += 1;
            *cell = Cell::Present(Box::new([0; PAGE]));
        }
        match cell {
            Cell::Present(page) => Ok(page),
            _ => Err(BEYOND_END),
        }
    }

    fn answer<W: Write>(&mut self, line: &[u8], out: &mut W) -> Result<io::Result<()>, Refusal> {
        let words = &mut Words(Some(line));
        match words.next().unwrap_or(b"") {
            b"load" => {
                let (task, slot, map) = (number(words)?, number(words)?, number(words)?);
                let (index, offset, count) = (number(words)?, number(words)?, number(words)?);
                end(words)?;
                let page = self.page(task, slot, map, index, offset, count)?;
                Ok(write_hex(out, &page[offset as usize..(offset + count) as usize]))
            }
            b"store" => {
                let (task, slot, map) = (number(words)?, number(words)?, number(words)?);
                let (index, offset) = (number(words)?, number(words)?);
                let mut room = [0; 512];
                let bytes = hex(words, &mut room)?;
                end(words)?;
                let count = bytes.len() as u64;
                let page = self.page(task, slot, map, index, offset, count)?;
                page[offset as usize..offset as usize + bytes.len()].copy_from_slice(bytes);
                Ok(out.write_all(b"ok\n"))
            }
            b"connect" => {
                let (task, home) = (number(words)?, number(words)?);
                end(words)?;
                self.connect(task, home)?;
                Ok(out.write_all(b"ok\n"))
            }
            b"create" => {
                let slot = number(words)?;
                let name = name(words)?;
                end(words)?;
                self.create(slot, name)?;
                Ok(out.write_all(b"ok\n"))
            }
            b"map" => {
                let (task, slot) = (number(words)?, number(words)?);
                let name = name(words)?;
                let (from, pages) = (number(words)?, number(words)?);
                if words.next() != Some(b"shared") {
                    return Err(BAD_LINE);
                }
                end(words)?;
                let map = self.map(task, slot, name, from, pages)?;
                Ok(writeln!(out, "ok {map}"))
            }
            b"nr" => {
                let pages = number(words)?;
                end(words)?;
                if pages < self.nr {
                    return Err(BAD_LINE);
                }
                self.nr = pages.min(FRAMES);
                Ok(writeln!(out, "ok {}", self.nr))
            }
            b"meminfo" => {
                end(words)?;
                Ok(self.write_meminfo(out))
            }
            _ => Err(BAD_LINE),
        }
    }

    fn write_meminfo<W: Write>(&self, out: &mut W) -> io::Result<()> {
        writeln!(out, "text 6")?;
        writeln!(out, "HugePages_Total:{:8}", self.nr)?;
        writeln!(out, "HugePages_Free: {:8}", self.free())?;
        writeln!(out, "HugePages_Rsvd: {:8}", self.rsvd)?;
        writeln!(out, "HugePages_Surp: {:8}", 0)?;
        writeln!(out, "Hugepagesize:   {:8} kB", PAGE / 1024)?;
        writeln!(out, "Hugetlb:        {:8} kB", self.nr * PAGE as u64 / 1024)
    }
}

fn write_hex<W: Write>(out: &mut W, bytes: &[u8]) -> io::Result<()> {
    const DIGITS: &[u8; 16] = b"0123456789abcdef";
    let mut room = [0; 512];
    for (i, byte) in bytes.iter().enumerate() {
        room[2 * i] = DIGITS[usize::from(byte >> 4)];
        room[2 * i + 1] = DIGITS[usize::from(byte & 15)];
    }
    out.write_all(b"ok ")?;
    out.write_all(&room[..2 * bytes.len()])?;
    out.write_all(b"\n")
}

fn reply<W: Write>(machine: &mut Machine, line: &[u8], out: &mut W) -> io::Result<()> {
    let done = match line.split_last() {
        Some((b'\n', line)) if line.len() <= LINE => machine.answer(line, out),
        Some((b'\n', _)) => Err(LINE_TOO_LONG),
        _ if line.len() <= LINE => Err(BAD_LINE),
        _ => Err(LINE_TOO_LONG),
    };
    match done {
        Ok(written) => written,
        Err(Refusal(number, name)) => writeln!(out, "error {number} {name}"),
    }
}

fn main() -> io::Result<()> {
    let mut input = BufReader::with_capacity(65_536, io::stdin().lock());
    let mut output = BufWriter::with_capacity(131_072, io::stdout().lock());
    let mut machine = Machine::default();
    let mut line = Vec::new();
    loop {
        if input.buffer().is_empty() {
            output.flush()?;
        }
        line.clear();
        if input.read_until(b'\n', &mut line)? == 0 {
            return output.flush();
        }
        reply(&mut machine, &line, &mut output)?;
    }
}
