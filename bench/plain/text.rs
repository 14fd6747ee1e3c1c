//! The programs text, read into spans of its bytes, and the pieces of the transcript text.

use crate::Fault;

const MAX_DRIVERS: usize = 64;
const MAX_PROCESSES: usize = 64;
const MAX_COMMANDS: usize = 100_000;

pub struct Driver<'a> {
    pub line: &'a [u8],
    pub name: &'a [u8],
    pub is_mux: bool,
    pub minors: u32,
    pub high: u32,
    pub low: u32,
    pub max: u32,
}

#[derive(Clone, Copy)]
pub enum Which {
    Id(u32),
    All,
}

#[derive(Clone, Copy)]
pub enum Command<'a> {
    Clone(&'a [u8]),
    Open(&'a [u8], u32),
    Dup(u32),
    Close(u32),
    Exit,
    Link { fd: u32, arg: u32, persistent: bool },
    Unlink { fd: u32, which: Which, persistent: bool },
    Bind(u32, u32),
    Unbind(u32),
    Route { fd: u32, addr: u32, id: u32 },
    Unroute(u32, u32),
    Write { fd: u32, addr: u32, hex: &'a [u8] },
    Read(u32),
    Flush { fd: u32, read: bool, write: bool },
    Inject { driver: &'a [u8], minor: u32, addr: u32, hex: &'a [u8] },
    Transmit(&'a [u8], u32),
}

pub struct Line<'a> {
    pub text: &'a [u8],
    pub command: Command<'a>,
}

pub struct Programs<'a> {
    pub drivers: Vec<Driver<'a>>,
    pub commands: Vec<(u32, Line<'a>)>,
}

/// What the input spells, or the first line that is wrong.
pub fn programs(input: &[u8]) -> Result<Programs<'_>, Fault> {
    let mut programs = Programs { drivers: Vec::new(), commands: Vec::new() };
    let mut processes = 0;
    let mut rest = input;
    let mut line = 0;
    loop {
        line += 1;
        let fault = |cause| Err(Fault::Text { line, cause });
        let Some(at) = rest.iter().position(|b| *b == b'\n') else {
            return fault("cut");
        };
        let text = &rest[..at];
        rest = &rest[at + 1..];
        if line == 1 {
            if text != b"programs 1" {
                return fault("header");
            }
            continue;
        }
        if text == b"end" {
            break;
        }
        if text.starts_with(b"driver ") {
            match driver(text) {
                Some(driver) if processes == 0 => {
                    if programs.drivers.len() == MAX_DRIVERS {
                        return fault("many");
                    }
                    programs.drivers.push(driver);
                }
                _ => return fault("form"),
            }
        } else if let Some(word) = text.strip_prefix(b"process ") {
            if number(word) != Some(processes as u32) {
                return fault("form");
            }
            if processes == MAX_PROCESSES {
                return fault("many");
            }
            processes += 1;
        } else {
            match command(text) {
                Some(command) if processes > 0 => {
                    if programs.commands.len() == MAX_COMMANDS {
                        return fault("many");
                    }
                    programs.commands.push((processes as u32 - 1, Line { text, command }));
                }
                _ => return fault("form"),
            }
        }
    }
    if rest.is_empty() {
        Ok(programs)
    } else {
        Err(Fault::Text { line: line + 1, cause: "trailing" })
    }
}

fn driver(text: &[u8]) -> Option<Driver<'_>> {
    let mut words = text.split(|b| *b == b' ').skip(1);
    let driver = Driver {
        line: text,
        name: name(words.next()?)?,
        is_mux: match words.next()? {
            b"leaf" => false,
            b"mux" => true,
            _ => return None,
        },
        minors: number(words.next()?)?,
        high: number(words.next()?)?,
        low: number(words.next()?)?,
        max: number(words.next()?)?,
    };
    words.next().is_none().then_some(driver)
}

fn command(text: &[u8]) -> Option<Command<'_>> {
    let mut words = text.split(|b| *b == b' ');
    let word = words.next()?;
    let mut next = || words.next();
    let command = match word {
        b"clone" => Command::Clone(name(next()?)?),
        b"open" => Command::Open(name(next()?)?, number(next()?)?),
        b"dup" => Command::Dup(number(next()?)?),
        b"close" => Command::Close(number(next()?)?),
        b"exit" => Command::Exit,
        b"link" | b"plink" => {
            let (fd, arg) = (number(next()?)?, number(next()?)?);
            Command::Link { fd, arg, persistent: word == b"plink" }
        }
        b"unlink" | b"punlink" => {
            let (fd, which) = (number(next()?)?, which(next()?)?);
            Command::Unlink { fd, which, persistent: word == b"punlink" }
        }
        b"bind" => Command::Bind(number(next()?)?, number(next()?)?),
        b"unbind" => Command::Unbind(number(next()?)?),
        b"route" => {
            let (fd, addr, id) = (number(next()?)?, number(next()?)?, number(next()?)?);
            Command::Route { fd, addr, id }
        }
        b"unroute" => Command::Unroute(number(next()?)?, number(next()?)?),
        b"write" => {
            let (fd, addr, hex) = (number(next()?)?, number(next()?)?, hex(next()?)?);
            Command::Write { fd, addr, hex }
        }
        b"read" => Command::Read(number(next()?)?),
        b"flush" => {
            let fd = number(next()?)?;
            let sides = next()?;
            let (read, write) = match sides {
                b"r" => (true, false),
                b"w" => (false, true),
                b"rw" => (true, true),
                _ => return None,
            };
            Command::Flush { fd, read, write }
        }
        b"inject" => {
            let (driver, minor) = (name(next()?)?, number(next()?)?);
            let (addr, hex) = (number(next()?)?, hex(next()?)?);
            Command::Inject { driver, minor, addr, hex }
        }
        b"transmit" => Command::Transmit(name(next()?)?, number(next()?)?),
        _ => return None,
    };
    words.next().is_none().then_some(command)
}

fn name(word: &[u8]) -> Option<&[u8]> {
    let (first, rest) = word.split_first()?;
    let is_name = first.is_ascii_lowercase()
        && rest.len() < 8
        && rest.iter().all(|b| b.is_ascii_lowercase() || b.is_ascii_digit());
    is_name.then_some(word)
}

fn number(word: &[u8]) -> Option<u32> {
    if word.is_empty() || word.len() > 10 || (word[0] == b'0' && word.len() > 1) {
        return None;
    }
    let mut value = 0u64;
    for byte in word {
        if !byte.is_ascii_digit() {
            return None;
        }
        value = value * 10 + u64::from(byte - b'0');
    }
    u32::try_from(value).ok()
}

fn which(word: &[u8]) -> Option<Which> {
    if word == b"all" {
        return Some(Which::All);
    }
    number(word).map(Which::Id)
}

/// The digits of some bytes; no bytes are no digits.
fn hex(word: &[u8]) -> Option<&[u8]> {
    if word == b"-" {
        return Some(b"");
    }
    let is_digit = |b: &u8| matches!(b, b'0'..=b'9' | b'a'..=b'f');
    (!word.is_empty() && word.len() % 2 == 0 && word.iter().all(is_digit)).then_some(word)
}

pub fn put_beginning(out: &mut Vec<u8>, programs: &Programs) {
    out.extend_from_slice(b"transcript 1\n");
    for driver in &programs.drivers {
        out.extend_from_slice(driver.line);
        out.push(b'\n');
    }
}

/// The process and its command, as it was asked.
pub fn put_call(out: &mut Vec<u8>, process: u32, text: &[u8]) {
    put_number(out, process);
    out.push(b' ');
    out.extend_from_slice(text);
    out.extend_from_slice(b" = ");
}

pub fn put_number(out: &mut Vec<u8>, n: u32) {
    if n < 10 {
        out.push(b'0' + n as u8);
        return;
    }
    let mut digits = [0; 10];
    let (mut n, mut at) = (n, digits.len());
    while n > 0 {
        at -= 1;
        digits[at] = b'0' + (n % 10) as u8;
        n /= 10;
    }
    out.extend_from_slice(&digits[at..]);
}

/// Words, each a literal or a number, with one space before each but the first.
pub fn put_words(out: &mut Vec<u8>, literal: &[u8], numbers: &[u32]) {
    out.extend_from_slice(literal);
    for n in numbers {
        out.push(b' ');
        put_number(out, *n);
    }
}

pub fn put_hex(out: &mut Vec<u8>, hex: &[u8]) {
    out.push(b' ');
    out.extend_from_slice(if hex.is_empty() { b"-" } else { hex });
}
