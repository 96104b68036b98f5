// The lines of standard input split, their words matched and their digits decoded, as one writes it in plain Rust.
use std::io::{self, BufRead, BufReader};
use std::time::Duration;

#[allow(dead_code)] // what is decoded is used no further
enum Call {
    Begin,
    Commit,
    Rollback,
    Get { table: u32, key: Vec<u8> },
    Delete { table: u32, key: Vec<u8> },
    Insert { table: u32, key: Vec<u8>, tag: u32, body: Vec<u8> },
    Update { table: u32, key: Vec<u8>, tag: u32, body: Vec<u8> },
}

fn number(word: &str) -> Option<u32> {
    if word.len() > 1 && word.starts_with('0') || word.starts_with('+') {
        return None;
    }
    word.parse().ok()
}

fn digit(byte: u8) -> Option<u8> {
    match byte {
        b'0'..=b'9' => Some(byte - b'0'),
        b'a'..=b'f' => Some(byte - b'a' + 10),
        _ => None,
    }
}

fn key(word: &str) -> Option<Vec<u8>> {
    if word.is_empty() || word.len() % 2 == 1 {
        return None;
    }
    word.as_bytes().chunks(2).map(|pair| Some(digit(pair[0])? << 4 | digit(pair[1])?)).collect()
}

fn body(word: &str) -> Option<Vec<u8>> {
    if word == "-" { Some(Vec::new()) } else { key(word) }
}

fn session(word: &str) -> Option<u8> {
    match word.as_bytes() {
        [letter @ b'a'..=b'p'] => Some(letter - b'a'),
        _ => None,
    }
}

fn parse(line: &str) -> Option<(u8, Call)> {
    let words: Vec<&str> = line.split(' ').collect();
    let session = session(words.first()?)?;
    let call = match words[1..] {
        ["begin"] => Call::Begin,
        ["commit"] => Call::Commit,
        ["rollback"] => Call::Rollback,
        ["get", t, k] => Call::Get { table: number(t)?, key: key(k)? },
        ["delete", t, k] => Call::Delete { table: number(t)?, key: key(k)? },
        ["insert", t, k, g, b] => Call::Insert { table: number(t)?, key: key(k)?, tag: number(g)?, body: body(b)? },
        ["update", t, k, g, b] => Call::Update { table: number(t)?, key: key(k)?, tag: number(g)?, body: body(b)? },
        _ => return None,
    };
    Some((session, call))
}

fn cpu_time() -> Duration {
    let mut time = Timespec { seconds: 0, nanoseconds: 0 };
    // SAFETY: the call writes one timespec, whose shape on this processor this is.
    unsafe { clock_gettime(2, &mut time) };
    Duration::new(time.seconds as u64, time.nanoseconds as u32)
}

#[repr(C)]
struct Timespec {
    seconds: i64,
    nanoseconds: i64,
}

extern "C" {
    fn clock_gettime(clock: i32, time: *mut Timespec) -> i32;
}

fn main() -> io::Result<()> {
    let mut input = BufReader::with_capacity(65_536, io::stdin().lock());
    let (mut count, mut commands) = (0u64, 0u64);
    let mut line = String::new();
    let start = cpu_time();
    loop {
        line.clear();
        if input.read_line(&mut line)? == 0 {
            break;
        }
        count += 1;
        if let Some((session, call)) = parse(line.strip_suffix('\n').unwrap_or(&line)) {
            std::hint::black_box((session, call));
            commands += 1;
        }
    }
    eprintln!("parse_line {} us", (cpu_time() - start).as_micros());
    println!("lines {count}: {commands} commands");
    Ok(())
}
