//! load ADDRESS CONNECTIONS LENGTH GETS
//!
//! Puts load on a server of memcached's text protocol: so many connections, each in a thread of its own, each with one
//! request under way. Each sets a key of its own to 32 bytes, gets it so many times, and goes on with its next key.
//! LENGTH is a number of commands in all, or of seconds, as 600s. Prints: commands a second, the median and the 99th
//! percentile of a command's time in microseconds, how many commands there were, and how many were answered wrongly:
//! each answer is known, since no other connection has these keys.
use std::io::{Read, Result, Write};
use std::net::TcpStream;
use std::sync::Barrier;
use std::time::{Duration, Instant};
use std::{env, thread};

/// How many keys a connection has.
const KEYS: u64 = 64;

/// When a connection has done its part.
#[derive(Clone, Copy)]
enum Length {
    Commands(u64),
    Time(Duration),
}

impl Length {
    fn read(word: &str, connections: u64) -> Length {
        match word.strip_suffix('s') {
            Some(seconds) => Length::Time(Duration::from_secs(seconds.parse().unwrap())),
            None => Length::Commands(word.parse::<u64>().unwrap() / connections),
        }
    }

    fn is_reached(self, commands: u64, start: Instant) -> bool {
        match self {
            Length::Commands(most) => commands >= most,
            Length::Time(time) => start.elapsed() >= time,
        }
    }
}

/// What one connection saw.
#[derive(Default)]
struct Seen {
    nanos: Vec<u32>,
    wrong: u64,
}

/// The bytes that ask, and those that have to answer.
fn exchange(is_set: bool, key: &str, value: &str) -> (String, String) {
    let length = value.len();
    if is_set {
        (format!("set {key} 0 0 {length}\r\n{value}\r\n"), "STORED\r\n".to_string())
    } else {
        (format!("get {key}\r\n"), format!("VALUE {key} 0 {length}\r\n{value}\r\nEND\r\n"))
    }
}

/// Whether an answer is whole, by its last line.
fn is_whole(is_set: bool, text: &[u8]) -> bool {
    if is_set {
        return text.ends_with(b"\r\n");
    }
    text.ends_with(b"END\r\n") || (text.ends_with(b"\r\n") && !text.starts_with(b"VALUE"))
}

/// Asks, and says whether the answer is the wanted one.
fn ask(is_set: bool, stream: &mut TcpStream, asked: &str, wanted: &str) -> Result<bool> {
    stream.write_all(asked.as_bytes())?;
    let mut text = Vec::new();
    let mut piece = [0; 4096];
    while !is_whole(is_set, &text) {
        match stream.read(&mut piece)? {
            0 => return Ok(false),
            n => text.extend_from_slice(&piece[..n]),
        }
    }
    let is_right = text == wanted.as_bytes();
    if !is_right {
        eprintln!("wrong: {:?}, wanted {wanted:?}", String::from_utf8_lossy(&text));
    }
    Ok(is_right)
}

/// One connection's part.
fn load(stream: &mut TcpStream, me: u64, length: Length, gets: u64) -> Seen {
    let mut seen = Seen::default();
    let start = Instant::now();
    let mut count = 0;
    while !length.is_reached(count, start) {
        let turn = count / (gets + 1);
        let is_set = count % (gets + 1) == 0;
        let (key, value) = (format!("c{me}k{}", turn % KEYS), format!("{me:012}{turn:020}"));
        let (asked, wanted) = exchange(is_set, &key, &value);
        let begun = Instant::now();
        let is_right = ask(is_set, stream, &asked, &wanted).unwrap_or(false);
        seen.nanos.push(begun.elapsed().as_nanos().min(u32::MAX as u128) as u32);
        seen.wrong += u64::from(!is_right);
        count += 1;
    }
    seen
}

fn main() {
    let words: Vec<String> = env::args().collect();
    let connections: u64 = words[2].parse().unwrap();
    let (length, gets) = (Length::read(&words[3], connections), words[4].parse().unwrap());
    let barrier = Barrier::new(connections as usize + 1);
    let (seen, took) = thread::scope(|scope| {
        let threads: Vec<_> = (0..connections)
            .map(|me| {
                let mut stream = TcpStream::connect(&words[1]).unwrap();
                stream.set_nodelay(true).unwrap();
                let barrier = &barrier;
                scope.spawn(move || {
                    barrier.wait();
                    load(&mut stream, me, length, gets)
                })
            })
            .collect();
        barrier.wait();
        let start = Instant::now();
        let seen: Vec<Seen> = threads.into_iter().map(|t| t.join().unwrap()).collect();
        (seen, start.elapsed())
    });
    let mut nanos: Vec<u32> = seen.iter().flat_map(|s| s.nanos.iter().copied()).collect();
    let wrong: u64 = seen.iter().map(|s| s.wrong).sum();
    nanos.sort_unstable();
    let at = |percent: usize| nanos[(nanos.len() - 1) * percent / 100] / 1000;
    println!("{:.0} {} {} {} {wrong}", nanos.len() as f64 / took.as_secs_f64(), at(50), at(99), nanos.len());
}
