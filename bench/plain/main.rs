//! The same work in plain Rust, with the standard library alone: reads request lines from standard input, applies
//! them to a cache, and prints how many there were, a sum over the replies, and the time that it took.

use std::collections::HashMap;
use std::io::Read;
use std::rc::Rc;
use std::time::Instant;

const MOST_KEYS: usize = 65536;
const MOST_DATA: usize = 4096;

struct Entry {
    flags: u32,
    stored: Vec<u8>,
    unique: u64,
}

enum Reply {
    Stored,
    NotStored,
    Exists,
    NotFound,
    Deleted,
    Number(u64),
    Values(Vec<(Vec<u8>, u32, Vec<u8>, u64)>, bool),
    OutOfMemory,
    TooLarge,
    NonNumeric,
}

#[derive(Clone, Copy)]
enum Verb {
    Set,
    Add,
    Replace,
    Append,
    Prepend,
}

enum Request<'a> {
    Store(Verb, &'a [u8], u32, &'a [u8]),
    Cas(&'a [u8], u32, &'a [u8], u64),
    Get(&'a [u8], bool),
    Delete(&'a [u8]),
    Count(&'a [u8], u64, bool),
}

fn decimal(text: &[u8]) -> Option<u64> {
    if text.is_empty() || (text[0] == b'0' && text.len() > 1) || !text.iter().all(u8::is_ascii_digit) {
        return None;
    }
    text.iter().try_fold(0u64, |n, d| n.checked_mul(10)?.checked_add(u64::from(d - b'0')))
}

fn is_key(key: &[u8]) -> bool {
    (1..=250).contains(&key.len()) && key.iter().all(|b| *b > 32 && *b != 127)
}

/// A request at the front of the bytes, whether it wants no reply, and how many bytes it takes.
fn read(bytes: &[u8]) -> Option<(Request<'_>, bool, usize)> {
    let limit = bytes.len().min(4096);
    let end = bytes[..limit].windows(2).position(|w| w == b"\r\n")?;
    let mut fields = bytes[..end].split(|b| *b == b' ');
    let name = fields.next()?;
    let quiet = |rest: Option<&[u8]>| match rest {
        None => Some(false),
        Some(b"noreply") => Some(true),
        Some(_) => None,
    };
    let after = &bytes[end + 2..];
    let verb = match name {
        b"set" => Some(Verb::Set),
        b"add" => Some(Verb::Add),
        b"replace" => Some(Verb::Replace),
        b"append" => Some(Verb::Append),
        b"prepend" => Some(Verb::Prepend),
        _ => None,
    };
    if verb.is_some() || name == b"cas" {
        let key = fields.next().filter(|k| is_key(k))?;
        let flags = u32::try_from(decimal(fields.next()?)?).ok()?;
        fields.next().filter(|t| *t == b"0")?;
        let len = usize::try_from(decimal(fields.next()?)?).ok().filter(|n| *n <= MOST_DATA)?;
        let unique = if verb.is_none() { decimal(fields.next()?)? } else { 0 };
        let noreply = quiet(fields.next())?;
        if after.len() < len + 2 || &after[len..len + 2] != b"\r\n" || fields.next().is_some() {
            return None;
        }
        let request = match verb {
            Some(verb) => Request::Store(verb, key, flags, &after[..len]),
            None => Request::Cas(key, flags, &after[..len], unique),
        };
        return Some((request, noreply, end + 2 + len + 2));
    }
    match name {
        b"get" | b"gets" => {
            let keys = bytes.get(name.len() + 1..end)?;
            let mut count = 0;
            for key in keys.split(|b| *b == b' ') {
                count += 1;
                if count > 16 || !is_key(key) {
                    return None;
                }
            }
            Some((Request::Get(keys, name == b"gets"), false, end + 2))
        }
        b"delete" => {
            let key = fields.next().filter(|k| is_key(k))?;
            let noreply = quiet(fields.next())?;
            fields.next().is_none().then_some((Request::Delete(key), noreply, end + 2))
        }
        b"incr" | b"decr" => {
            let key = fields.next().filter(|k| is_key(k))?;
            let value = decimal(fields.next()?)?;
            let noreply = quiet(fields.next())?;
            fields.next().is_none().then_some((Request::Count(key, value, name == b"incr"), noreply, end + 2))
        }
        _ => None,
    }
}

/// An item between its neighbours in the order of last uses.
struct Node {
    key: Rc<[u8]>,
    entry: Entry,
    newer: usize,
    older: usize,
}

/// No node.
const NONE: usize = usize::MAX;

/// Where a new key needs room, the key goes that was not used for the longest time.
struct Cache {
    places: HashMap<Rc<[u8]>, usize>,
    nodes: Vec<Node>,
    free: Vec<usize>,
    newest: usize,
    oldest: usize,
    changes: u64,
}

impl Cache {
    fn new() -> Cache {
        Cache {
            places: HashMap::new(),
            nodes: Vec::new(),
            free: Vec::new(),
            newest: NONE,
            oldest: NONE,
            changes: 0,
        }
    }

    fn get(&self, key: &[u8]) -> Option<&Entry> {
        self.places.get(key).map(|at| &self.nodes[*at].entry)
    }

    fn unlink(&mut self, at: usize) {
        let Node { newer, older, .. } = self.nodes[at];
        if newer == NONE { self.newest = older } else { self.nodes[newer].older = older }
        if older == NONE { self.oldest = newer } else { self.nodes[older].newer = newer }
    }

    fn link_newest(&mut self, at: usize) {
        self.nodes[at].newer = NONE;
        self.nodes[at].older = self.newest;
        if self.newest == NONE { self.oldest = at } else { self.nodes[self.newest].newer = at }
        self.newest = at;
    }

    fn touch(&mut self, key: &[u8]) {
        if let Some(&at) = self.places.get(key) {
            self.unlink(at);
            self.link_newest(at);
        }
    }

    fn remove(&mut self, key: &[u8]) -> bool {
        let Some(at) = self.places.remove(key) else {
            return false;
        };
        self.unlink(at);
        self.nodes[at].entry.stored = Vec::new();
        self.free.push(at);
        true
    }

    fn put(&mut self, key: &[u8], entry: Entry) {
        if let Some(&at) = self.places.get(key) {
            self.nodes[at].entry = entry;
            self.touch(key);
            return;
        }
        if self.places.len() == MOST_KEYS {
            let oldest = Rc::clone(&self.nodes[self.oldest].key);
            self.remove(&oldest);
        }
        let key: Rc<[u8]> = key.into();
        let node = Node { key: Rc::clone(&key), entry, newer: NONE, older: NONE };
        let at = match self.free.pop() {
            Some(at) => {
                self.nodes[at] = node;
                at
            }
            None => {
                self.nodes.push(node);
                self.nodes.len() - 1
            }
        };
        self.places.insert(key, at);
        self.link_newest(at);
    }

    fn change(&mut self, key: &[u8], flags: u32, stored: Vec<u8>, told: Reply) -> Reply {
        if self.changes == u64::MAX {
            return Reply::OutOfMemory;
        }
        self.changes += 1;
        self.put(key, Entry { flags, stored, unique: self.changes });
        told
    }

    fn join(&mut self, key: &[u8], data: &[u8], behind: bool) -> Reply {
        let Some(entry) = self.get(key) else {
            return Reply::NotStored;
        };
        if entry.stored.len() + data.len() > MOST_DATA {
            return Reply::TooLarge;
        }
        let (flags, joined) = if behind {
            (entry.flags, [&entry.stored, data].concat())
        } else {
            (entry.flags, [data, &entry.stored].concat())
        };
        self.change(key, flags, joined, Reply::Stored)
    }

    fn apply(&mut self, request: &Request<'_>) -> Reply {
        match *request {
            Request::Store(verb, key, flags, data) => {
                let present = self.places.contains_key(key);
                match verb {
                    Verb::Append => self.join(key, data, true),
                    Verb::Prepend => self.join(key, data, false),
                    Verb::Add if present => Reply::NotStored,
                    Verb::Replace if !present => Reply::NotStored,
                    _ => self.change(key, flags, data.to_vec(), Reply::Stored),
                }
            }
            Request::Cas(key, flags, data, unique) => match self.get(key) {
                None => Reply::NotFound,
                Some(entry) if entry.unique != unique => Reply::Exists,
                Some(_) => self.change(key, flags, data.to_vec(), Reply::Stored),
            },
            Request::Get(keys, with_unique) => {
                let mut values = Vec::new();
                for key in keys.split(|b| *b == b' ') {
                    if let Some(e) = self.get(key) {
                        values.push((key.to_vec(), e.flags, e.stored.clone(), e.unique));
                        self.touch(key);
                    }
                }
                Reply::Values(values, with_unique)
            }
            Request::Delete(key) if self.remove(key) => Reply::Deleted,
            Request::Delete(_) => Reply::NotFound,
            Request::Count(key, value, up) => {
                let Some(entry) = self.get(key) else {
                    return Reply::NotFound;
                };
                let Some(n) = decimal(&entry.stored) else {
                    return Reply::NonNumeric;
                };
                let n = if up { n.wrapping_add(value) } else { n.saturating_sub(value) };
                let flags = entry.flags;
                self.change(key, flags, n.to_string().into_bytes(), Reply::Number(n))
            }
        }
    }
}

/// A number that depends on the reply, so that no work is left out.
fn weight(reply: &Reply) -> u64 {
    match reply {
        Reply::Stored => 1,
        Reply::NotStored => 2,
        Reply::Exists => 3,
        Reply::NotFound => 4,
        Reply::Deleted => 5,
        Reply::Number(n) => n % 1000,
        Reply::Values(values, with_unique) => values
            .iter()
            .map(|v| (v.0.len() + v.2.len()) as u64 + u64::from(v.1) + if *with_unique { v.3 % 1000 } else { 0 })
            .sum(),
        Reply::OutOfMemory => 6,
        Reply::TooLarge => 7,
        Reply::NonNumeric => 8,
    }
}

fn main() {
    let mut input = Vec::new();
    std::io::stdin().read_to_end(&mut input).expect("standard input");
    let mut cache = Cache::new();
    let started = Instant::now();
    let (mut at, mut count, mut sum) = (0, 0u64, 0u64);
    while let Some((request, _, used)) = read(&input[at..]) {
        sum = sum.wrapping_add(weight(&cache.apply(&request)));
        count += 1;
        at += used;
    }
    println!("plain {count} requests, sum {sum}, {} ms", started.elapsed().as_millis());
}
