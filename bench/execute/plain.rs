
// What follows stands behind ../plain/main.rs: the execution of blocks in plain Rust.

struct Command<'a> {
    client: u8,
    seq: u64,
    payload: &'a [u8],
}

struct Executed {
    client: u8,
    seq: u64,
    payload: Vec<u8>,
}

#[derive(Clone)]
struct Answer {
    client: u8,
    seq: u64,
    place: u64,
    text: Vec<u8>,
}

fn write_reply(reply: &Reply, out: &mut Vec<u8>) {
    use std::io::Write;
    match reply {
        Reply::Stored => out.extend_from_slice(b"STORED\r\n"),
        Reply::NotStored => out.extend_from_slice(b"NOT_STORED\r\n"),
        Reply::Exists => out.extend_from_slice(b"EXISTS\r\n"),
        Reply::NotFound => out.extend_from_slice(b"NOT_FOUND\r\n"),
        Reply::Deleted => out.extend_from_slice(b"DELETED\r\n"),
        Reply::Number(n) => write!(out, "{n}\r\n").unwrap(),
        Reply::Values(values, with_unique) => {
            for (key, flags, data, unique) in values {
                out.extend_from_slice(b"VALUE ");
                out.extend_from_slice(key);
                write!(out, " {flags} {}", data.len()).unwrap();
                if *with_unique {
                    write!(out, " {unique}").unwrap();
                }
                out.extend_from_slice(b"\r\n");
                out.extend_from_slice(data);
                out.extend_from_slice(b"\r\n");
            }
            out.extend_from_slice(b"END\r\n");
        }
        Reply::OutOfMemory => out.extend_from_slice(b"SERVER_ERROR out of memory storing object\r\n"),
        Reply::TooLarge => out.extend_from_slice(b"SERVER_ERROR object too large for cache\r\n"),
        Reply::NonNumeric => out.extend_from_slice(b"CLIENT_ERROR cannot increment or decrement non-numeric value\r\n"),
    }
}

fn apply_payload(cache: &mut Cache, payload: &[u8], out: &mut Vec<u8>) {
    match read(payload) {
        Some((request, false, used)) if used == payload.len() => write_reply(&cache.apply(&request), out),
        _ => out.extend_from_slice(b"ERROR\r\n"),
    }
}

struct Executor {
    cache: Cache,
    history: Vec<Executed>,
    last: Vec<Option<Answer>>,
}

impl Executor {
    fn run(&mut self, c: &Command<'_>) -> Option<Answer> {
        self.history.push(Executed { client: c.client, seq: c.seq, payload: c.payload.to_vec() });
        let row = &mut self.last[usize::from(c.client)];
        if row.as_ref().is_some_and(|a| c.seq <= a.seq) {
            return None;
        }
        let mut text = Vec::new();
        apply_payload(&mut self.cache, c.payload, &mut text);
        let answer = Answer { client: c.client, seq: c.seq, place: self.history.len() as u64, text };
        *row = Some(answer.clone());
        Some(answer)
    }

    fn run_block(&mut self, commands: &[Command<'_>]) -> Vec<Answer> {
        commands.iter().filter_map(|c| self.run(c)).collect()
    }
}

/// The commands of the blocks in a file, each behind its length.
fn blocks_in(mut rest: &[u8]) -> Vec<Vec<Command<'_>>> {
    let mut found = Vec::new();
    while rest.len() >= 4 {
        let length = u32::from_be_bytes(rest[..4].try_into().unwrap()) as usize;
        let frame = &rest[4..4 + length];
        rest = &rest[4 + length..];
        let mut commands = Vec::new();
        let mut at = 53;
        for _ in 0..frame[52] {
            let size = usize::from(u16::from_be_bytes(frame[at + 10..at + 12].try_into().unwrap()));
            commands.push(Command {
                client: frame[at + 1],
                seq: u64::from_be_bytes(frame[at + 2..at + 10].try_into().unwrap()),
                payload: &frame[at + 12..at + 12 + size],
            });
            at += 12 + size + 128;
        }
        found.push(commands);
    }
    found
}

fn main() {
    let mut file = Vec::new();
    std::io::stdin().read_to_end(&mut file).expect("standard input");
    let blocks = blocks_in(&file);
    let started = Instant::now();
    let (mut applied, mut out) = (0u64, Vec::new());
    let mut cache = Cache::new();
    for c in blocks.iter().flatten() {
        out.clear();
        apply_payload(&mut cache, c.payload, &mut out);
        applied += out.len() as u64;
    }
    let cache_time = started.elapsed().as_millis();
    let started = Instant::now();
    let mut executed = 0u64;
    let mut executor = Executor { cache: Cache::new(), history: Vec::new(), last: vec![None; 256] };
    for commands in &blocks {
        for answer in executor.run_block(commands) {
            executed += answer.text.len() as u64 + answer.place;
        }
    }
    let execute_time = started.elapsed().as_millis();
    let parts = executor.history.iter().map(|e| u64::from(e.client) + e.seq + e.payload.len() as u64).sum::<u64>();
    let kept = executor.last.iter().flatten().map(|a| u64::from(a.client)).sum::<u64>();
    assert!(parts > 0 && kept < 256 * 256);
    println!("plain {} blocks, cache {cache_time} ms, executed {execute_time} ms, sums {applied} {executed}", blocks.len());
}
