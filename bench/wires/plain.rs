//! The work of `main.rattle` in plain Rust: frames wait in a bounded queue, a thread takes what waits, up to 64 KB, and
//! writes it in one go, each frame behind its length; another thread reads 64 KB at once and cuts them into frames.
use std::collections::VecDeque;
use std::io::{Read, Write};
use std::net::{TcpListener, TcpStream};
use std::sync::atomic::{AtomicU64, Ordering::SeqCst};
use std::sync::{Arc, Condvar, Mutex};
use std::thread;
use std::time::{Duration, Instant};

const BACKLOG: usize = 16_777_216;
const PIECE: usize = 65_536;
const BESIDE: usize = 128;
const LONGEST: usize = 76_707;

struct Waiting {
    frames: VecDeque<Arc<Vec<u8>>>,
    cost: usize,
    sleeps: bool,
    over: bool,
}

struct Queue {
    waiting: Mutex<Waiting>,
    bell: Condvar,
}

impl Queue {
    fn put(&self, frame: Arc<Vec<u8>>) -> bool {
        let mut waiting = self.waiting.lock().unwrap();
        let cost = frame.len() + BESIDE;
        if waiting.cost + cost > BACKLOG {
            return false;
        }
        waiting.cost += cost;
        waiting.frames.push_back(frame);
        let wakes = std::mem::replace(&mut waiting.sleeps, false);
        drop(waiting);
        if wakes {
            self.bell.notify_one();
        }
        true
    }

    fn take(&self, batch: &mut Vec<Arc<Vec<u8>>>) -> bool {
        let mut waiting = self.waiting.lock().unwrap();
        while waiting.frames.is_empty() {
            if waiting.over {
                return false;
            }
            waiting.sleeps = true;
            waiting = self.bell.wait_timeout(waiting, Duration::from_secs(1)).unwrap().0;
            waiting.sleeps = false;
        }
        let mut size = 0;
        while let Some(frame) = waiting.frames.front() {
            if size > 0 && size + frame.len() > PIECE {
                break;
            }
            size += frame.len();
            waiting.cost -= frame.len() + BESIDE;
            let frame = waiting.frames.pop_front().unwrap();
            batch.push(frame);
        }
        true
    }
}

fn write_all(queue: &Queue, mut stream: TcpStream) {
    let (mut batch, mut out) = (Vec::new(), Vec::new());
    while queue.take(&mut batch) {
        out.clear();
        for frame in batch.drain(..) {
            out.extend_from_slice(&(frame.len() as u32).to_be_bytes());
            out.extend_from_slice(&frame);
        }
        stream.write_all(&out).unwrap();
    }
}

fn read_all(mut stream: TcpStream, frames: &AtomicU64, sum: &AtomicU64) {
    let mut held = vec![0; 4 + LONGEST + PIECE];
    let (mut start, mut end) = (0, 0);
    loop {
        if held.len() - end < PIECE {
            held.copy_within(start..end, 0);
            end -= start;
            start = 0;
        }
        let count = stream.read(&mut held[end..end + PIECE]).unwrap();
        if count == 0 {
            return;
        }
        end += count;
        while end - start >= 4 {
            let len = u32::from_be_bytes(held[start..start + 4].try_into().unwrap()) as usize;
            assert!(len <= LONGEST);
            if end - start - 4 < len {
                break;
            }
            let frame = &held[start + 4..start + 4 + len];
            start += 4 + len;
            let weight = frame.len() as u64 + frame.first().copied().map_or(0, u64::from);
            sum.store(sum.load(SeqCst).wrapping_add(weight), SeqCst);
            frames.store(frames.load(SeqCst).wrapping_add(1), SeqCst);
        }
    }
}

fn main() {
    let listener = TcpListener::bind("127.0.0.1:0").unwrap();
    let out = TcpStream::connect(listener.local_addr().unwrap()).unwrap();
    let (inside, _) = listener.accept().unwrap();
    out.set_nodelay(true).unwrap();
    let queue = Queue {
        waiting: Mutex::new(Waiting { frames: VecDeque::new(), cost: 0, sleeps: false, over: false }),
        bell: Condvar::new(),
    };
    let (frames, sum) = (AtomicU64::new(0), AtomicU64::new(0));
    thread::scope(|scope| {
        scope.spawn(|| write_all(&queue, out));
        scope.spawn(|| read_all(inside, &frames, &sum));
        for (len, count) in [(200, 1_000_000), (4096, 200_000)] {
            let frame = Arc::new(vec![7; len]);
            let before = frames.load(SeqCst);
            let started = Instant::now();
            for _ in 0..count {
                while !queue.put(frame.clone()) {
                    thread::yield_now();
                }
            }
            while frames.load(SeqCst) - before < count {
                thread::yield_now();
            }
            let time = started.elapsed().as_micros();
            println!("plain {count} frames of {len} bytes, {time} us, sum {}", sum.load(SeqCst));
        }
        queue.waiting.lock().unwrap().over = true;
        queue.bell.notify_one();
    });
}
