//! `get` and `set` as one would write them in plain Rust, without proofs: a hashed table, the order of use, a limit of bytes, and a
//! lock round both, taken for each request.
//!
//!     plain --port P [--threads T] [--limit MIB]
//!
//! Each thread has an epoll set and a clone of the listener; one read and one write a batch.

use std::collections::HashMap;
use std::env;
use std::io::{ErrorKind, Read, Write};
use std::net::{TcpListener, TcpStream};
use std::os::fd::AsRawFd;
use std::sync::{Arc, Mutex};
use std::thread;
use std::time::{SystemTime, UNIX_EPOCH};

const NOBODY: usize = usize::MAX;
const ITEM_BYTES: usize = 64;

#[repr(C, packed)]
#[derive(Clone, Copy)]
struct Event {
    events: u32,
    data: u64,
}

unsafe extern "C" {
    fn epoll_create1(flags: i32) -> i32;
    fn epoll_ctl(set: i32, op: i32, fd: i32, event: *mut Event) -> i32;
    fn epoll_wait(set: i32, events: *mut Event, most: i32, millis: i32) -> i32;
}

struct Item {
    key: Arc<[u8]>,
    value: Vec<u8>,
    flags: u32,
    expiry: u64,
    newer: usize,
    older: usize,
}

struct Cache {
    places: HashMap<Arc<[u8]>, usize>,
    items: Vec<Item>,
    free: Vec<usize>,
    newest: usize,
    oldest: usize,
    total: usize,
    limit: usize,
}

impl Cache {
    fn new(limit: usize) -> Cache {
        Cache { places: HashMap::new(), items: Vec::new(), free: Vec::new(), newest: NOBODY, oldest: NOBODY, total: 0, limit }
    }

    fn unlink(&mut self, at: usize) {
        let (newer, older) = (self.items[at].newer, self.items[at].older);
        if newer == NOBODY { self.newest = older } else { self.items[newer].older = older }
        if older == NOBODY { self.oldest = newer } else { self.items[older].newer = newer }
    }

    fn link(&mut self, at: usize) {
        let older = self.newest;
        (self.items[at].newer, self.items[at].older) = (NOBODY, older);
        if older == NOBODY { self.oldest = at } else { self.items[older].newer = at }
        self.newest = at;
    }

    fn size(&self, at: usize) -> usize {
        ITEM_BYTES + self.items[at].key.len() + self.items[at].value.len()
    }

    fn remove(&mut self, at: usize) {
        self.unlink(at);
        self.total -= self.size(at);
        self.places.remove(&self.items[at].key);
        self.items[at].value = Vec::new();
        self.free.push(at);
    }

    fn get(&mut self, key: &[u8], now: u64, out: &mut Vec<u8>) {
        if let Some(&at) = self.places.get(key) {
            if self.items[at].expiry <= now {
                self.remove(at);
            } else {
                if self.newest != at {
                    self.unlink(at);
                    self.link(at);
                }
                let item = &self.items[at];
                out.extend_from_slice(b"VALUE ");
                out.extend_from_slice(key);
                let _ = write!(out, " {} {}\r\n", item.flags, item.value.len());
                out.extend_from_slice(&item.value);
                out.extend_from_slice(b"\r\n");
            }
        }
        out.extend_from_slice(b"END\r\n");
    }

    fn set(&mut self, key: &[u8], value: &[u8], flags: u32, expiry: u64) {
        if let Some(&at) = self.places.get(key) {
            self.total = self.total - self.items[at].value.len() + value.len();
            self.items[at].value = value.to_vec();
            (self.items[at].flags, self.items[at].expiry) = (flags, expiry);
            self.unlink(at);
            self.link(at);
        } else {
            let key: Arc<[u8]> = key.into();
            self.total += ITEM_BYTES + key.len() + value.len();
            let item = Item { key: key.clone(), value: value.to_vec(), flags, expiry, newer: NOBODY, older: NOBODY };
            let at = match self.free.pop() {
                Some(at) => {
                    self.items[at] = item;
                    at
                }
                None => {
                    self.items.push(item);
                    self.items.len() - 1
                }
            };
            self.places.insert(key, at);
            self.link(at);
        }
        while self.total > self.limit {
            self.remove(self.oldest);
        }
    }
}

struct Connection {
    stream: TcpStream,
    held: Vec<u8>,
    out: Vec<u8>,
    sent: usize,
}

fn number(word: Option<&[u8]>) -> Option<u64> {
    let word = word?;
    if word.is_empty() || word.len() > 18 {
        return None;
    }
    word.iter().try_fold(0, |sum, &digit| digit.is_ascii_digit().then(|| sum * 10 + u64::from(digit - b'0')))
}

/// Answers the whole requests, and gives how many bytes they have.
fn answer(cache: &Mutex<Cache>, bytes: &[u8], out: &mut Vec<u8>) -> usize {
    let mut at = 0;
    while let Some(length) = bytes[at..].iter().position(|&byte| byte == b'\n') {
        let line = bytes[at..at + length].strip_suffix(b"\r").unwrap_or(&bytes[at..at + length]);
        let mut words = line.split(|&byte| byte == b' ').filter(|word| !word.is_empty());
        let behind = at + length + 1;
        let now = SystemTime::now().duration_since(UNIX_EPOCH).map_or(0, |since| since.as_secs());
        match (words.next(), words.next()) {
            (Some(b"get"), Some(key)) => {
                cache.lock().unwrap().get(key, now, out);
                at = behind;
            }
            (Some(b"set"), Some(key)) => {
                let (flags, exptime, count) = (number(words.next()), number(words.next()), number(words.next()));
                let (Some(flags), Some(exptime), Some(count)) = (flags, exptime, count) else {
                    out.extend_from_slice(b"CLIENT_ERROR bad command line format\r\n");
                    at = behind;
                    continue;
                };
                let end = behind + count as usize;
                if bytes.len() < end + 2 {
                    return at;
                }
                let expiry = match exptime {
                    0 => u64::MAX,
                    1..=2_592_000 => now + exptime,
                    _ => exptime,
                };
                cache.lock().unwrap().set(key, &bytes[behind..end], flags as u32, expiry);
                out.extend_from_slice(b"STORED\r\n");
                at = end + 2;
            }
            _ => {
                out.extend_from_slice(b"ERROR unknown command\r\n");
                at = behind;
            }
        }
    }
    at
}

/// Sends what waits. Gives whether the connection still stands.
fn send_out(connection: &mut Connection) -> bool {
    while connection.sent < connection.out.len() {
        match connection.stream.write(&connection.out[connection.sent..]) {
            Ok(0) => return false,
            Ok(count) => connection.sent += count,
            Err(error) if error.kind() == ErrorKind::WouldBlock => return true,
            Err(_) => return false,
        }
    }
    connection.out.clear();
    connection.sent = 0;
    true
}

/// Reads until nothing is there, and answers. Gives whether the connection still stands.
fn serve(connection: &mut Connection, cache: &Mutex<Cache>, piece: &mut [u8]) -> bool {
    loop {
        if !send_out(connection) {
            return false;
        }
        if !connection.out.is_empty() {
            return true;
        }
        match connection.stream.read(piece) {
            Ok(0) => return false,
            Ok(count) => {
                if connection.held.is_empty() {
                    let used = answer(cache, &piece[..count], &mut connection.out);
                    connection.held.extend_from_slice(&piece[used..count]);
                } else {
                    connection.held.extend_from_slice(&piece[..count]);
                    let used = answer(cache, &connection.held, &mut connection.out);
                    connection.held.drain(..used);
                }
                if count < piece.len() {
                    return send_out(connection);
                }
            }
            Err(error) if error.kind() == ErrorKind::WouldBlock => return true,
            Err(_) => return false,
        }
    }
}

fn work(listener: TcpListener, cache: Arc<Mutex<Cache>>) {
    let set = unsafe { epoll_create1(0) };
    let mut all: Vec<Option<Connection>> = Vec::new();
    let watch = |fd: i32, data: u64, events: u32| {
        let mut event = Event { events, data };
        unsafe { epoll_ctl(set, 1, fd, &mut event) };
    };
    // Only one thread is woken for a connection that comes.
    watch(listener.as_raw_fd(), u64::MAX, 1 | 1 << 28);
    let mut events = [Event { events: 0, data: 0 }; 128];
    let mut piece = vec![0; 65_536];
    loop {
        let count = unsafe { epoll_wait(set, events.as_mut_ptr(), 128, -1) };
        for event in &events[..count.max(0) as usize] {
            let data = event.data;
            if data == u64::MAX {
                let Ok((stream, _)) = listener.accept() else { continue };
                let _ = (stream.set_nonblocking(true), stream.set_nodelay(true));
                let at = all.iter().position(Option::is_none).unwrap_or_else(|| {
                    all.push(None);
                    all.len() - 1
                });
                watch(stream.as_raw_fd(), at as u64, 1 | 4 | 1 << 31);
                all[at] = Some(Connection { stream, held: Vec::new(), out: Vec::new(), sent: 0 });
            } else if let Some(connection) = &mut all[data as usize] {
                if !serve(connection, &cache, &mut piece) {
                    all[data as usize] = None;
                }
            }
        }
    }
}

fn main() {
    let words: Vec<String> = env::args().collect();
    let word = |name: &str, otherwise: usize| {
        let at = words.iter().position(|word| word == name);
        at.map_or(otherwise, |at| words[at + 1].parse().unwrap())
    };
    let listener = TcpListener::bind(("127.0.0.1", word("--port", 11211) as u16)).unwrap();
    listener.set_nonblocking(true).unwrap();
    let cache = Arc::new(Mutex::new(Cache::new(word("--limit", 64) << 20)));
    let workers: Vec<_> = (0..word("--threads", 1))
        .map(|_| {
            let (listener, cache) = (listener.try_clone().unwrap(), cache.clone());
            thread::spawn(move || work(listener, cache))
        })
        .collect();
    for worker in workers {
        worker.join().unwrap();
    }
}
