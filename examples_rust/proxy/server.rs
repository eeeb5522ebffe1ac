//! A server of HTTP/1.1 with a thread for each connection: its settings, its limits, its end, and what an operator reads.

use crate::client::{read_request, Asked, Client, Timed};
use crate::http1::*;
use std::collections::HashMap;
use std::fmt::Write as _;
use std::io::{self, BufRead, BufReader, Read, Write};
use std::net::{Shutdown, TcpListener, TcpStream};
use std::os::unix::io::AsRawFd;
use std::sync::atomic::{AtomicBool, AtomicI32, AtomicU64, Ordering::Relaxed};
use std::sync::{Arc, Mutex, MutexGuard, PoisonError};
use std::time::{Duration, Instant};
use std::{env, thread};

pub const USAGE: &str = "proxy LISTEN ORIGIN [FLAG VALUE ..]
  --limit BYTES        what is stored has at most (100000000)
  --body BYTES         a body that is stored has at most (what one of the cache's 16 parts has of its limit)
  --request BYTES      a body of a request has at most (1000000)
  --connections COUNT  clients at once (1000)
  --patience SECONDS   for a request, for each read of an answer, and for what waits (30)
  --grace SECONDS      from SIGTERM to the end, for the answers under way (10)
  --operator ADDRESS   serves /metrics and /healthz (nowhere)
  --log yes            a line for each request on standard error (no)";

/// What an answer says in X-Cache.
const KINDS: [&str; 8] = ["hit", "stale", "stale after an error", "revalidated", "miss", "pass", "purge", "none"];

#[derive(Clone)]
pub struct Settings {
    pub listen: String,
    pub origin: String,
    pub limit: usize,
    pub body: usize,
    pub request: usize,
    pub connections: usize,
    pub patience: Duration,
    pub grace: Duration,
    pub operator: Option<String>,
    pub log: bool,
}

impl Settings {
    /// Those that the words of a command line are, or nothing.
    pub fn read() -> Option<Settings> {
        let mut words = env::args().skip(1);
        let (listen, origin) = words.next().zip(words.next())?;
        let (patience, grace) = (Duration::from_secs(30), Duration::from_secs(10));
        let (limit, request, connections) = (100_000_000, 1_000_000, 1000);
        let mut all = Settings { listen, origin, limit, body: 0, request, connections, patience, grace, operator: None, log: false };
        while let Some(flag) = words.next() {
            let value = words.next()?;
            let count = value.parse::<usize>().ok();
            match &flag[..] {
                "--limit" => all.limit = count?,
                "--body" => all.body = count?,
                "--request" => all.request = count?,
                "--connections" => all.connections = count?,
                "--patience" => all.patience = Duration::from_secs(count.filter(|it| *it > 0)? as u64),
                "--grace" => all.grace = Duration::from_secs(count? as u64),
                "--operator" => all.operator = Some(value),
                "--log" => all.log = value == "yes",
                _ => return None,
            }
        }
        Some(all)
    }
}

// ---- the end ----

static LISTENER: AtomicI32 = AtomicI32::new(-1);
static ENDS: AtomicBool = AtomicBool::new(false);

// The standard library has no signals; the C library, which is linked anyway, does.
extern "C" {
    fn signal(number: i32, handler: extern "C" fn(i32)) -> usize;
    fn shutdown(socket: i32, how: i32) -> i32;
}

/// Ends the listening, and with it `run`. A handler may do no more than such calls and atomic steps.
extern "C" fn end(_: i32) {
    if !ENDS.swap(true, Relaxed) {
        // SAFETY: a call of the system's that may be made from a handler; the number is that of the listener, which is never closed.
        unsafe { shutdown(LISTENER.load(Relaxed), 2) };
    }
}

// ---- the server ----

pub struct Server {
    pub settings: Settings,
    /// The connections, by numbers.
    open: Mutex<HashMap<u64, Arc<TcpStream>>>,
    answers: [AtomicU64; KINDS.len()],
    bytes: AtomicU64,
    refused: AtomicU64,
    /// Requests to the origin, and those without an answer.
    pub fetches: AtomicU64,
    pub failures: AtomicU64,
}

/// A connection's place among those that are open.
struct Place<'s>(&'s Server, u64);

impl Drop for Place<'_> {
    fn drop(&mut self) {
        self.0.open().remove(&self.1);
    }
}

impl Server {
    pub fn new(settings: Settings) -> Server {
        let none = || AtomicU64::new(0);
        let answers = [(); KINDS.len()].map(|()| none());
        Server { settings, open: Mutex::default(), answers, bytes: none(), refused: none(), fetches: none(), failures: none() }
    }

    fn open(&self) -> MutexGuard<'_, HashMap<u64, Arc<TcpStream>>> {
        self.open.lock().unwrap_or_else(PoisonError::into_inner)
    }

    /// Prints the address and serves until a signal comes; then lets the answers under way be finished, for as long as it has grace.
    pub fn run(self: &Arc<Server>, answer: impl Fn(&mut Client, &Asked) + Send + Sync + 'static) -> io::Result<()> {
        let listener = TcpListener::bind(&self.settings.listen)?;
        println!("{}", listener.local_addr()?);
        LISTENER.store(listener.as_raw_fd(), Relaxed);
        for number in [2, 15] {
            // SAFETY: SIGINT and SIGTERM, with a handler that makes only calls which may be made from one.
            unsafe { signal(number, end) };
        }
        let (answer, mut refused) = (Arc::new(answer), Vec::new());
        for number in 0.. {
            match listener.accept() {
                _ if ENDS.load(Relaxed) => break,
                Ok((stream, _)) if self.open().len() < self.settings.connections => self.admit(number, Arc::new(stream), answer.clone()),
                Ok((stream, _)) => self.refuse(stream, &mut refused),
                // (as when there are no descriptors left)
                Err(_) => thread::sleep(Duration::from_millis(10)),
            }
        }
        // Who has not asked yet is told that nothing more is read.
        self.open().values().for_each(|it| drop(it.shutdown(Shutdown::Read)));
        let until = Instant::now() + self.settings.grace;
        while !self.open().is_empty() && Instant::now() < until {
            thread::sleep(Duration::from_millis(10));
        }
        Ok(())
    }

    /// Serves a connection in a thread of its own. Where there is none left, it is closed.
    fn admit(self: &Arc<Server>, number: u64, stream: Arc<TcpStream>, answer: Arc<impl Fn(&mut Client, &Asked) + Send + Sync + 'static>) {
        self.open().insert(number, stream.clone());
        let server = self.clone();
        let served = thread::Builder::new().spawn(move || {
            let place = Place(&server, number);
            let _ = server.converse(&stream, &*answer);
            drop(place);
        });
        if served.is_err() {
            self.open().remove(&number);
        }
    }

    /// Says to a client that there are too many. Its connection is kept a while, since what it sent and nobody read would take the answer
    /// away from it.
    fn refuse(&self, stream: TcpStream, refused: &mut Vec<Arc<TcpStream>>) {
        self.refused.fetch_add(1, Relaxed);
        let _ = stream.set_nonblocking(true);
        let stream = Arc::new(stream);
        let mut client = Client::new(Some(stream.clone()), false);
        client.stays = false;
        client.answer(503, "none");
        let _ = stream.shutdown(Shutdown::Write);
        refused.push(stream);
        if refused.len() > 100 {
            refused.remove(0);
        }
    }

    fn converse(&self, stream: &Arc<TcpStream>, answer: &impl Fn(&mut Client, &Asked)) -> io::Result<()> {
        let peer = stream.peer_addr()?.ip();
        let mut from = BufReader::new(Timed::new(stream.clone(), self.settings.patience)?);
        let mut client = Client::new(Some(stream.clone()), peer.is_loopback());
        while client.stays && !ENDS.load(Relaxed) {
            from.get_mut().end()?;
            if from.fill_buf()?.is_empty() {
                break;
            }
            from.get_mut().begin();
            let start = Instant::now();
            let asked = read_request(&mut from, &mut client, self.settings.request);
            match &asked {
                Ok(asked) => {
                    client.stays &= !ENDS.load(Relaxed);
                    answer(&mut client, asked);
                }
                Err(fault) => {
                    client.stays = false;
                    client.answer(fault.status()?, "none");
                }
            }
            self.note(&client, asked.ok(), start, peer);
        }
        // What is still to be read is, for a while: a connection that is closed before takes the answer away from the client.
        stream.shutdown(Shutdown::Write)?;
        let mut rest = Timed::new(stream.clone(), Duration::from_millis(500))?;
        rest.begin();
        let _ = io::copy(&mut rest.take(1 << 20), &mut io::sink());
        Ok(())
    }

    fn note(&self, client: &Client, asked: Option<Asked>, start: Instant, peer: std::net::IpAddr) {
        let (status, origin, bytes) = &client.answered;
        let kind = KINDS.iter().position(|it| it == origin).unwrap_or(KINDS.len() - 1);
        self.answers[kind].fetch_add(1, Relaxed);
        self.bytes.fetch_add(*bytes, Relaxed);
        if self.settings.log {
            let (method, host, target) = asked.as_ref().map_or(("-", "-", "-"), |it| (&it.method, field(&it.fields, "host").unwrap_or("-"), &it.target));
            let (at, took) = (date_of(clock(), true), start.elapsed().as_micros());
            let line = format!("{at} {peer} {method} {host} {target} {status} {bytes} {took} us {origin}\n");
            let _ = io::stderr().write_all(line.as_bytes());
        }
    }

    // ---- for the operator ----

    /// Serves /metrics and /healthz in a thread of its own, if there is an address for them.
    pub fn operate(self: &Arc<Server>, more: impl Fn() -> Vec<(&'static str, &'static str, u64)> + Send + 'static) -> io::Result<()> {
        let listener = match &self.settings.operator {
            Some(address) => TcpListener::bind(address)?,
            None => return Ok(()),
        };
        eprintln!("for the operator: {}", listener.local_addr()?);
        let server = self.clone();
        thread::Builder::new().spawn(move || {
            for stream in listener.incoming().flatten() {
                let _ = server.tell(stream, &more);
            }
        })?;
        Ok(())
    }

    fn tell(&self, stream: TcpStream, more: &impl Fn() -> Vec<(&'static str, &'static str, u64)>) -> io::Result<()> {
        let stream = Arc::new(stream);
        let mut timed = Timed::new(stream.clone(), Duration::from_secs(1))?;
        timed.begin();
        let mut client = Client::new(Some(stream), true);
        let asked = read_request(&mut BufReader::new(timed), &mut client, 0);
        let ends = ENDS.load(Relaxed);
        let (status, text) = match asked.as_ref().map(|it| &it.target[..]) {
            Ok("/metrics") => (200, self.metrics(more())),
            Ok("/healthz") => (if ends { 503 } else { 200 }, if ends { "ending\n" } else { "good\n" }.to_string()),
            Ok(_) => (404, String::new()),
            Err(fault) => (fault.status()?, String::new()),
        };
        client.stays = false;
        client.begin(status, &vec![with("content-type", "text/plain; version=0.0.4"), with("content-length", text.len())]);
        client.piece(text.as_bytes());
        client.end(true);
        Ok(())
    }

    /// The counts in the text format of Prometheus.
    fn metrics(&self, more: Vec<(&'static str, &'static str, u64)>) -> String {
        let mut text = "# TYPE pcache_answers_total counter\n".to_string();
        for (kind, count) in KINDS.iter().zip(&self.answers) {
            let _ = writeln!(text, "pcache_answers_total{{cache=\"{kind}\"}} {}", count.load(Relaxed));
        }
        let counts = [("sent_bytes_total", &self.bytes), ("refused_connections_total", &self.refused)];
        let counts = counts.into_iter().chain([("fetches_total", &self.fetches), ("failed_fetches_total", &self.failures)]);
        let all = counts.map(|(name, count)| (name, "counter", count.load(Relaxed))).chain(more);
        for (name, kind, count) in all.chain([("connections", "gauge", self.open().len() as u64)]) {
            let _ = writeln!(text, "# TYPE pcache_{name} {kind}\npcache_{name} {count}");
        }
        text
    }
}
