//! A caching reverse proxy over the crate `pcache`, with threads and the standard library alone.
//!
//!     proxy LISTEN ORIGIN [FLAG VALUE ..]      as proxy 127.0.0.1:8080 127.0.0.1:9000 --limit 100000000
//!
//! One request fetches a key while the others wait or read along; a stale body is served while it is renewed (RFC 5861), or renewed by
//! a conditional request; variants (Vary), ranges, HEAD, PURGE from this machine. It prints its address, and each answer says in
//! `X-Cache` where it comes from. Here is what it decides about caching; `proxy/` has its HTTP/1.1 and its operation. What it leaves to
//! other servers: docs/PROXY.md.

#[path = "proxy/client.rs"]
mod client;
#[path = "proxy/http1.rs"]
mod http1;
#[path = "proxy/origin.rs"]
mod origin;
#[path = "proxy/server.rs"]
mod server;

use client::{Asked, Client};
use http1::*;
use origin::{fetch, Fetched};
use pcache::{Answer as Gets, Asked as Rules, Cache, Decision, Error, Fill, Head, Held, HitStatus, Looked, Meta, Moment, Options, Outcome};
use pcache::{Hash, Read, Reason, Request, Reuse, Said, Terms, Variance, WaitEnd};
use server::{Server, Settings, USAGE};
use std::sync::atomic::{AtomicU32, Ordering::Relaxed};
use std::sync::Arc;
use std::time::Instant;
use std::{process, thread};

/// In so many parts, each behind a lock, is the cache.
const PARTS: usize = 16;
/// What asks for a part of a response, or for nothing of it.
const CONDITIONS: [&str; 4] = ["range", "if-range", "if-none-match", "if-modified-since"];

// ---- the proxy ----

struct Proxy {
    cache: Cache,
    server: Arc<Server>,
}

impl Proxy {
    /// Asks the origin.
    fn fetch(&self, client: &mut Client, asked: &Asked, but: &[&str], more: Fields) -> Result<Fetched, Fault> {
        let (server, settings) = (&self.server, &self.server.settings);
        server.fetches.fetch_add(1, Relaxed);
        let fetched = fetch(&settings.origin, settings.patience, asked, but, more, client);
        server.failures.fetch_add(fetched.is_err().into(), Relaxed);
        fetched
    }

    /// A request that looked its target up, for the variant that it asks for where what is stored varies; and the meta of what it found.
    fn look(&self, asked: &Asked, now: Moment) -> Result<(Request, Looked, Option<Meta>), Error> {
        let mut request = self.cache.request(&base_of(asked), "")?;
        let mut looked = request.look(now)?;
        let mut meta = request.meta().ok();
        let names = meta.as_mut().map_or(Ok(Vec::new()), names_in)?;
        if let Some(variance) = variance_of(asked, &names)? {
            if !request.look_for(&variance)? {
                looked = request.look(now)?;
                meta = request.meta().ok();
            }
        }
        Ok((request, looked, meta))
    }

    /// Purges a target with all its variants. What was fetched before is not stored after it: a look-up notes when the fetch begins.
    fn purge(&self, asked: &Asked) -> Result<bool, Error> {
        self.cache.request(&base_of(asked), "")?.purge()
    }

    fn answer(self: &Arc<Proxy>, client: &mut Client, asked: &Asked) {
        match &asked.method[..] {
            "PURGE" if !client.is_near => client.answer(403, "purge"),
            "PURGE" => client.answer(self.purge(asked).map_or(500, |was| if was { 200 } else { 404 }), "purge"),
            _ => self.serve(client, asked),
        }
    }

    /// Answers from the cache, or from the origin where the cache refuses.
    fn serve(self: &Arc<Proxy>, client: &mut Client, asked: &Asked) {
        let is_read = ["GET", "HEAD"].contains(&&asked.method[..]) && asked.body.is_empty();
        let is_stored = is_read && members(&asked.fields, "cache-control").iter().all(|it| it != "no-store");
        // (a key that is filled and purged again and again is passed in the end, and one whose fills fail is not asked for by all who wait)
        let mut errors = 0;
        for _ in 0..if is_stored { 5 } else { 0 } {
            match self.try_once(client, asked) {
                Ok(None) => return,
                Ok(Some(WaitEnd::TransientError)) if errors == 2 => return client.answer(503, "none"),
                Ok(Some(end)) => errors += u32::from(end == WaitEnd::TransientError),
                Err(_) => break,
            }
        }
        self.forward(client, asked, None);
    }

    /// One look-up and what follows. If the client has no answer then, it waited, and another look-up is worth while.
    fn try_once(self: &Arc<Proxy>, client: &mut Client, asked: &Asked) -> Result<Option<WaitEnd>, Error> {
        let now = Moment::now();
        let (mut request, looked, mut meta) = self.look(asked, now)?;
        let decision = match &mut meta {
            Some(meta) => rules_of(asked)?.decide_stored(&terms_of(meta, now)?, meta, None)?,
            None => rules_of(asked)?.decide_missing()?,
        };
        match (decision, meta) {
            (Decision::OnlyIfCached, _) => client.answer(504, "none"),
            (Decision::Serve(reuse, gets, age), Some(mut meta)) => {
                if reuse == Reuse::WhileRevalidating {
                    let _ = self.renew(asked, now);
                }
                request.take(HitStatus::Fresh, now)?;
                let reply = reply_of(&mut meta, Some(age), if reuse == Reuse::Fresh { "hit" } else { "stale" })?;
                self.send_stored(client, asked, &mut request, gets, reply);
            }
            (Decision::Validate, Some(meta)) if client.takes_body => {
                request.take(HitStatus::Expired, now)?;
                if request.held()? != Held::Permit {
                    return self.wait(&mut request);
                }
                self.validate(client, asked, &mut request, meta)?;
            }
            _ if looked == Looked::Waits => return self.wait(&mut request),
            _ if looked == Looked::Permit && client.takes_body => self.forward(client, asked, Some(&mut request)),
            _ => return Err(Error::Nothing),
        }
        Ok(None)
    }

    /// Waits for the request that has the permit. Says how that ended, if another look-up is worth while.
    fn wait(&self, request: &mut Request) -> Result<Option<WaitEnd>, Error> {
        let end = request.wait_until(Instant::now() + self.server.settings.patience)?;
        end.filter(|it| it.looks_again()).map(Some).ok_or(Error::Nothing)
    }

    /// Renews a stale body in a thread of its own, unless another request has the permit to.
    fn renew(self: &Arc<Proxy>, asked: &Asked, now: Moment) -> Result<(), Error> {
        let (mut request, _, meta) = self.look(asked, now)?;
        let meta = meta.ok_or(Error::Nothing)?;
        request.take(HitStatus::Expired, now)?;
        if request.held()? == Held::Permit && Arc::strong_count(self) <= self.server.settings.connections {
            let (proxy, asked) = (self.clone(), Asked { method: "GET".to_string(), ..asked.clone() });
            let _ = thread::Builder::new().spawn(move || proxy.validate(&mut Client::new(None, false), &asked, &mut request, meta));
        }
        Ok(())
    }

    /// Asks the origin whether a stored body is good, and fills the key anew if it is not.
    fn validate(&self, client: &mut Client, asked: &Asked, request: &mut Request, mut meta: Meta) -> Result<(), Error> {
        let (tag, since) = meta.validators()?;
        let conditions = vec![("if-none-match".to_string(), tag), ("if-modified-since".to_string(), since)];
        let fetched = self.fetch(client, asked, &CONDITIONS, conditions);
        let (mut rules, terms) = (rules_of(asked)?, terms_of(&mut meta, moment())?);
        let outcome = match &fetched {
            Ok(fetched) => rules.decide_validated(&terms, &mut meta, None, &mut head_in(fetched)?)?,
            Err(_) => rules.decide_failed(&terms, &mut meta, None)?.map_or(Outcome::FetchAgain, |(gets, age)| Outcome::ServeStale(gets, age)),
        };
        match (outcome, fetched) {
            (Outcome::Freshen(mut newer, true, gets), _) => {
                newer.vary(meta.variance()?.as_ref())?;
                request.renew(&mut newer)?;
                request.seek(0, None)?;
                self.send_stored(client, asked, request, gets, reply_of(&mut newer, None, "revalidated")?);
            }
            (Outcome::ServeStale(gets, age), _) => {
                let _ = request.release(Reason::UpstreamError);
                self.send_stored(client, asked, request, gets, reply_of(&mut meta, Some(age), "stale after an error")?);
            }
            (_, Err(fault)) => fail(client, Some(request), &fault),
            (Outcome::FetchAgain | Outcome::Freshen(..), _) => return Err(Error::Nothing),
            (outcome, Ok(fetched)) => self.store(client, asked, request, fetched, outcome),
        }
        Ok(())
    }

    /// Sends what was fetched to the client, and stores it if it is to be stored.
    fn store(&self, client: &mut Client, asked: &Asked, request: &mut Request, fetched: Fetched, outcome: Outcome) {
        let names = members(&fetched.fields, "vary");
        let mut kept = match outcome {
            Outcome::Store(meta) if names.iter().all(|it| it != "*") => Some(meta),
            _ => None,
        };
        // (what is never fresh and has no validator, or is for no other request, would only be in the way)
        let has_validator = field(&fetched.fields, "etag").or(field(&fetched.fields, "last-modified")).is_some();
        let is_fresh = kept.as_mut().map_or(false, |it| it.servable(Moment::now()).map_or(false, |it| it.fresh));
        let is_too_large = fetched.length().map_or(false, |it| it > self.server.settings.body as u64);
        let mut meta = match kept {
            Some(meta) if (is_fresh || has_validator) && !is_too_large => meta,
            _ => {
                // Who waits for this key is told to go to the origin itself; or, after an error, one of them is.
                let _ = request.disable(if fetched.status >= 500 { Reason::UpstreamError } else { Reason::OriginNotCache });
                return send_on(client, fetched, "pass");
            }
        };
        match variance_of(asked, &names) {
            Ok(variance) => self.store_body(client, asked, request, &mut meta, variance, fetched),
            Err(_) => send_on(client, fetched, "pass"),
        }
    }

    /// Stores a body and sends it. The origin sets the speed of the write, in this thread, and the client that of its own: in another
    /// thread it is sent what is stored. A write that is let go, as it is too large, goes on as what passes.
    fn store_body(&self, client: &mut Client, asked: &Asked, request: &mut Request, meta: &mut Meta, variance: Option<Hash>, mut fetched: Fetched) {
        fetched.fields.push(with("X-Cache", "miss"));
        client.begin(fetched.status, &fetched.fields);
        let _ = request.limit_body(self.server.settings.body);
        let is_whole = thread::scope(|scope| {
            let (says, to) = (meta.says(), &mut *client);
            let fill = request.fill(meta, variance.as_ref()).ok();
            let (end, to) = match fill.as_ref().filter(|_| to.takes_body).and_then(|_| self.reader_of(asked, says.ok()?)) {
                None => (pour(&mut fetched, fill, to), Some(to)),
                Some(mut reader) => {
                    let sender = thread::Builder::new().spawn_scoped(scope, move || {
                        self.send_read(to, &mut reader);
                        to
                    });
                    let end = pour(&mut fetched, fill, &mut Client::new(None, false));
                    if !matches!(end, End::Whole(_)) {
                        let _ = request.disable(Reason::UpstreamError); // now, since who reads along is told by it
                    }
                    (end, sender.ok().and_then(|it| it.join().ok()))
                }
            };
            match (end, to) {
                (End::Whole(count), Some(to)) => to.answered.2 == count || !to.takes_body,
                (End::LetGo(count, piece), Some(to)) if to.answered.2 == count => {
                    let _ = request.disable(Reason::ResponseTooLarge);
                    to.piece(&piece);
                    matches!(pour(&mut fetched, None, to), End::Whole(_))
                }
                _ => false,
            }
        });
        client.end(is_whole);
    }

    /// What reads along the write that began with this meta; nothing if that is not what a look-up finds.
    fn reader_of(&self, asked: &Asked, says: Said) -> Option<Request> {
        let (mut request, _, meta) = self.look(asked, Moment::now()).ok()?;
        if meta?.says().ok()? != says {
            return None;
        }
        request.take(HitStatus::Fresh, Moment::now()).ok().map(|()| request)
    }

    /// Hands the request to the origin, and fills its key if it may. What an unsafe method may have changed is purged (RFC 9111, 4.4).
    fn forward(&self, client: &mut Client, asked: &Asked, request: Option<&mut Request>) {
        let fetched = match self.fetch(client, asked, if request.is_some() { &CONDITIONS } else { &[] }, Fields::new()) {
            Ok(fetched) => fetched,
            Err(fault) => return fail(client, request, &fault),
        };
        let outcome = rules_of(asked).and_then(|mut it| it.decide_fetched(&Terms::at(moment()), &mut head_in(&fetched)?));
        match (outcome, request) {
            (Ok(outcome), Some(request)) => return self.store(client, asked, request, fetched, outcome),
            (Ok(Outcome::Invalidate), None) => drop(self.purge(asked)),
            _ => {}
        }
        send_on(client, fetched, "pass");
    }

    /// Sends what a request reads: whole, in a range, or along with a write.
    fn send_stored(&self, client: &mut Client, asked: &Asked, request: &mut Request, gets: Gets, (mut status, mut fields): (u16, Fields)) {
        let mut length = request.body_length().unwrap_or(None).map(|it| it as u64);
        let whole = length.filter(|_| gets == Gets::Range && status == 200);
        match whole.and_then(|whole| Some((whole, range_of(asked, whole)?))) {
            _ if gets == Gets::NotModified => status = 304,
            Some((whole, (first, _))) if first >= whole => {
                (status, length) = (416, Some(0));
                fields.retain(|(name, _)| name == "X-Cache");
                fields.push(with("content-range", format!("bytes */{whole}")));
            }
            Some((whole, (first, last))) if request.seek(first as usize, Some(last as usize + 1)).is_ok() => {
                (status, length) = (206, Some(last + 1 - first));
                fields.push(with("content-range", format!("bytes {first}-{last}/{whole}")));
            }
            _ => {}
        }
        fields.extend(length.map(|it| with("content-length", it)));
        client.begin(status, &fields);
        // (to copy few bytes takes less time than to make a view)
        let (mut room, short) = ([0; 4096], length.filter(|it| (1..=4096).contains(it)));
        let copied = short.and_then(|_| request.read(&mut room).ok()).map_or(0, |it| if let Read::Bytes(count) = it { count } else { 0 });
        client.piece(&room[..copied]);
        let is_whole = status == 416 || short == Some(copied as u64) || self.send_read(client, request);
        client.end(is_whole);
    }

    /// Sends what is left of what a request reads, as long as the client takes it. Says whether it came to its end.
    fn send_read(&self, client: &mut Client, request: &mut Request) -> bool {
        while client.takes_body {
            match request.view_until(Instant::now() + self.server.settings.patience) {
                Ok(Read::Bytes(view)) => client.piece(&view),
                end => return matches!(end, Ok(Read::End)),
            }
        }
        true
    }
}

fn base_of(asked: &Asked) -> Vec<u8> {
    format!("{} {}", field(&asked.fields, "host").unwrap_or("").to_ascii_lowercase(), asked.target).into_bytes()
}

/// The head of a response, of which the library decides what becomes of it.
fn head_in(fetched: &Fetched) -> Result<Head, Error> {
    let mut head = Head::new(fetched.status)?;
    fetched.fields.iter().filter(|(name, _)| name != "content-length").try_for_each(|(name, value)| head.add(name, value))?;
    Ok(head)
}

/// The names in the Vary of a stored response.
fn names_in(meta: &mut Meta) -> Result<Vec<String>, Error> {
    let mut fields = Fields::new();
    while let Some(value) = meta.value("vary", fields.len())? {
        fields.push(("vary".to_string(), value));
    }
    Ok(members(&fields, "vary"))
}

/// What a request says in these fields, as one hash; nothing if there are none.
fn variance_of(asked: &Asked, names: &[String]) -> Result<Option<Hash>, Error> {
    let mut variance = if names.is_empty() { return Ok(None) } else { Variance::new()? };
    for name in names {
        let values = asked.fields.iter().filter(|(it, _)| it == name).map(|(_, value)| &value[..]).collect::<Vec<_>>();
        variance.add(name, &[format!("{}:", values.len()).as_bytes(), &values.join(&b"\n"[..])].concat())?;
    }
    variance.finish()
}

/// The head of a request, of which the library decides what is served, validated, stored and purged (RFC 9111).
fn rules_of(asked: &Asked) -> Result<Rules, Error> {
    let mut head = Rules::new(&asked.method, asked.target.as_bytes())?;
    asked.fields.iter().try_for_each(|(name, value)| head.add(name, value))?;
    Ok(head)
}

/// The stored response was received when its meta was updated, and its request was sent right before.
fn terms_of(meta: &mut Meta, now: Moment) -> Result<Terms, Error> {
    Ok(Terms { requested: meta.says()?.updated, ..Terms::at(now) })
}

/// What is sent of a stored response: with this Age or, right after it was validated, with the one that it came with.
fn reply_of(meta: &mut Meta, age: Option<u32>, origin: &str) -> Result<(u16, Fields), Error> {
    let (status, mut fields) = meta.head()?;
    fields.retain(|(name, _)| name != "age" || age.is_none());
    fields.extend(age.map(|it| with("age", it)));
    fields.push(with("X-Cache", origin));
    Ok((status, fields))
}

/// A moment of the clock, of which no two are the same: by it a write is known again.
fn moment() -> Moment {
    static COUNT: AtomicU32 = AtomicU32::new(0);
    let now = Moment::now();
    Moment { nanos: now.nanos / 1000 * 1000 + COUNT.fetch_add(1, Relaxed) % 1000, ..now }
}

/// Tells a client that the origin gave no answer. One of those who wait for its request tries next.
fn fail(client: &mut Client, request: Option<&mut Request>, fault: &Fault) {
    if let Some(request) = request {
        let _ = request.disable(Reason::UpstreamError);
    }
    client.answer(if matches!(fault.status(), Ok(408)) { 504 } else { 502 }, "none");
}

/// Sends a response on as it comes.
fn send_on(client: &mut Client, mut fetched: Fetched, origin: &str) {
    fetched.fields.push(with("X-Cache", origin));
    client.begin(fetched.status, &fetched.fields);
    let end = pour(&mut fetched, None, client);
    client.end(matches!(end, End::Whole(_)));
}

/// How the moving of a body ended, after so many bytes.
enum End {
    Whole(u64),
    CutOff,
    /// The write does not take this piece, or nobody does.
    LetGo(u64, Vec<u8>),
}

/// Moves a body to a write, if there is one, and to a client, as it comes.
fn pour(fetched: &mut Fetched, mut fill: Option<Fill>, client: &mut Client) -> End {
    let mut count = 0;
    loop {
        let piece = match fetched.next_piece() {
            Ok(Some(piece)) => piece,
            Ok(None) => {
                // A key that was purged meanwhile is a reason not to store it, and none not to send it.
                let _ = fill.map(|it| it.finish(""));
                return End::Whole(count);
            }
            Err(_) => return End::CutOff,
        };
        let goes_on = fill.as_mut().map_or(client.takes_body, |it| it.count_body(piece.len()) == Ok(true) && it.write(&piece).is_ok());
        if !goes_on {
            return End::LetGo(count, piece);
        }
        client.piece(&piece);
        count += piece.len() as u64;
    }
}

/// The first and the last byte of the one range that is asked for, of a body of this length, which may have none of it.
fn range_of(asked: &Asked, length: u64) -> Option<(u64, u64)> {
    let (first, last) = field(&asked.fields, "range")?.strip_prefix("bytes=")?.split_once('-')?;
    let end = length.saturating_sub(1);
    match (number(first.as_bytes(), 10), number(last.as_bytes(), 10)) {
        (Some(first), Some(last)) if first <= last => Some((first, last.min(end))),
        (Some(first), None) if last.is_empty() => Some((first, end)),
        (None, Some(count)) if first.is_empty() => Some((length.saturating_sub(count), end)),
        _ => None,
    }
}

/// What the cache counts, for the operator.
fn counts_of(cache: &Cache) -> Vec<(&'static str, &'static str, u64)> {
    let (counted, totals) = (cache.counted().unwrap_or_default(), cache.totals().unwrap_or_default());
    let counters = [("waits_total", counted.waits), ("fills_total", counted.fills), ("evictions_total", totals.evicted_entries as u64)];
    let gauges = [("stored_bytes", totals.stored_bytes), ("stored_bodies", totals.bodies as u64), ("stored_weight", totals.weight as u64)];
    let counters = counters.into_iter().map(|(name, count)| (name, "counter", count));
    counters.chain(gauges.into_iter().map(|(name, count)| (name, "gauge", count))).collect()
}

fn main() -> Result<(), Box<dyn std::error::Error>> {
    let mut settings = Settings::read().unwrap_or_else(|| {
        eprintln!("{USAGE}");
        process::exit(2)
    });
    if settings.body == 0 {
        settings.body = settings.limit / PARTS;
    }
    let cache = Cache::new(&Options { limit: settings.limit, age_timeout: settings.patience, parts: PARTS, ..Options::default() })?;
    let server = Arc::new(Server::new(settings));
    let proxy = Arc::new(Proxy { cache: cache.clone(), server: server.clone() });
    server.operate(move || counts_of(&cache))?;
    server.run(move |client, asked| proxy.answer(client, asked))?;
    Ok(())
}
