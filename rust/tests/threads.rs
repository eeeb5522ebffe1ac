//! The crate under threads: what a test asserts is what every interleaving has to give.

use pcache::{Cache, CacheCounted, Error, Head, Held, HitStatus, Looked, Meta, Moment, Options, Policy, Read, Reason, Request, Said, View, WaitEnd};
use std::sync::atomic::{AtomicU64, AtomicUsize, Ordering};
use std::sync::Mutex;
use std::thread;
use std::time::{Duration, Instant};

const NOW: Moment = Moment { secs: 1, nanos: 0 };

fn meta() -> Result<Meta, Error> {
    // Far enough that the clock is before it.
    let fresh_until = Moment { secs: 1 << 40, nanos: 0 };
    Meta::new(&mut Head::new(200)?, &Said { fresh_until, ..Said::default() })
}

fn soon() -> Instant {
    Instant::now() + Duration::from_secs(60)
}

fn byte_at(key: usize, place: usize) -> u8 {
    (key * 7 + place % 251) as u8
}

/// Reads the body that a request took, to its end: the bytes, and whether that was all.
fn read_all(request: &mut Request) -> Result<(Vec<u8>, bool), Error> {
    let mut all = Vec::new();
    loop {
        match request.view_until(soon())? {
            Read::Bytes(view) => all.extend_from_slice(&view),
            Read::End => return Ok((all, true)),
            Read::CutOff => return Ok((all, false)),
            Read::NotYet => panic!("a reader was not woken"),
        }
    }
}

#[test]
fn what_moves_between_threads_is_marked() {
    fn moves<T: Send>() {}
    fn is_shared<T: Send + Sync>() {}
    is_shared::<Cache>();
    is_shared::<View>();
    moves::<Request>();
    moves::<Meta>();
    moves::<Head>();
    moves::<pcache::Manager>();
    is_shared::<pcache::SharedManager>();
}

#[test]
fn a_permit_is_not_handed_to_another_cache() -> Result<(), Error> {
    let (one, other) = (Cache::new(&Options::default())?, Cache::new(&Options::default())?);
    let (mut first, mut second) = (one.request(b"key", "")?, other.request(b"key", "")?);
    assert_eq!(first.look(NOW)?, Looked::Permit);
    assert_eq!(first.hand_permit(&mut second), Err(Error::WrongCall));
    assert_eq!((first.held()?, second.held()?), (Held::Permit, Held::Nothing));
    let mut third = one.request(b"key", "")?;
    first.hand_permit(&mut third)?;
    assert_eq!((first.held()?, third.held()?), (Held::Nothing, Held::Permit));
    Ok(())
}

#[test]
fn a_publication_wakes_who_cannot_use_the_fill() -> Result<(), Error> {
    let cache = Cache::new(&Options::default())?;
    let mut writer = cache.request(b"key", "")?;
    let mut picky = cache.request_with_unusable(b"key", "", &[1, 2])?;
    assert_eq!(writer.look(Moment::now())?, Looked::Permit);
    assert_eq!(picky.look(Moment::now())?, Looked::Waits);
    writer.publish(&[3])?;
    let waiting = thread::spawn(move || -> Result<_, Error> {
        let ended = picky.wait_until(soon())?;
        Ok((ended, picky.abandoned()?))
    });
    writer.publish(&[2, 3])?;
    let ended = waiting.join().map_err(|_| Error::Nothing)??;
    assert_eq!(ended, (Some(WaitEnd::Abandoned), Some(2)));
    Ok(())
}

#[test]
fn eight_threads_make_a_million_calls() -> Result<(), Error> {
    const KEYS: usize = 64;
    const BODY: usize = 3000;
    let limit = KEYS * BODY * 3 / 4;
    let cache = Cache::new(&Options { limit, parts: 4, ..Options::default() })?;
    let left: Mutex<Vec<(Request, Option<View>)>> = Mutex::new(Vec::new());
    // Hits, misses, waits that ended, and fills.
    let counts: [AtomicU64; 4] = Default::default();
    thread::scope(|scope| {
        for seed in 0..8u64 {
            let (cache, left, [hits, misses, waits, fills]) = (&cache, &left, &counts);
            scope.spawn(move || {
                let mut random = seed;
                // A round makes at least five calls: a request, its look, its end, and two in between.
                for _ in 0..25_000 {
                    random = random.wrapping_mul(6_364_136_223_846_793_005).wrapping_add(1_442_695_040_888_963_407);
                    let key = (random >> 33) as usize % KEYS;
                    let mut request = cache.request(&[key as u8], "").unwrap();
                    let mut view = None;
                    if (random >> 45) % 64 == 0 {
                        request.purge().unwrap();
                    }
                    match request.look(NOW).unwrap() {
                        Looked::Found => {
                            request.take(HitStatus::Fresh, NOW).unwrap();
                            if let Read::Bytes(bytes) = request.view().unwrap() {
                                assert!(bytes.iter().enumerate().all(|(place, &byte)| byte == byte_at(key, place)));
                                view = Some(bytes);
                            }
                            hits.fetch_add(1, Ordering::Relaxed);
                        }
                        Looked::Permit => {
                            let body: Vec<u8> = (0..BODY).map(|place| byte_at(key, place)).collect();
                            let mut fill = request.fill(&mut meta().unwrap(), None).unwrap();
                            misses.fetch_add(1, Ordering::Relaxed);
                            fill.write(&body[..1000]).unwrap();
                            match fill.finish(&body[1000..]) {
                                Ok(stored) => {
                                    assert!(stored.weight >= BODY + 512);
                                    fills.fetch_add(1, Ordering::Relaxed);
                                }
                                Err(error) => assert_eq!(error, Error::Removed),
                            }
                        }
                        Looked::Waits => {
                            let ended = request.wait(NOW).unwrap().is_some();
                            waits.fetch_add(u64::from(ended), Ordering::Relaxed);
                        }
                        Looked::Nothing => panic!("a look-up that found nothing asked for no lock"),
                    }
                    // Another thread ends what this one made.
                    let mut left = left.lock().unwrap();
                    left.push((request, view));
                    let ended = if left.len() > 8 { left.drain(..4).collect() } else { Vec::new() };
                    std::mem::drop(left);
                    std::mem::drop(ended);
                }
            });
        }
    });
    let [hits, misses, waits, fills] = counts.map(AtomicU64::into_inner);
    assert!(hits > 0 && fills > 0);
    assert_eq!(cache.counted()?, CacheCounted { hits, stale_hits: 0, misses, waits, fills });
    assert!(cache.totals()?.stored_bytes <= limit as u64);
    Ok(())
}

#[test]
fn one_of_many_fills_and_the_others_are_woken() -> Result<(), Error> {
    let cache = Cache::new(&Options::default())?;
    let fetches = AtomicUsize::new(0);
    thread::scope(|scope| {
        for _ in 0..50 {
            let (cache, fetches) = (&cache, &fetches);
            scope.spawn(move || loop {
                let mut request = cache.request(b"cold", "").unwrap();
                match request.look(Moment::now()).unwrap() {
                    Looked::Found => {
                        request.take(HitStatus::Fresh, Moment::now()).unwrap();
                        assert_eq!(read_all(&mut request).unwrap(), (b"one two three".to_vec(), true));
                        return;
                    }
                    Looked::Permit => {
                        fetches.fetch_add(1, Ordering::SeqCst);
                        let mut fill = request.fill(&mut meta().unwrap(), None).unwrap();
                        for piece in ["one ", "two "] {
                            fill.write(piece).unwrap();
                            thread::sleep(Duration::from_millis(20));
                        }
                        fill.finish("three").unwrap();
                        return;
                    }
                    _ => assert_eq!(request.wait_until(soon()).unwrap(), Some(WaitEnd::Done)),
                }
            });
        }
    });
    assert_eq!(fetches.into_inner(), 1);
    let counted = cache.counted()?;
    assert_eq!((counted.hits, counted.stale_hits, counted.misses, counted.fills), (49, 0, 1, 1));
    Ok(())
}

#[test]
fn a_wait_ends_as_the_one_that_fills_says() -> Result<(), Error> {
    let cache = Cache::new(&Options { parts: 1, ..Options::default() })?;
    for (reason, end) in [(Reason::OriginNotCache, WaitEnd::GiveUp), (Reason::UpstreamError, WaitEnd::TransientError)] {
        let mut writer = cache.request(b"key", "")?;
        let mut waiter = cache.request(b"key", "")?;
        assert_eq!(writer.look(Moment::now())?, Looked::Permit);
        assert_eq!(waiter.look(Moment::now())?, Looked::Waits);
        assert_eq!(waiter.wait_until(Instant::now() + Duration::from_millis(5))?, None);
        let waits = thread::spawn(move || waiter.wait_until(soon()));
        writer.disable(reason)?;
        assert_eq!(waits.join().expect("the waiter ended"), Ok(Some(end)));
    }
    Ok(())
}

#[test]
fn a_reader_of_a_write_that_ends_early_knows() -> Result<(), Error> {
    let cache = Cache::new(&Options::default())?;
    let mut writer = cache.request(b"key", "")?;
    assert_eq!(writer.look(NOW)?, Looked::Permit);
    writer.fill(&mut meta()?, None)?.write("half")?;
    let mut reader = cache.request(b"key", "")?;
    assert_eq!(reader.look(NOW)?, Looked::Found);
    reader.take(HitStatus::Fresh, NOW)?;
    let reads = thread::spawn(move || read_all(&mut reader));
    drop(writer);
    assert_eq!(reads.join().expect("the reader ended"), Ok((b"half".to_vec(), false)));
    Ok(())
}

#[test]
fn what_is_no_option_is_refused() {
    let of = |parts, watermark| Cache::new(&Options { parts, watermark, ..Options::default() }).err();
    assert_eq!(of(0, 0), Some(Error::BadValue));
    assert_eq!(of(4, 3), Some(Error::BadValue));
    assert_eq!(of(4, 4), None);
}

/// Fills and takes keys of one letter, of which three have room, and says which are there at the end: a capital letter is filled, and a
/// small one is taken.
fn left_by(policy: Policy, calls: &str) -> Result<String, Error> {
    let cache = Cache::new(&Options { policy, parts: 1, watermark: 3, ..Options::default() })?;
    for call in calls.chars() {
        let mut request = cache.request(call.to_ascii_lowercase().to_string().as_bytes(), "")?;
        match request.look(NOW)? {
            Looked::Found => request.take(HitStatus::Fresh, NOW)?,
            Looked::Permit => assert_eq!(request.fill(&mut meta()?, None)?.finish("body")?.evicted, usize::from(call > 'C')),
            other => panic!("{call}: {other:?}"),
        }
    }
    let mut left = String::new();
    for key in 'a'..='f' {
        if cache.request(key.to_string().as_bytes(), "")?.look(NOW)? == Looked::Found {
            left.push(key);
        }
    }
    Ok(left)
}

#[test]
fn a_cache_goes_by_its_policy() -> Result<(), Error> {
    // Two are used; then two come in. LRU lets go what was used least recently, FIFO the oldest; CLOCK and SIEVE spare the two once.
    let used = |policy| left_by(policy, "ABCbaDE");
    assert_eq!(used(Policy::Lru)?, "ade");
    assert_eq!(used(Policy::Fifo)?, "cde");
    assert_eq!(used(Policy::Clock)?, "bde");
    assert_eq!(used(Policy::Sieve)?, "bde");
    // The oldest is used; then three come in. SIEVE keeps it, since its hand is past it.
    let oldest = |policy| left_by(policy, "ABCaDEF");
    assert_eq!(oldest(Policy::Lru)?, "def");
    assert_eq!(oldest(Policy::Fifo)?, "def");
    assert_eq!(oldest(Policy::Clock)?, "def");
    assert_eq!(oldest(Policy::Sieve)?, "aef");
    Ok(())
}
