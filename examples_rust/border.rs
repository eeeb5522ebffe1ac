//! What a call over the border takes: an access of an entry that is there, and an admission of one that
//! is there, over a thousand entries; and what all calls of a hit take together, over as many bodies. The least of several runs, in
//! nanoseconds.
use pcache::{hash_key, Cache, Error, Head, HitStatus, Key, Looked, Manager, Meta, Moment, Options, Read, Said};
use std::time::Instant;

const ENTRIES: usize = 1000;
const CALLS: usize = 200_000;
const RUNS: usize = 9;

fn least(mut call: impl FnMut(usize)) -> f64 {
    let mut best = f64::INFINITY;
    for _ in 0..RUNS {
        let start = Instant::now();
        for i in 0..CALLS {
            call(i);
        }
        best = best.min(start.elapsed().as_nanos() as f64 / CALLS as f64);
    }
    best
}

const NOW: Moment = Moment { secs: 1, nanos: 0 };
const UNTIL: Moment = Moment { secs: 60, nanos: 0 };

/// Stores a body of 1 KB under a key, fresh until second 60.
fn fill(cache: &Cache, key: &[u8]) -> Result<(), Error> {
    let mut head = Head::new(200)?;
    head.add("content-type", b"text/plain")?;
    let mut meta = Meta::new(&mut head, &Said { fresh_until: UNTIL, ..Said::default() })?;
    let mut request = cache.request(key, "1")?;
    assert_eq!(request.look(NOW)?, Looked::Permit);
    request.fill(&mut meta, None)?.finish(&[7; 1024])?;
    Ok(())
}

/// A hit from its opening to its end: its look-up, a copy of the meta, whether that is fresh, its taking, and its body without a copy.
fn hit(cache: &Cache, key: &[u8]) -> Result<(), Error> {
    let mut request = cache.request(key, "1")?;
    assert_eq!(request.look(NOW)?, Looked::Found);
    assert!(request.meta()?.servable(NOW)?.fresh);
    request.take(HitStatus::Fresh, NOW)?;
    while let Read::Bytes(_) = request.view()? {}
    request.finish_hit()
}

/// The nanoseconds of a whole hit.
fn whole_hit() -> Result<f64, Error> {
    let keys: Vec<[u8; 8]> = (0..ENTRIES).map(|i| i.to_le_bytes()).collect();
    let cache = Cache::new(&Options { parts: 1, seed: Some([7; 16]), ..Options::default() })?;
    for key in &keys {
        fill(&cache, key)?;
    }
    Ok(least(|i| hit(&cache, &keys[i * 7 % ENTRIES]).expect("a hit")))
}

fn main() -> Result<(), Error> {
    let keys: Vec<Key> = (0..ENTRIES)
        .map(|i| Key { primary: hash_key(&i.to_le_bytes()), ..Key::default() })
        .collect();
    let until = UNTIL;
    let mut manager = Manager::simple(&[7; 16], usize::MAX, 0)?;
    for key in &keys {
        manager.admit(key, 1, until)?;
    }
    let totals = least(|_| {
        assert!(manager.totals().is_ok());
    });
    let hit = least(|i| assert!(manager.access(&keys[i * 7 % ENTRIES], 1, until) == Ok(true)));
    let peek = least(|i| assert!(manager.peek(&keys[i * 7 % ENTRIES]) == Ok(true)));
    let again = least(|i| assert!(manager.admit(&keys[i * 7 % ENTRIES], 1, until).is_ok()));
    println!("totals {totals:.1} ns, peek {peek:.1} ns, hit {hit:.1} ns, admission {again:.1} ns (with the call for what was evicted)");
    println!("a whole hit {:.0} ns", whole_hit()?);
    Ok(())
}
