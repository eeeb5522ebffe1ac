//! A cache from Rust: a fill, a hit, a wait with a body that is read while it comes, a purge and an eviction. It prints what
//! examples_c/cache.c prints.
use pcache::{Cache, CacheCounted, Counts, Error, Fill, Hash, Head, Held, HitStatus, Looked, Meta, Moment, Options, Read, Reason, Request, Said, Stored, View, WaitEnd};
use std::time::Duration;

const NOW: Moment = Moment { secs: 1, nanos: 0 };

fn number_of(held: Held) -> u32 {
    match held {
        Held::Nothing => 0,
        Held::Permit => 1,
        Held::ReadLock => 2,
    }
}

fn found_of(looked: Looked) -> u32 {
    u32::from(looked == Looked::Found)
}

/// The header's number of how a wait ended.
fn number_of_end(end: Option<WaitEnd>) -> u32 {
    match end {
        None => 0,
        Some(WaitEnd::Done) => 1,
        Some(WaitEnd::WaitTimeout) => 4,
        Some(WaitEnd::Abandoned) => 7,
        Some(_) => 9,
    }
}

/// Begins a write of a response that is fresh until second 60, with a variance or none.
fn begin_with<'a>(request: &'a mut Request, variance: Option<&Hash>) -> Result<Fill<'a>, Error> {
    let said = Said { fresh_until: Moment { secs: 60, nanos: 0 }, ..Said::default() };
    let mut meta = Meta::new(&mut Head::new(200)?, &said)?;
    request.fill(&mut meta, variance)
}

fn begin(request: &mut Request) -> Result<Fill<'_>, Error> {
    begin_with(request, None)
}

fn print_stored(stored: Stored) {
    println!("stored {} evicted {}", stored.weight, stored.evicted);
}

fn fill(cache: &Cache, key: &str, body: &[u8]) -> Result<(), Error> {
    let mut request = cache.request(key.as_bytes(), "1")?;
    let found = found_of(request.look(NOW)?);
    print!("{key}: found {found} held {}, ", number_of(request.held()?));
    print_stored(begin(&mut request)?.finish(body)?);
    Ok(())
}

fn worth(is_fresh: bool) -> HitStatus {
    if is_fresh { HitStatus::Fresh } else { HitStatus::Expired }
}

/// Reads into a buffer of two bytes, and prints what came: `-` for nothing yet, `.` at the end, `!` where the body was cut off.
fn read_once(request: &mut Request) -> Result<(), Error> {
    let mut buffer = [0; 2];
    match request.read(&mut buffer)? {
        Read::Bytes(len) => print!("{}", String::from_utf8_lossy(&buffer[..len])),
        Read::End => print!("."),
        Read::CutOff => print!("!"),
        Read::NotYet => print!("-"),
    }
    Ok(())
}

fn hit(cache: &Cache, key: &str) -> Result<(), Error> {
    let mut request = cache.request(key.as_bytes(), "1")?;
    if request.look(NOW)? != Looked::Found {
        println!("{key}: nothing");
        return Ok(());
    }
    let servable = request.meta()?.servable(NOW)?;
    request.take(worth(servable.fresh), NOW)?;
    print!("{key}: fresh {} phase {} ", u32::from(servable.fresh), request.phase()? as u32);
    for _ in 0..3 {
        read_once(&mut request)?;
    }
    println!();
    request.finish_hit()
}

/// Two requests for one key: one writes, the other waits, and reads along.
fn wait_and_read(cache: &Cache) -> Result<(), Error> {
    let mut writer = cache.request(b"bb", "1")?;
    let mut waiter = cache.request(b"bb", "1")?;
    assert_eq!(writer.look(NOW)?, Looked::Permit);
    assert_eq!(waiter.look(NOW)?, Looked::Waits);
    print!("held {} and {}, ", number_of(writer.held()?), number_of(waiter.held()?));
    print!("wait {} ", number_of_end(waiter.wait(NOW)?));
    let mut fill = begin(&mut writer)?;
    println!("then {}", number_of_end(waiter.wait(NOW)?));
    print!("found {}, ", found_of(waiter.look(NOW)?));
    waiter.take(HitStatus::Fresh, NOW)?;
    read_once(&mut waiter)?;
    fill.write(b"he")?;
    read_once(&mut waiter)?;
    read_once(&mut waiter)?;
    let stored = fill.finish(b"y")?;
    read_once(&mut waiter)?;
    read_once(&mut waiter)?;
    print!(" ");
    print_stored(stored);
    Ok(())
}

/// A request that reads a stale body while another renews it, and then the new one: nothing of the older body is left.
fn stale_then_fresh(cache: &Cache) -> Result<(), Error> {
    let mut writer = cache.request(b"ee", "1")?;
    let mut reader = cache.request(b"ee", "1")?;
    assert_eq!(writer.look(NOW)?, Looked::Found);
    writer.take(HitStatus::Expired, NOW)?;
    assert_eq!(reader.look(NOW)?, Looked::Found);
    reader.take(HitStatus::Expired, NOW)?;
    print!("held {} and {}, ", number_of(writer.held()?), number_of(reader.held()?));
    read_once(&mut reader)?;
    print!(" ");
    print_stored(begin(&mut writer)?.finish(b"xyz")?);
    let outcome = number_of_end(reader.wait(NOW)?);
    print!("wait {outcome} found {}, ", found_of(reader.look(NOW)?));
    reader.take(HitStatus::Fresh, NOW)?;
    for _ in 0..3 {
        read_once(&mut reader)?;
    }
    println!();
    Ok(())
}

/// A body whose writer gives up half way: who reads along gets what was written, and knows that it was cut off.
fn cut_off(cache: &Cache) -> Result<(), Error> {
    let mut writer = cache.request(b"ff", "1")?;
    let mut reader = cache.request(b"ff", "1")?;
    assert_eq!(writer.look(NOW)?, Looked::Permit);
    let mut fill = begin(&mut writer)?;
    print!("found {}, ", found_of(reader.look(NOW)?));
    reader.take(HitStatus::Fresh, NOW)?;
    fill.write(b"ab")?;
    read_once(&mut reader)?;
    assert_eq!(reader.body_length()?, None);
    assert_eq!(reader.seek(0, Some(1)), Err(Error::BadValue));
    drop(writer);
    read_once(&mut reader)?;
    println!();
    Ok(())
}

fn viewed(read: Read<View>) -> Result<View, Error> {
    match read {
        Read::Bytes(view) => Ok(view),
        _ => Err(Error::Nothing),
    }
}

/// The length of a body before it is read, and the body and a range of it without a copy. The views are good after the request
/// has ended and the body was purged.
fn without_a_copy(cache: &Cache) -> Result<(), Error> {
    let mut request = cache.request(b"ee", "1")?;
    assert_eq!(request.look(NOW)?, Looked::Found);
    request.take(HitStatus::Fresh, NOW)?;
    let length = request.body_length()?.unwrap_or(0);
    let body = viewed(request.view()?)?;
    print!("length {length}: {} ", String::from_utf8_lossy(&body));
    let end = match request.view()? {
        Read::End => 0,
        _ => 9,
    };
    print!("then {end}, ");
    assert_eq!(request.seek(3, Some(3)), Err(Error::BadValue));
    request.seek(1, None)?;
    let part = viewed(request.view()?)?;
    drop(request);
    println!("from 1: {}", String::from_utf8_lossy(&part));
    purge(cache, "ee")?;
    println!("still {} and {}", String::from_utf8_lossy(&body), String::from_utf8_lossy(&part));
    Ok(())
}

/// What the calls were, of those that were done.
fn print_counted(cache: &Cache) -> Result<(), Error> {
    let CacheCounted { hits, stale_hits, misses, waits, fills } = cache.counted()?;
    println!("{hits} hits, {stale_hits} stale, {misses} misses, {waits} waits, {fills} fills");
    Ok(())
}

/// Two variants of one key, told apart by a hash of what a request says in the fields of Vary.
fn variants(cache: &Cache) -> Result<(), Error> {
    let (english, german) = (pcache::hash_key(b"en"), pcache::hash_key(b"de"));
    let mut first = cache.request(b"ff", "1")?;
    assert_eq!(first.look(NOW)?, Looked::Permit);
    print!("english: ");
    print_stored(begin_with(&mut first, Some(&english))?.finish(b"hey")?);
    drop(first);
    let mut other = cache.request(b"ff", "1")?;
    assert_eq!(other.look_for(&german), Err(Error::Nothing));
    assert_eq!(other.look(NOW)?, Looked::Found);
    print!("german: same {}, ", u32::from(other.look_for(&german)?));
    let found = found_of(other.look(NOW)?);
    print!("found {found} held {}, ", number_of(other.held()?));
    print_stored(begin_with(&mut other, Some(&german))?.finish(b"hi")?);
    drop(other);
    for wanted in [english, german] {
        let mut again = cache.request(b"ff", "1")?;
        let mut found = found_of(again.look(NOW)?);
        let same = again.look_for(&wanted)?;
        if !same {
            found = found_of(again.look(NOW)?);
        }
        print!("found {found} same {}: ", u32::from(same));
        again.take(HitStatus::Fresh, NOW)?;
        read_once(&mut again)?;
        read_once(&mut again)?;
        println!();
    }
    Ok(())
}

/// A stale body is served while another request renews it, and with the head of an answer that is not stored.
fn served_on(cache: &Cache) -> Result<(), Error> {
    let (mut renewing, mut serving) = (cache.request(b"ff", "1")?, cache.request(b"ff", "1")?);
    serving.limit_waits(Duration::from_millis(500))?;
    assert_eq!((renewing.look(NOW)?, serving.look(NOW)?), (Looked::Found, Looked::Found));
    assert_eq!(serving.serve_updating(), Err(Error::WrongCall));
    renewing.take(HitStatus::Expired, NOW)?;
    serving.take(HitStatus::Expired, NOW)?;
    print!("held {} and {}, ", number_of(renewing.held()?), number_of(serving.held()?));
    assert_eq!(serving.limit_waits(Duration::from_millis(500)), Err(Error::WrongCall));
    let later = Moment { nanos: 500_000_000, ..NOW };
    print!("wait {} and {}", number_of_end(serving.wait(NOW)?), number_of_end(serving.wait(later)?));
    assert_eq!(renewing.waited()?, None);
    let waited = serving.waited()?.unwrap_or_default();
    print!(" after {}.{:09} s, ", waited.as_secs(), waited.subsec_nanos());
    serving.serve_updating()?;
    print!("phase {} ", serving.phase()? as u32);
    read_once(&mut serving)?;
    renewing.serve_on(&mut Head::new(304)?, Reason::OriginNotCache)?;
    println!(" and {} held {}", renewing.phase()? as u32, number_of(renewing.held()?));
    Ok(())
}

fn purge(cache: &Cache, key: &str) -> Result<(), Error> {
    let was = cache.request(key.as_bytes(), "1")?.purge()?;
    println!("purge {key}: {}", u32::from(was));
    Ok(())
}

fn print_totals(cache: &Cache) -> Result<(), Error> {
    let totals = cache.totals()?;
    println!(
        "{} bytes of {} bodies, {} of {} tracked, {} of {} evicted",
        totals.stored_bytes, totals.bodies, totals.weight, totals.entries, totals.evicted_weight, totals.evicted_entries
    );
    Ok(())
}

/// A request hands its permit to another one for the same key, and ends; that one fills the key.
fn handed_on(cache: &Cache) -> Result<(), Error> {
    let mut first = cache.request(b"gg", "1")?;
    let mut second = cache.request(b"gg", "1")?;
    let mut waiter = cache.request(b"gg", "1")?;
    assert_eq!(first.look(NOW)?, Looked::Permit);
    assert_eq!(waiter.look(NOW)?, Looked::Waits);
    print!("held {} and {}, ", number_of(first.held()?), number_of(second.held()?));
    first.hand_permit(&mut second)?;
    print!("then {} and {}, ", number_of(first.held()?), number_of(second.held()?));
    assert_eq!(first.hand_permit(&mut second), Err(Error::WrongCall));
    drop(first);
    print!("wait {} ", number_of_end(waiter.wait(NOW)?));
    let fill = begin(&mut second)?;
    print!("then {}, ", number_of_end(waiter.wait(NOW)?));
    print_stored(fill.finish(b"new")?);
    Ok(())
}

/// A request that cannot use a fill waits no longer once the one that fills it says which it is. Another one waits on.
fn published(cache: &Cache) -> Result<(), Error> {
    let mut writer = cache.request(b"hh", "1")?;
    let mut other = cache.request(b"hh", "1")?;
    let mut picky = cache.request_with_unusable(b"hh", "1", &[206, 501])?;
    assert_eq!(writer.look(NOW)?, Looked::Permit);
    assert_eq!((other.look(NOW)?, picky.look(NOW)?), (Looked::Waits, Looked::Waits));
    assert_eq!(picky.publish(&[501]), Err(Error::Nothing));
    print!("wait {}, ", number_of_end(picky.wait(NOW)?));
    assert_eq!(picky.abandoned()?, None);
    writer.publish(&[501])?;
    print!("published: wait {}", number_of_end(other.wait(NOW)?));
    let outcome = number_of_end(picky.wait(NOW)?);
    println!(" and {outcome} for {} held {}", picky.abandoned()?.unwrap_or(0), number_of(picky.held()?));
    Ok(())
}

/// A response that is too large is not stored, as its request finds while it comes.
fn too_large(cache: &Cache) -> Result<(), Error> {
    let mut request = cache.request(b"hh", "1")?;
    request.limit_body(4)?;
    request.limit_head(10)?;
    assert_eq!(request.look(NOW)?, Looked::Permit);
    print!("head {} ", u32::from(request.exceeds_head()?));
    let mut fill = begin(&mut request)?;
    print!("then {}, ", u32::from(fill.exceeds_head()?));
    print!("body {} ", u32::from(fill.count_body(4)?));
    print!("then {}, ", u32::from(fill.count_body(1)?));
    request.disable(Reason::ResponseTooLarge)?;
    assert_eq!(request.limit_body(4), Err(Error::WrongCall));
    assert_eq!(request.limit_head(4), Err(Error::WrongCall));
    drop(request);
    hit(cache, "hh")
}

/// A stale body is confirmed: it is renewed where it still stands, and nothing is where it was removed meanwhile.
fn confirmed(cache: &Cache) -> Result<(), Error> {
    for is_removed in [false, true] {
        let mut request = cache.request(b"gg", "1")?;
        assert_eq!(request.look(NOW)?, Looked::Found);
        request.take(HitStatus::Expired, NOW)?;
        let mut meta = request.meta()?;
        if is_removed {
            purge(cache, "gg")?;
        }
        print!("renewed {} ", u32::from(request.renew(&mut meta)?));
        read_once(&mut request)?;
        println!();
    }
    Ok(())
}

/// What may not be called is refused.
fn refused(cache: &Cache) -> Result<(), Error> {
    let mut request = cache.request(b"aa", "1")?;
    assert_eq!(request.finish_hit(), Err(Error::WrongCall));
    assert_eq!(request.read(&mut [0]), Err(Error::WrongCall));
    assert_eq!(request.seek(0, Some(1)), Err(Error::WrongCall));
    assert_eq!(request.take(HitStatus::Fresh, NOW), Err(Error::Nothing));
    println!("refused what may not be called");
    Ok(())
}

fn main() -> Result<(), Error> {
    let options = Options { limit: 6, counts: Counts::Bodies, parts: 1, seed: Some([7; 16]), age_timeout: Duration::from_secs(10), ..Options::default() };
    let cache = Cache::new(&options)?;
    fill(&cache, "aa", b"hi")?;
    hit(&cache, "aa")?;
    wait_and_read(&cache)?;
    hit(&cache, "bb")?;
    print_totals(&cache)?;
    fill(&cache, "cc", b"no")?;
    print_totals(&cache)?;
    hit(&cache, "aa")?;
    purge(&cache, "bb")?;
    purge(&cache, "bb")?;
    hit(&cache, "bb")?;
    print_totals(&cache)?;
    fill(&cache, "ee", b"abc")?;
    stale_then_fresh(&cache)?;
    cut_off(&cache)?;
    without_a_copy(&cache)?;
    variants(&cache)?;
    served_on(&cache)?;
    handed_on(&cache)?;
    confirmed(&cache)?;
    published(&cache)?;
    too_large(&cache)?;
    refused(&cache)?;
    print_counted(&cache)?;
    assert_eq!(cache.request(b"dd", "1")?.look(NOW)?, Looked::Permit);
    Ok(())
}
