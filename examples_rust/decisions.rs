//! What HTTP's rules of caching decide of requests and responses, from Rust. It prints what examples_c/decisions.c prints.
use pcache::{Answer, Asked, Decision, Error, Head, Meta, Moment, Outcome, Terms};

fn at(now: u64) -> Terms {
    Terms { requested: Moment { secs: 1000, nanos: 0 }, ..Terms::at(Moment { secs: now, nanos: 0 }) }
}

fn ask(method: &str, field: Option<(&str, &str)>) -> Result<Asked, Error> {
    let mut asked = Asked::new(method, b"/news")?;
    if let Some((name, value)) = field {
        asked.add(name, value.as_bytes())?;
    }
    Ok(asked)
}

fn answer(status: u16, fields: &[(&str, &str)]) -> Result<Head, Error> {
    let mut head = Head::new(status)?;
    for (name, value) in fields {
        head.add(name, value.as_bytes())?;
    }
    Ok(head)
}

fn number(decision: Decision) -> u32 {
    match decision {
        Decision::Serve(..) => 0,
        Decision::Validate => 1,
        Decision::Fetch => 2,
        Decision::OnlyIfCached => 3,
    }
}

fn stored(what: &str, now: u64, meta: &mut Meta, original: Option<&mut Asked>, field: Option<(&str, &str)>) -> Result<(), Error> {
    let decision = ask("GET", field)?.decide_stored(&at(now), meta, original)?;
    let (reuse, gets, age) = match decision {
        Decision::Serve(reuse, gets, age) => (reuse as u32, gets as u32, age),
        _ => (0, 0, 0),
    };
    println!("{what}: does {} reuse {reuse} answer {gets} age {age}", number(decision));
    Ok(())
}

/// Prints an outcome, and returns the meta of what is kept.
fn tell(what: &str, outcome: Outcome) -> Result<Option<Meta>, Error> {
    let (does, reason, gets, age, kept) = match outcome {
        Outcome::Store(meta) => (0, 0, Answer::Full, 0, Some(meta)),
        Outcome::Freshen(meta, is_stored, gets) => (1, u32::from(!is_stored), gets, 0, Some(meta)),
        Outcome::FetchAgain => (2, 0, Answer::Full, 0, None),
        Outcome::ServeStale(gets, age) => (3, 0, gets, age, None),
        Outcome::Update(meta) => (4, 0, Answer::Full, 0, Some(meta)),
        Outcome::MarkStale => (5, 0, Answer::Full, 0, None),
        Outcome::Invalidate => (6, 0, Answer::Full, 0, None),
        Outcome::PassOn(reason) => (7, reason as u32, Answer::Full, 0, None),
    };
    print!("{what}: does {does} reason {reason} answer {} age {age}", gets as u32);
    let mut kept = kept;
    if let Some(meta) = &mut kept {
        print!(", fresh until {}", meta.says()?.fresh_until.secs);
    }
    println!();
    Ok(kept)
}

fn main() -> Result<(), Error> {
    println!("nothing stored: does {}", number(ask("GET", None)?.decide_missing()?));
    println!("only-if-cached: does {}", number(ask("GET", Some(("Cache-Control", "only-if-cached")))?.decide_missing()?));

    let fields = [("Cache-Control", "max-age=60, stale-if-error=30"), ("ETag", "\"1\""), ("Vary", "Accept-Language"), ("Connection", "x-hop"), ("X-Hop", "1")];
    let outcome = ask("GET", None)?.decide_fetched(&at(1000), &mut answer(200, &fields)?)?;
    let meta = &mut tell("a 200", outcome)?.ok_or(Error::Nothing)?;
    println!("its hop is stored: {}", u32::from(meta.head()?.1.iter().any(|(name, _)| name == "x-hop")));

    stored("at 1020", 1020, meta, None, None)?;
    stored("if none match", 1020, meta, None, Some(("If-None-Match", "W/\"1\"")))?;
    stored("at 1060", 1060, meta, None, None)?;
    let mut original = ask("GET", Some(("Accept-Language", "en")))?;
    stored("in German", 1020, meta, Some(&mut original), Some(("Accept-Language", "de")))?;
    stored("in English", 1020, meta, Some(&mut original), Some(("Accept-Language", "en")))?;
    let (tag, since) = meta.validators()?;
    println!("validators {} and {} bytes", String::from_utf8_lossy(&tag), since.len());

    let mut asked = ask("GET", None)?;
    let same = [("ETag", "\"1\""), ("Cache-Control", "max-age=100")];
    for (what, status, fields) in [
        ("a 304", 304, &same[..]),
        ("another 304", 304, &[("ETag", "\"2\"")]),
        ("a 503", 503, &[]),
        ("a 200 for one user", 200, &[("Cache-Control", "private")]),
    ] {
        tell(what, asked.decide_validated(&at(1061), meta, None, &mut answer(status, fields)?)?)?;
    }
    for now in [1061, 1200] {
        match asked.decide_failed(&at(now), meta, None)? {
            Some((gets, age)) => tell(&format!("no answer at {now}"), Outcome::ServeStale(gets, age)).map(|_| ())?,
            None => println!("no answer at {now}: nothing"),
        }
    }
    let mut post = ask("POST", None)?;
    tell("a POST", post.decide_fetched(&at(1000), &mut answer(200, &[])?)?)?;
    let mut created = answer(201, &[("Location", "/news/7"), ("Content-Location", "http://other.example/news")])?;
    assert_eq!(created.taken_away(b"/news"), Err(Error::BadValue));
    let (location, content) = created.taken_away(b"http://example.org/news")?;
    println!("it takes away {} and {} bytes", String::from_utf8_lossy(&location), content.len());
    tell("a POST in vain", post.decide_fetched(&at(1000), &mut answer(404, &[])?)?)?;
    assert_eq!(Asked::new("G T", b"/").err(), Some(Error::BadValue));
    Ok(())
}
