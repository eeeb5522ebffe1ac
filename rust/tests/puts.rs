//! Responses that are pushed in, in pieces.

use pcache::{Cache, Error, HitStatus, Looked, Moment, Options, PutOptions, Read, Stored};

const NOW: Moment = Moment { secs: 1_000, nanos: 0 };

fn cache() -> Result<Cache, Error> {
    Cache::new(&Options { limit: 1 << 20, parts: 1, ..Options::default() })
}

/// Pushes these pieces in.
fn put(cache: &Cache, options: &PutOptions, pieces: &[&[u8]]) -> Result<Option<Stored>, Error> {
    let mut put = cache.put(b"key", "", options)?;
    for piece in pieces {
        put.feed(piece, NOW)?;
    }
    put.finish()
}

/// The body that is found under the key, if there is one.
fn found(cache: &Cache) -> Result<Option<Vec<u8>>, Error> {
    let mut request = cache.request(b"key", "")?;
    if request.look(NOW)? != Looked::Found {
        return Ok(None);
    }
    assert!(request.meta()?.servable(NOW)?.fresh);
    request.take(HitStatus::Fresh, NOW)?;
    let mut all = Vec::new();
    loop {
        match request.view()? {
            Read::Bytes(view) => all.extend_from_slice(&view),
            Read::End => return Ok(Some(all)),
            Read::NotYet | Read::CutOff => panic!("a stored body is cut off"),
        }
    }
}

#[test]
fn a_response_is_stored_however_it_is_cut() -> Result<(), Error> {
    let whole = b"\r\n\nHTTP/1.1 200 OK\r\nCache-Control: max-age=9\r\nContent-Length: 5\r\n\r\nbread and butter";
    for cut in 0..=whole.len() {
        let cache = cache()?;
        assert_eq!(put(&cache, &PutOptions::default(), &[&whole[..cut], &whole[cut..]])?.map(|it| it.evicted), Some(0));
        assert_eq!(found(&cache)?, Some(b"bread".to_vec()), "cut at {cut}");
    }
    let cache = cache()?;
    let each: Vec<&[u8]> = whole.chunks(1).collect();
    put(&cache, &PutOptions::default(), &each)?;
    assert_eq!(found(&cache)?, Some(b"bread".to_vec()));
    Ok(())
}

#[test]
fn a_body_without_a_length_lasts_to_the_end() -> Result<(), Error> {
    for head in ["", "Content-Length: many\n", "Content-Length: 99999999999999999999\n"] {
        let cache = cache()?;
        let bytes = format!("HTTP/1.0 200 OK\nCache-Control: max-age=9\n{head}\nbread");
        put(&cache, &PutOptions::default(), &[bytes.as_bytes(), b" and", b" butter"])?;
        assert_eq!(found(&cache)?, Some(b"bread and butter".to_vec()));
    }
    Ok(())
}

#[test]
fn a_response_may_have_no_body() -> Result<(), Error> {
    for head in ["200 OK\r\nContent-Length: +0\r\n", "204 No Content\r\nContent-Length: 5\r\n"] {
        let cache = cache()?;
        let bytes = format!("HTTP/1.1 {head}Cache-Control: max-age=9\r\n\r\nbread");
        put(&cache, &PutOptions::default(), &[bytes.as_bytes()])?;
        assert_eq!(found(&cache)?, Some(Vec::new()));
    }
    Ok(())
}

#[test]
fn a_response_that_is_not_to_be_stored_is_not() -> Result<(), Error> {
    for head in ["Cache-Control: no-store", "Age: 1", "Cache-Control: max-age=9\r\nContent-Length: 6"] {
        let cache = cache()?;
        let options = PutOptions { most_body: Some(5), ..PutOptions::default() };
        let mut put = cache.put(b"key", "", &options)?;
        assert!(!put.feed(format!("HTTP/1.1 200 OK\r\n{head}\r\n\r\nbre"), NOW)?);
        assert!(!put.feed("ad and butter", NOW)?);
        assert_eq!(put.finish()?, None);
        assert_eq!(found(&cache)?, None);
    }
    Ok(())
}

#[test]
fn a_response_that_ends_early_is_not_stored() -> Result<(), Error> {
    let whole = b"HTTP/1.1 200 OK\r\nCache-Control: max-age=9\r\nContent-Length: 5\r\n\r\nbread";
    for end in 0..whole.len() {
        let cache = cache()?;
        assert_eq!(put(&cache, &PutOptions::default(), &[&whole[..end]]), Err(Error::Incomplete), "end at {end}");
        assert_eq!(found(&cache)?, None);
        assert_eq!(cache.totals()?.stored_bytes, 0);
    }
    Ok(())
}

#[test]
fn a_failure_stays() -> Result<(), Error> {
    let cache = cache()?;
    let options = PutOptions { most_body: Some(5), ..PutOptions::default() };
    let mut longer = cache.put(b"key", "", &options)?;
    assert!(longer.feed("HTTP/1.1 200 OK\r\nCache-Control: max-age=9\r\n\r\nbread", NOW)?);
    assert_eq!(longer.feed("s", NOW), Err(Error::TooLarge));
    assert_eq!(longer.feed("", NOW), Err(Error::TooLarge));
    assert_eq!(longer.finish(), Err(Error::TooLarge));
    let mut other = cache.put(b"key", "", &options)?;
    assert_eq!(other.feed("SMTP\n\n", NOW), Err(Error::Unreadable));
    assert_eq!(other.finish(), Err(Error::Unreadable));
    let mut purged = cache.put(b"key", "", &options)?;
    assert!(purged.feed("HTTP/1.1 200 OK\r\nCache-Control: max-age=9\r\n\r\nb", NOW)?);
    assert!(cache.request(b"key", "")?.purge()?);
    assert_eq!(purged.finish(), Err(Error::Removed));
    assert_eq!(found(&cache)?, None);
    Ok(())
}

#[test]
fn a_put_that_is_dropped_stores_nothing() -> Result<(), Error> {
    let cache = cache()?;
    let mut dropped = cache.put(b"key", "", &PutOptions::default())?;
    assert!(dropped.feed("HTTP/1.1 200 OK\r\nCache-Control: max-age=9\r\n\r\nbread", NOW)?);
    drop(dropped);
    assert_eq!(found(&cache)?, None);
    Ok(())
}
