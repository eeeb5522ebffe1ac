//! Hashes, what Cache-Control says, a meta and its bytes, and an eviction manager, from Rust. It prints
//! what examples_c/values.c prints.
use pcache::{combined_hash, hash_key, Error, Hash, Head, Key, Manager, Meta, Moment, Variance};

fn at(secs: u64) -> Moment {
    Moment { secs, nanos: 0 }
}

fn hex(hash: &Hash) -> String {
    hash.iter().map(|byte| format!("{byte:02x}")).collect()
}

fn hashes() -> Result<(), Error> {
    let primary = hash_key(b"aa");
    println!("primary {}", hex(&primary));
    let mut builder = Variance::new()?;
    builder.add("accept", b"text/html")?;
    let variance = builder.finish()?.ok_or(Error::Nothing)?;
    println!("variance {}", hex(&variance));
    println!("combined {}", hex(&combined_hash(&primary, Some(&variance))?));
    let same = combined_hash(&primary, None)? == primary;
    println!("no variance: {}", if same { "the primary hash" } else { "another" });
    Ok(())
}

fn responses() -> Result<(), Error> {
    let mut head = Head::new(200)?;
    assert_eq!(head.answers()?, None);
    assert!(head.meta(false, (0, 5), at(1000))?.is_none());
    head.add("Cache-Control", b"public, max-age=60, stale-while-revalidate=10")?;
    head.add("Content-Type", b"text/html")?;
    let said = head.answers()?.ok_or(Error::Nothing)?;
    let seconds = |it: Option<u64>| format!("{}/{}", u32::from(it.is_some()), it.unwrap_or(0));
    println!(
        "cacheable {} authorized {} fresh {} while {} error {}",
        said.cacheable.map_or(2, u32::from), u32::from(said.authorized), seconds(said.fresh),
        seconds(said.stale_while_revalidate), seconds(said.stale_if_error)
    );
    let mut meta = head.meta(false, (0, 5), at(1000))?.ok_or(Error::Nothing)?;
    let says = meta.says()?;
    println!(
        "created {} fresh until {} while {} error {}",
        says.created.secs, says.fresh_until.secs, says.stale_while_revalidate, says.stale_if_error
    );
    for secs in [1059, 1065, 1100] {
        let may = meta.servable(at(secs))?;
        println!("at {secs}: fresh {} while {} error {}", u32::from(may.fresh), u32::from(may.while_revalidating), u32::from(may.after_error));
    }
    let (internal, header) = meta.write()?;
    println!("internal {} bytes, header {} bytes", internal.len(), header.len());
    println!("read back: fresh until {}", Meta::read(&internal, &header)?.says()?.fresh_until.secs);
    assert_eq!(Meta::read(&internal[..1], &header).err(), Some(Error::Unreadable));
    Ok(())
}

/// The head of a response as it came, read in one call, and its fields by name and one by one.
fn received() -> Result<(), Error> {
    let text = b"HTTP/1.1 301 Moved\r\nVary: accept\r\nLocation: /b \r\nvary: cookie\r\n\r\nbody";
    assert!(Head::read(&text[..30])?.is_none());
    assert_eq!(Head::read(b"HTTP/3").err(), Some(Error::Unreadable));
    let (mut head, taken) = Head::read(text)?.ok_or(Error::Nothing)?;
    let body = String::from_utf8_lossy(&text[taken..]);
    println!("status {}, then {body}, vary {} times", head.status()?, head.count("VARY")?);
    let last = head.value("Vary", 1)?.ok_or(Error::Nothing)?;
    println!("the last is {}", String::from_utf8_lossy(&last));
    assert_eq!(head.value("vary", 2)?, None);
    let mut fields = 0;
    while let Some((name, value)) = head.field(fields)? {
        println!("{name}: {}", String::from_utf8_lossy(&value));
        fields += 1;
    }
    Ok(())
}

fn key(name: &str, tag: &str) -> Key {
    Key { primary: hash_key(name.as_bytes()), tag: tag.to_string(), ..Key::default() }
}

fn admit(manager: &mut Manager, name: &str, tag: &str) -> Result<(), Error> {
    for gone in manager.admit(&key(name, tag), 2, at(1060))? {
        println!("{name} lets go, with tag {}, {}", gone.tag, hex(&gone.primary));
    }
    Ok(())
}

fn print_totals(manager: &mut Manager) -> Result<(), Error> {
    let now = manager.totals()?;
    println!("weight {} entries {} evicted {}/{}", now.weight, now.entries, now.evicted_weight, now.evicted_entries);
    Ok(())
}

fn managers() -> Result<(), Error> {
    let mut seed = [0; 16];
    seed[..3].copy_from_slice(&[1, 2, 3]);
    let mut manager = Manager::simple(&seed, 4, 0)?;
    admit(&mut manager, "a", "ann")?;
    admit(&mut manager, "b", "bob")?;
    println!("a was there: {}", u32::from(manager.access(&key("a", "ann"), 1, at(1060))?));
    admit(&mut manager, "c", "")?;
    print_totals(&mut manager)?;
    let file = manager.save(0)?;
    println!("file of {} bytes", file.len());
    let mut second = Manager::simple(&seed, 4, 0)?;
    assert_eq!(second.load(&file[..file.len() - 1]), Err(Error::Unreadable));
    second.load(&file)?;
    print_totals(&mut second)?;
    let c = key("c", "");
    second.remove(&c)?;
    println!("c is there: {}", u32::from(second.peek(&c)?));
    second.increment(&c, 9, 2)?;
    print_totals(&mut second)?;
    let mut sharded = Manager::sharded(&seed, 4, 0)?;
    admit(&mut sharded, "a", "")?;
    admit(&mut sharded, "b", "")?;
    print_totals(&mut sharded)?;
    Ok(())
}

fn main() -> Result<(), Error> {
    hashes()?;
    responses()?;
    received()?;
    managers()
}
