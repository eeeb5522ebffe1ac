//! What a cache takes of memory. A limit on all that is kept for a response bounds it. Where the limit counts bodies alone, heads come
//! on top, and some 500 bytes an entry; there a watermark bounds how many entries there are, so who stores no long head bounds the
//! whole. Each row is a cache in a process of its own, which is filled three times over. It ends with 1 if one takes more than 1.25
//! times what it keeps, or may keep, and 4 MiB.
use pcache::{Cache, Counts, Error, Head, Looked, Meta, Moment, Options, Said};
use std::{env, fs, process};

const LIMIT: usize = 64 << 20;
const WATERMARK: usize = 20_000;
/// What an entry takes beside its body and its head.
const ENTRY: usize = 512;
/// What does not grow with the cache.
const CONSTANT: usize = 4 << 20;
const BODIES: [usize; 3] = [0, 100, 10_000];
const HEADS: [usize; 3] = [100, 1_000, 8_000];

fn resident() -> usize {
    let status = fs::read_to_string("/proc/self/status").expect("the system tells of a process");
    let line = status.lines().find_map(|line| line.strip_prefix("VmRSS:"));
    let kilobytes = line.and_then(|line| line.trim().strip_suffix(" kB")?.parse::<usize>().ok());
    kilobytes.expect("it tells the resident memory") * 1024
}

/// A meta whose head has so many bytes.
fn meta_of(bytes: usize) -> Result<Meta, Error> {
    let said = Said { fresh_until: Moment { secs: 60, nanos: 0 }, ..Said::default() };
    let made = |padding: usize| {
        let mut head = Head::new(200)?;
        head.add("x-padding", &vec![b'a'; padding])?;
        Meta::new(&mut head, &said)
    };
    let without = made(0)?.write()?.1.len();
    made(bytes.saturating_sub(without))
}

fn fill(cache: &Cache, key: usize, meta: &mut Meta, body: &[u8]) -> Result<(), Error> {
    let mut request = cache.request(&key.to_be_bytes(), "")?;
    if request.look(Moment { secs: 1, nanos: 0 })? != Looked::Permit {
        return Err(Error::Nothing);
    }
    request.fill(meta, None)?.finish(body)?;
    Ok(())
}

fn row(counts: Counts, body: usize, head: usize) -> Result<bool, Error> {
    let (watermark, entries, heads) = match counts {
        Counts::Entries => (0, LIMIT / (body + head + ENTRY), 0),
        Counts::Bodies => (WATERMARK, WATERMARK, WATERMARK * (head + ENTRY)),
    };
    let options = Options { limit: LIMIT, counts, watermark, parts: 1, ..Options::default() };
    let (mut meta, bytes) = (meta_of(head)?, vec![7; body]);
    let before = resident();
    let cache = Cache::new(&options)?;
    for key in 0..3 * entries {
        fill(&cache, key, &mut meta, &bytes)?;
    }
    let (totals, taken) = (cache.totals()?, resident() - before);
    let kept = totals.stored_bytes as usize + totals.bodies * (head + ENTRY);
    let most = 5 * (LIMIT + heads) / 4 + CONSTANT;
    println!(
        "limit on {counts:?}, bodies of {body}, heads of {head}: {} entries, bytes of bodies {}, resident {taken}, by what is kept {:.2}, at most {most}",
        totals.bodies,
        totals.stored_bytes,
        taken as f64 / kept as f64
    );
    Ok(taken <= most && taken <= 5 * kept / 4 + CONSTANT)
}

fn main() {
    let words: Vec<usize> = env::args().skip(1).filter_map(|word| word.parse().ok()).collect();
    if let [counts, body, head] = words[..] {
        let counts = if counts == 0 { Counts::Bodies } else { Counts::Entries };
        process::exit(i32::from(row(counts, body, head) != Ok(true)));
    }
    let mut bounded = true;
    for counts in 0..2 {
        for (body, head) in BODIES.iter().flat_map(|body| HEADS.iter().map(move |head| (body, head))) {
            let program = env::current_exe().expect("the program has a path");
            let ended = process::Command::new(program).args([counts, *body, *head].map(|word| word.to_string())).status();
            bounded &= ended.expect("the program starts").success();
        }
    }
    process::exit(i32::from(!bounded));
}
