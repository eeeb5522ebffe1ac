//! The messages of HTTP/1.1, read strictly (RFC 9112): what two readers could understand differently is refused.

use std::io::{self, BufRead, ErrorKind, Read as _};
use std::time::{SystemTime, UNIX_EPOCH};

const MOST_HEAD: usize = 32 << 10;
const MOST_FIELDS: usize = 100;
const MOST_CHUNK_LINE: usize = 256;
/// What belongs to a connection, and is not sent on (RFC 9110, 7.6.1).
const OF_A_CONNECTION: [&str; 9] =
    ["connection", "keep-alive", "proxy-authenticate", "proxy-authorization", "proxy-connection", "te", "trailer", "transfer-encoding", "upgrade"];

/// Names in lower case, with their values.
pub type Fields = Vec<(String, Vec<u8>)>;

/// Why there is no message.
#[derive(Debug)]
pub enum Fault {
    /// The connection ended, or took too long.
    Gone(io::Error),
    /// The message is answered with this status; or, if it is an origin's, with 502.
    Refused(u16),
}

impl Fault {
    /// With which status a client is told, if its connection is still there.
    pub fn status(&self) -> io::Result<u16> {
        match self {
            Fault::Refused(status) => Ok(*status),
            Fault::Gone(error) if matches!(error.kind(), ErrorKind::TimedOut | ErrorKind::WouldBlock) => Ok(408),
            Fault::Gone(error) => Err(error.kind().into()),
        }
    }
}

impl From<io::Error> for Fault {
    fn from(error: io::Error) -> Fault {
        Fault::Gone(error)
    }
}

/// The number that these digits are.
pub fn number(digits: &[u8], radix: u32) -> Option<u64> {
    let text = std::str::from_utf8(digits).ok().filter(|it| it.chars().all(|digit| digit.is_digit(radix)))?;
    u64::from_str_radix(text, radix).ok()
}

/// A field with this value.
pub fn with(name: &str, value: impl ToString) -> (String, Vec<u8>) {
    (name.to_string(), value.to_string().into_bytes())
}

/// The values of all fields of a name.
pub fn values<'f>(fields: &'f Fields, name: &'f str) -> impl Iterator<Item = &'f [u8]> {
    fields.iter().filter(move |(it, _)| it == name).map(|(_, value)| &value[..])
}

/// The first value of a field, as text.
pub fn field<'f>(fields: &'f Fields, name: &'f str) -> Option<&'f str> {
    values(fields, name).next().and_then(|it| std::str::from_utf8(it).ok())
}

/// The members of a list, of all fields of a name, in lower case.
pub fn members(fields: &Fields, name: &str) -> Vec<String> {
    let texts = values(fields, name).map(|it| String::from_utf8_lossy(it).to_ascii_lowercase());
    texts.flat_map(|it| it.split(',').map(|word| word.trim().to_string()).collect::<Vec<_>>()).filter(|it| !it.is_empty()).collect()
}

/// The fields without those of the connection, and of what it names.
pub fn end_to_end(mut fields: Fields) -> Fields {
    let named = members(&fields, "connection");
    fields.retain(|(name, _)| !OF_A_CONNECTION.contains(&&name[..]) && (name == "host" || !named.contains(name)));
    fields
}

/// The bytes of a head.
pub fn head_of<'f>(first: &str, fields: impl Iterator<Item = &'f (String, Vec<u8>)>) -> Vec<u8> {
    let lines: Vec<[&[u8]; 4]> = fields.map(|(name, value)| [b"\r\n", name.as_bytes(), b": ", value]).collect();
    [first.as_bytes(), &lines.concat().concat(), b"\r\n\r\n"].concat()
}

/// Seconds since 1970 as a date (RFC 9110, 5.6.7), or as one by ISO 8601.
pub fn date_of(secs: u64, is_iso: bool) -> String {
    const MONTHS: [&str; 12] = ["Jan", "Feb", "Mar", "Apr", "May", "Jun", "Jul", "Aug", "Sep", "Oct", "Nov", "Dec"];
    let (days, hour, minute, second) = (secs / 86_400, secs / 3600 % 24, secs / 60 % 60, secs % 60);
    let is_leap = |year: u64| year % 4 == 0 && (year % 100 != 0 || year % 400 == 0);
    let (mut day, mut year, mut month) = (days, 1970, 0);
    while day >= 365 + u64::from(is_leap(year)) {
        day -= 365 + u64::from(is_leap(year));
        year += 1;
    }
    let lengths = [31, 28 + u64::from(is_leap(year)), 31, 30, 31, 30, 31, 31, 30, 31, 30, 31];
    while day >= lengths[month] {
        day -= lengths[month];
        month += 1;
    }
    if is_iso {
        return format!("{year}-{:02}-{:02}T{hour:02}:{minute:02}:{second:02}Z", month + 1, day + 1);
    }
    let weekday = ["Thu", "Fri", "Sat", "Sun", "Mon", "Tue", "Wed"][(days % 7) as usize];
    format!("{weekday}, {:02} {} {year} {hour:02}:{minute:02}:{second:02} GMT", day + 1, MONTHS[month])
}

/// Seconds since 1970.
pub fn clock() -> u64 {
    SystemTime::now().duration_since(UNIX_EPOCH).map_or(0, |it| it.as_secs())
}

// ---- heads ----

/// A line, without its CR LF. A bare LF ends none, and no other control than a tab is in one (RFC 9112, 2.2; RFC 9110, 5.5).
fn read_line(from: &mut impl BufRead, room: &mut usize, too_long: u16) -> Result<Vec<u8>, Fault> {
    let mut line = Vec::new();
    from.take(*room as u64).read_until(b'\n', &mut line)?;
    *room -= line.len();
    match line.strip_suffix(b"\r\n").map(<[u8]>::len) {
        Some(length) => line.truncate(length),
        None if line.ends_with(b"\n") => return Err(Fault::Refused(400)),
        None if *room == 0 => return Err(Fault::Refused(too_long)),
        None => return Err(io::Error::from(ErrorKind::UnexpectedEof).into()),
    }
    let is_good = line.iter().all(|it| !it.is_ascii_control() || *it == b'\t');
    if is_good { Ok(line) } else { Err(Fault::Refused(400)) }
}

fn is_of_token(byte: &u8) -> bool {
    byte.is_ascii_alphanumeric() || b"!#$%&'*+-.^_`|~".contains(byte)
}

/// The fields up to an empty line. No line is folded, and no blank stands before a colon (RFC 9112, 5.1 and 5.2).
fn read_fields(from: &mut impl BufRead, room: &mut usize) -> Result<Fields, Fault> {
    let mut fields = Fields::new();
    loop {
        let line = read_line(from, room, 431)?;
        if line.is_empty() {
            return Ok(fields);
        }
        let colon = line.iter().position(|it| !is_of_token(it)).filter(|&it| it > 0 && line[it] == b':').ok_or(Fault::Refused(400))?;
        if fields.len() == MOST_FIELDS {
            return Err(Fault::Refused(431));
        }
        let (name, mut value) = (line[..colon].to_ascii_lowercase(), &line[colon + 1..]);
        while let [b' ' | b'\t', rest @ ..] | [rest @ .., b' ' | b'\t'] = value {
            value = rest;
        }
        fields.push((String::from_utf8_lossy(&name).into_owned(), value.to_vec()));
    }
}

/// The first line and the fields of a head. Empty lines before it are passed over (RFC 9112, 2.2).
fn read_head(from: &mut impl BufRead) -> Result<(Vec<u8>, Fields), Fault> {
    let (mut room, mut first) = (MOST_HEAD, Vec::new());
    while first.is_empty() {
        first = read_line(from, &mut room, 414)?;
    }
    Ok((first, read_fields(from, &mut room)?))
}

/// The minor version of HTTP/1 that this is.
fn minor_of(version: &[u8]) -> Result<u8, Fault> {
    match version {
        [b'H', b'T', b'T', b'P', b'/', b'1', b'.', minor @ b'0'..=b'9'] => Ok(minor - b'0'),
        [b'H', b'T', b'T', b'P', b'/', b'0'..=b'9', b'.', b'0'..=b'9'] => Err(Fault::Refused(505)),
        _ => Err(Fault::Refused(400)),
    }
}

/// The head of a request.
pub struct Request {
    pub method: String,
    /// The target in origin form: a path with its query, or `*`.
    pub target: String,
    pub minor: u8,
    /// With one Host, or with none before HTTP/1.1: that of the target, where it has one (RFC 9112, 3.2.2).
    pub fields: Fields,
}

/// The head of the next request.
pub fn read_request_head(from: &mut impl BufRead) -> Result<Request, Fault> {
    let (first, mut fields) = read_head(from)?;
    let words = first.split(|it| *it == b' ').collect::<Vec<_>>();
    let (method, target, minor) = match words[..] {
        [method, target, version] if !method.is_empty() && method.iter().all(is_of_token) => (method, target, minor_of(version)?),
        _ => return Err(Fault::Refused(400)),
    };
    let text = |bytes: &[u8]| String::from_utf8(bytes.to_vec()).map_err(|_| Fault::Refused(400));
    let (method, target) = (text(method)?, text(target)?);
    let is_good = target.bytes().all(|it| it.is_ascii_graphic() && it != b'#');
    let scheme = target.get(..7).filter(|it| it.eq_ignore_ascii_case("http://"));
    let (host, target) = match scheme.map(|_| target.split_at(target[7..].find(['/', '?']).map_or(target.len(), |it| it + 7))) {
        Some((host, rest)) => (Some(host[7..].to_string()), if rest.starts_with('/') { rest.to_string() } else { format!("/{rest}") }),
        None if target.starts_with('/') || (method == "OPTIONS" && target == "*") => (None, target),
        None => return Err(Fault::Refused(if method == "CONNECT" { 501 } else { 400 })),
    };
    let hosts = values(&fields, "host").collect::<Vec<_>>();
    let has_one = hosts.len() == 1 || (minor == 0 && hosts.is_empty());
    if !is_good || !has_one || !hosts.iter().copied().chain(host.as_deref().map(str::as_bytes)).all(is_host) {
        return Err(Fault::Refused(400));
    }
    if let Some(host) = host {
        fields.retain(|(name, _)| name != "host");
        fields.push(with("host", host));
    }
    Ok(Request { method, target, minor, fields })
}

/// Whether this is a host, perhaps with a port (RFC 9110, 4.2.1 and 7.2): an empty one is none.
fn is_host(value: &[u8]) -> bool {
    let (name, port) = match value.iter().rposition(|it| *it == b':').filter(|at| !value[*at..].contains(&b']')) {
        Some(at) => (&value[..at], &value[at + 1..]),
        None => (value, &b""[..]),
    };
    let is_of_name = |it: &u8| it.is_ascii_alphanumeric() || b"-._~!$&'()*+,;=%".contains(it);
    let is_name = match name {
        [b'[', inner @ .., b']'] => std::str::from_utf8(inner).map_or(false, |it| it.parse::<std::net::Ipv6Addr>().is_ok()),
        _ => !name.is_empty() && name.iter().all(is_of_name),
    };
    is_name && port.len() <= 5 && port.iter().all(u8::is_ascii_digit)
}

/// The status, the minor version and the fields of the head of the next response.
pub fn read_response_head(from: &mut impl BufRead) -> Result<(u16, u8, Fields), Fault> {
    let (first, fields) = read_head(from)?;
    let status = match first.get(8..) {
        Some([b' ', digits @ ..]) if digits.get(3).map_or(true, |it| *it == b' ') => digits.get(..3).and_then(|it| number(it, 10)),
        _ => None,
    };
    let status = status.filter(|it| (100..600).contains(it)).ok_or(Fault::Refused(400))?;
    Ok((status as u16, minor_of(&first[..8])?, fields))
}

// ---- bodies ----

/// What is left of a body.
pub enum Left {
    Bytes(u64),
    /// So many bytes of a chunk, or a chunk's size if there are none.
    Chunk(u64),
    /// All up to the end of the connection.
    ToClose,
}

/// How long a body is: what its head says is one length, or chunks of HTTP/1.1, and not both (RFC 9112, 6).
pub fn left_of(fields: &Fields, minor: u8, otherwise: Left) -> Result<Left, Fault> {
    let (lengths, codings) = (values(fields, "content-length").collect::<Vec<_>>(), values(fields, "transfer-encoding").collect::<Vec<_>>());
    match (&lengths[..], &codings[..]) {
        ([], []) => Ok(otherwise),
        ([], [one]) if minor > 0 && one.eq_ignore_ascii_case(b"chunked") => Ok(Left::Chunk(0)),
        ([one], []) if !one.is_empty() => number(one, 10).map(Left::Bytes).ok_or(Fault::Refused(400)),
        _ => Err(Fault::Refused(400)),
    }
}

/// What the line before a chunk says is left. Behind the last one, which has no bytes, stand fields that are passed over.
fn next_chunk(from: &mut impl BufRead) -> Result<Left, Fault> {
    let line = read_line(from, &mut { MOST_CHUNK_LINE }, 400)?;
    let digits = line.split(|it| *it == b';').next().unwrap_or(&[]);
    let size = number(digits, 16).ok_or(Fault::Refused(400))?;
    if size == 0 {
        read_fields(from, &mut { MOST_HEAD })?;
        return Ok(Left::Bytes(0));
    }
    Ok(Left::Chunk(size))
}

/// The next piece of a body, or nothing at its end. It fails where the body is cut off.
pub fn next_piece(from: &mut impl BufRead, left: &mut Left) -> Result<Option<Vec<u8>>, Fault> {
    if let Left::Chunk(0) = left {
        *left = next_chunk(from)?;
    }
    let most = match left {
        Left::Bytes(0) => return Ok(None),
        Left::Bytes(count) | Left::Chunk(count) => usize::try_from(*count).unwrap_or(usize::MAX),
        Left::ToClose => usize::MAX,
    };
    let there = from.fill_buf()?;
    let piece = there[..there.len().min(most)].to_vec();
    from.consume(piece.len());
    match left {
        Left::ToClose => return Ok(Some(piece).filter(|it| !it.is_empty())),
        Left::Bytes(_) | Left::Chunk(_) if piece.is_empty() => return Err(io::Error::from(ErrorKind::UnexpectedEof).into()),
        Left::Bytes(count) | Left::Chunk(count) => *count -= piece.len() as u64,
    }
    if matches!(left, Left::Chunk(0)) && !read_line(from, &mut 2, 400)?.is_empty() {
        return Err(Fault::Refused(400));
    }
    Ok(Some(piece))
}
