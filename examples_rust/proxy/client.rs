//! The client's side of a connection: its requests, each within a time, and the answers.

use crate::http1::*;
use std::io::{self, BufRead, BufWriter, ErrorKind, Read, Write};
use std::mem;
use std::net::TcpStream;
use std::sync::Arc;
use std::time::{Duration, Instant};

/// A stream whose reads end by a moment, if there is one, and else each after a time.
pub struct Timed {
    stream: Arc<TcpStream>,
    patience: Duration,
    until: Option<Instant>,
    /// The time that is set is less than its patience.
    is_shorter: bool,
}

impl Timed {
    pub fn new(stream: Arc<TcpStream>, patience: Duration) -> io::Result<Timed> {
        stream.set_nodelay(true)?;
        stream.set_read_timeout(Some(patience))?;
        stream.set_write_timeout(Some(patience))?;
        Ok(Timed { stream, patience, until: None, is_shorter: false })
    }

    /// From now on all reads together take as long as one of them may.
    pub fn begin(&mut self) {
        self.until = Some(Instant::now() + self.patience);
    }

    /// From now on each read has a time of its own.
    pub fn end(&mut self) -> io::Result<()> {
        self.until = None;
        if mem::take(&mut self.is_shorter) {
            self.stream.set_read_timeout(Some(self.patience))?;
        }
        Ok(())
    }
}

impl Read for Timed {
    fn read(&mut self, out: &mut [u8]) -> io::Result<usize> {
        if let Some(until) = self.until {
            let left = until.saturating_duration_since(Instant::now());
            if left.is_zero() {
                return Err(ErrorKind::TimedOut.into());
            }
            self.stream.set_read_timeout(Some(left))?;
            self.is_shorter = true;
        }
        (&*self.stream).read(out)
    }
}

/// A request of a client, without what belongs to its connection.
#[derive(Clone)]
pub struct Asked {
    pub method: String,
    pub target: String,
    pub minor: u8,
    pub fields: Fields,
    pub body: Vec<u8>,
}

/// The next request of a client.
pub fn read_request(from: &mut impl BufRead, client: &mut Client, most_body: usize) -> Result<Asked, Fault> {
    let Request { method, target, minor, fields } = read_request_head(from)?;
    client.begin_request(&method, minor, &fields);
    let (mut left, mut body) = (left_of(&fields, minor, Left::Bytes(0))?, Vec::new());
    match field(&fields, "expect") {
        Some(what) if minor > 0 && what.eq_ignore_ascii_case("100-continue") => client.interim(100, &Fields::new()),
        Some(_) if minor > 0 => return Err(Fault::Refused(417)),
        _ => {}
    }
    while let Some(piece) = next_piece(from, &mut left)? {
        body.extend_from_slice(&piece);
        if body.len() > most_body {
            return Err(Fault::Refused(413));
        }
    }
    Ok(Asked { method, target, minor, fields: end_to_end(fields), body })
}

/// Where an answer goes: to a connection, or nowhere.
struct To(Option<Arc<TcpStream>>);

impl Write for To {
    fn write(&mut self, bytes: &[u8]) -> io::Result<usize> {
        self.0.as_ref().map_or(Ok(bytes.len()), |it| (&**it).write(bytes))
    }

    fn flush(&mut self) -> io::Result<()> {
        Ok(())
    }
}

/// Who is answered.
pub struct Client {
    to: BufWriter<To>,
    /// The connection is kept for another request.
    pub stays: bool,
    /// It takes a body: of what it asked for and, once the answer began, of that.
    pub takes_body: bool,
    /// It is on this machine.
    pub is_near: bool,
    minor: u8,
    in_chunks: bool,
    /// What it was answered: the status, where that came from, and the bytes of the body so far.
    pub answered: (u16, String, u64),
}

impl Client {
    /// The one at a connection; or nobody, as when a body is renewed in the background.
    pub fn new(to: Option<Arc<TcpStream>>, is_near: bool) -> Client {
        let answered = (0, String::new(), 0);
        Client { stays: to.is_some(), to: BufWriter::new(To(to)), takes_body: false, is_near, minor: 0, in_chunks: false, answered }
    }

    fn begin_request(&mut self, method: &str, minor: u8, fields: &Fields) {
        self.minor = minor;
        self.in_chunks = minor > 0;
        self.stays = minor > 0 && !members(fields, "connection").iter().any(|it| it == "close");
        self.takes_body = method != "HEAD";
    }

    /// An answer that comes before the final one, as 103 (RFC 9110, 15.2).
    pub fn interim(&mut self, status: u16, fields: &Fields) {
        if self.minor > 0 {
            self.send(&[&head_of(&format!("HTTP/1.1 {status} "), fields.iter())]);
        }
    }

    /// Begins an answer, whose body is as long as its fields say, if they say it.
    pub fn begin(&mut self, status: u16, fields: &Fields) {
        let has_body = !matches!(status, 204 | 304);
        let length = field(fields, "content-length").filter(|_| has_body);
        self.takes_body &= has_body;
        self.in_chunks &= self.takes_body && length.is_none();
        self.stays &= self.in_chunks || length.is_some() || !self.takes_body;
        let length = length.map(|it| with("Content-Length", it));
        let chunks = self.in_chunks.then(|| with("Transfer-Encoding", "chunked"));
        let close = (!self.stays).then(|| with("Connection", "close"));
        let fields_sent = fields.iter().filter(|(name, _)| name != "content-length").chain(&length).chain(&chunks).chain(&close);
        self.answered = (status, field(fields, "X-Cache").unwrap_or("").to_string(), 0);
        // (what fails here fails again at the answer's end)
        let _ = self.to.write_all(&head_of(&format!("HTTP/1.1 {status} "), fields_sent));
    }

    // A client that is gone is no reason to stop: the body is stored all the same.
    fn send(&mut self, parts: &[&[u8]]) {
        if parts.iter().try_for_each(|it| self.to.write_all(it)).and_then(|()| self.to.flush()).is_err() {
            let gone = mem::replace(&mut self.to, BufWriter::new(To(None)));
            drop(gone.into_parts()); // (without another try to send what is left)
            (self.stays, self.takes_body, self.in_chunks) = (false, false, false);
        }
    }

    pub fn piece(&mut self, bytes: &[u8]) {
        if self.takes_body {
            self.answered.2 += bytes.len() as u64;
        }
        if self.in_chunks && !bytes.is_empty() {
            self.send(&[format!("{:x}\r\n", bytes.len()).as_bytes(), bytes, b"\r\n"]);
        } else if self.takes_body {
            self.send(&[bytes]);
        }
    }

    /// Ends the answer. A body that was cut off gets no last chunk, and the connection is closed.
    pub fn end(&mut self, is_whole: bool) {
        self.send(if self.in_chunks && is_whole { &[b"0\r\n\r\n"] } else { &[] });
        self.stays &= is_whole;
    }

    /// An answer of the proxy's own, without a body.
    pub fn answer(&mut self, status: u16, origin: &str) {
        let mut fields = vec![with("date", date_of(clock(), false)), with("X-Cache", origin), with("content-length", 0)];
        fields.extend((status == 503).then(|| with("Retry-After", 1)));
        self.begin(status, &fields);
        self.end(true);
    }
}
