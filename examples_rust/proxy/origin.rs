//! The origin's side: a connection for each request, and the response as it comes.

use crate::client::{Asked, Client, Timed};
use crate::http1::*;
use std::io::{self, BufReader, ErrorKind, Write};
use std::net::{TcpStream, ToSocketAddrs};
use std::sync::Arc;
use std::time::Duration;

/// What this proxy is called in Via.
const NAME: &str = "pcache";

/// A response whose head came, without what belongs to its connection, with a Date and a Via.
pub struct Fetched {
    pub status: u16,
    pub fields: Fields,
    from: BufReader<Timed>,
    left: Left,
}

impl Fetched {
    /// The next piece of its body, or nothing at the end.
    pub fn next_piece(&mut self) -> Result<Option<Vec<u8>>, Fault> {
        next_piece(&mut self.from, &mut self.left)
    }

    /// The length of its body, if it is known.
    pub fn length(&self) -> Option<u64> {
        if let Left::Bytes(count) = self.left { Some(count) } else { None }
    }
}

/// Asks the origin, without some of the fields that the client sent, and with others. What comes before the response goes to the client.
pub fn fetch(origin: &str, patience: Duration, asked: &Asked, but: &[&str], more: Fields, client: &mut Client) -> Result<Fetched, Fault> {
    let address = origin.to_socket_addrs()?.next().ok_or(ErrorKind::NotFound).map_err(io::Error::from)?;
    let stream = Arc::new(TcpStream::connect_timeout(&address, patience)?);
    let mut from = BufReader::with_capacity(64 << 10, Timed::new(stream.clone(), patience)?);
    let is_sent = |name: &str| !but.contains(&name) && !["content-length", "expect"].contains(&name);
    let mut fields: Fields = asked.fields.iter().filter(|(name, _)| is_sent(name)).cloned().collect();
    fields.extend(more.into_iter().filter(|(_, value)| !value.is_empty()));
    fields.extend(field(&asked.fields, "host").is_none().then(|| with("host", origin)));
    fields.extend([with("via", format!("1.{} {NAME}", asked.minor)), with("connection", "close")]);
    let has_body = !asked.body.is_empty() || ["POST", "PUT", "PATCH"].contains(&&asked.method[..]);
    fields.extend(has_body.then(|| with("content-length", asked.body.len())));
    let head = head_of(&format!("{} {} HTTP/1.1", asked.method, asked.target), fields.iter());
    (&*stream).write_all(&[&head[..], &asked.body].concat())?;
    from.get_mut().begin();
    loop {
        let (status, minor, fields) = read_response_head(&mut from)?;
        match status {
            101 => return Err(Fault::Refused(502)),
            100..=199 => client.interim(status, &end_to_end(fields)),
            _ => {
                from.get_mut().end()?;
                let has_none = asked.method == "HEAD" || status == 204 || status == 304;
                let left = if has_none { Left::Bytes(0) } else { left_of(&fields, minor, Left::ToClose)? };
                let mut fields = end_to_end(fields);
                fields.retain(|(name, _)| name != "x-cache");
                fields.extend(field(&fields, "date").is_none().then(|| with("date", date_of(clock(), false))));
                fields.push(with("via", format!("1.{minor} {NAME}")));
                return Ok(Fetched { status, fields, from, left });
            }
        }
    }
}
