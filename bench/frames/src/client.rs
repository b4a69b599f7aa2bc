//! A client's end of a connection, which does no input or output itself.

use std::collections::{HashMap, VecDeque};

/// The greatest length of a line, and of a line of INFO, with its line end.
const LONGEST_LINE: usize = 4_096;
const LONGEST_INFO: usize = 1_048_576;

/// The bytes do not begin with a frame.
#[derive(Debug)]
pub struct Damage;

/// The message can't be published: its subject or its reply subject is none, or it is longer than the server takes.
#[derive(Debug)]
pub struct Refused;

/// A message that came.
#[allow(dead_code)]
pub struct Message {
    pub subject: String,
    pub reply: Option<String>,
    pub headers: Option<Vec<u8>>,
    pub payload: Vec<u8>,
    /// The bytes of all of these.
    pub length: usize,
}

/// A message that is to be sent.
struct Published {
    subject: String,
    reply: Option<String>,
    payload: Vec<u8>,
}

/// A frame in the bytes that came.
enum Frame<'a> {
    Info(&'a str),
    Message {
        subject: &'a str,
        subscription: u64,
        reply: Option<&'a str>,
        headers: Option<&'a [u8]>,
        payload: &'a [u8],
    },
    Ping,
    Other,
}

/// Bytes of which those at the front are done with.
#[derive(Default)]
struct Buffer {
    held: Vec<u8>,
    next: usize,
}

impl Buffer {
    fn left(&self) -> &[u8] {
        &self.held[self.next..]
    }

    fn let_go(&mut self) {
        if self.next > self.held.len() - self.next {
            self.held.drain(..self.next);
            self.next = 0;
        }
    }
}

#[derive(Default)]
pub struct Client {
    came: Buffer,
    out: Buffer,
    most: u64,
    has_info: bool,
    pongs: u64,
    last: u64,
    inboxes: HashMap<u64, VecDeque<Message>>,
    outgoing: VecDeque<Published>,
}

impl Client {
    pub fn new() -> Client {
        Client { most: 67_108_864, ..Client::default() }
    }

    /// Opens an inbox, and returns its number.
    pub fn subscribe(&mut self, subject: &str) -> u64 {
        self.last += 1;
        self.inboxes.insert(self.last, VecDeque::new());
        self.out.held.extend_from_slice(format!("SUB {subject} {}\r\n", self.last).as_bytes());
        self.last
    }

    pub fn publish(&mut self, subject: &str, reply: Option<&str>, payload: &[u8]) -> Result<(), Refused> {
        if !is_subject(subject) || !reply.is_none_or(is_subject) || payload.len() as u64 > self.most {
            return Err(Refused);
        }
        self.outgoing.push_back(Published {
            subject: subject.to_owned(),
            reply: reply.map(str::to_owned),
            payload: payload.to_vec(),
        });
        Ok(())
    }

    /// Removes the first message of an inbox.
    pub fn take(&mut self, inbox: u64) -> Option<Message> {
        self.inboxes.get_mut(&inbox)?.pop_front()
    }

    /// Takes bytes that came.
    pub fn received(&mut self, bytes: &[u8]) -> Result<(), Damage> {
        self.came.let_go();
        self.came.held.extend_from_slice(bytes);
        while let Some((frame, length)) = first_frame(&self.came.held[self.came.next..], self.most)? {
            match frame {
                Frame::Info(json) => {
                    self.most = max_payload(json).ok_or(Damage)?.min(self.most);
                    self.has_info = true;
                }
                Frame::Message { subject, subscription, reply, headers, payload } => {
                    if let Some(inbox) = self.inboxes.get_mut(&subscription) {
                        let length = subject.len() + reply.map_or(0, str::len) + headers.map_or(0, <[u8]>::len) + payload.len();
                        inbox.push_back(Message {
                            subject: subject.to_owned(),
                            reply: reply.map(str::to_owned),
                            headers: headers.map(<[u8]>::to_vec),
                            payload: payload.to_vec(),
                            length,
                        });
                    }
                }
                Frame::Ping => self.pongs += 1,
                Frame::Other => {}
            }
            self.came.next += length;
        }
        Ok(())
    }

    /// Writes what is due.
    pub fn write(&mut self) {
        self.out.let_go();
        for _ in 0..std::mem::take(&mut self.pongs) {
            self.out.held.extend_from_slice(b"PONG\r\n");
        }
        for Published { subject, reply, payload } in self.outgoing.drain(..) {
            let line = match reply {
                None => format!("PUB {subject} {}\r\n", payload.len()),
                Some(reply) => format!("PUB {subject} {reply} {}\r\n", payload.len()),
            };
            self.out.held.extend_from_slice(line.as_bytes());
            self.out.held.extend_from_slice(&payload);
            self.out.held.extend_from_slice(b"\r\n");
        }
    }

    pub fn to_send(&self) -> &[u8] {
        self.out.left()
    }

    pub fn sent(&mut self, count: usize) {
        self.out.next += count;
    }
}

/// Whether a text can stand as a subject in a line: it is not empty, has no white space, and neither begins nor ends with a dot.
fn is_subject(text: &str) -> bool {
    !text.is_empty() && !text.starts_with('.') && !text.ends_with('.') && !text.bytes().any(|it| it.is_ascii_whitespace())
}

/// The number behind `"max_payload":` in an INFO.
fn max_payload(json: &str) -> Option<u64> {
    let (_, behind) = json.split_once("\"max_payload\":")?;
    let digits = behind.find(|it: char| !it.is_ascii_digit()).unwrap_or(behind.len());
    behind[..digits].parse().ok()
}

/// The first line without its line end, and how many bytes it has with it.
fn first_line(bytes: &[u8]) -> Result<Option<(&str, usize)>, Damage> {
    let limit = if bytes.starts_with(b"INFO ") { LONGEST_INFO } else { LONGEST_LINE };
    let seen = &bytes[..limit.min(bytes.len())];
    let Some(end) = seen.iter().position(|&it| it == b'\n') else {
        return if bytes.len() < limit { Ok(None) } else { Err(Damage) };
    };
    let line = bytes[..end].strip_suffix(b"\r").ok_or(Damage)?;
    Ok(Some((std::str::from_utf8(line).map_err(|_| Damage)?, end + 1)))
}

fn number(word: &str) -> Result<u64, Damage> {
    if word.starts_with('+') {
        return Err(Damage);
    }
    word.parse().map_err(|_| Damage)
}

/// The first frame, and how many bytes it has. None where it is not whole.
fn first_frame(bytes: &[u8], most: u64) -> Result<Option<(Frame<'_>, usize)>, Damage> {
    let Some((line, length)) = first_line(bytes)? else {
        return Ok(None);
    };
    let (verb, text) = line.split_once(' ').unwrap_or((line, ""));
    match verb {
        "MSG" | "HMSG" => message(verb == "HMSG", text, bytes, length, most),
        "INFO" => Ok(Some((Frame::Info(text), length))),
        "PING" => Ok(Some((Frame::Ping, length))),
        "PONG" | "+OK" | "-ERR" => Ok(Some((Frame::Other, length))),
        _ => Err(Damage),
    }
}

fn message<'a>(
    has_headers: bool,
    text: &'a str,
    bytes: &'a [u8],
    line: usize,
    most: u64,
) -> Result<Option<(Frame<'a>, usize)>, Damage> {
    let mut words = text.split(' ').filter(|word| !word.is_empty());
    let mut found = [""; 6];
    let mut count = 0;
    for (place, word) in found.iter_mut().zip(&mut words) {
        *place = word;
        count += 1;
    }
    let (reply, lengths) = match (has_headers, count) {
        (false, 3) | (true, 4) => (None, &found[2..count]),
        (false, 4) | (true, 5) => (Some(found[2]), &found[3..count]),
        _ => return Err(Damage),
    };
    let body = number(lengths[lengths.len() - 1])?;
    let headers = if has_headers { number(lengths[0])? } else { 0 };
    if body > most || headers > body {
        return Err(Damage);
    }
    let (body, headers) = (body as usize, headers as usize);
    let Some(rest) = bytes.get(line..line + body + 2) else {
        return Ok(None);
    };
    let (rest, end) = rest.split_at(body);
    if end != b"\r\n" {
        return Err(Damage);
    }
    let (headers, payload) = rest.split_at(headers);
    let headers = has_headers.then_some(headers);
    let frame = Frame::Message { subject: found[0], subscription: number(found[1])?, reply, headers, payload };
    Ok(Some((frame, line + body + 2)))
}
