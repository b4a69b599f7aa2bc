//! Transcripts: a setup on the first line, and one event on each further line.

use serde_json::Value;

use crate::config::{Config, Info};
use crate::fields::{emptied, given, has_float, optional, required, Member, Object, Read, Unreadable};

/// A transcript that was read whole.
pub struct Transcript {
    pub setup: Setup,
    pub events: Vec<Event>,
}

#[derive(Clone, Copy, Debug, PartialEq, Eq)]
pub enum Mode {
    Pull,
    Push,
}

pub struct Setup {
    pub mode: Mode,
    pub start: u64,
    pub settings: Settings,
    pub config: Config,
    pub info: Info,
}

pub struct Settings {
    pub api_prefix: String,
    pub inbox_prefix: String,
    pub context_timeout: Option<u64>,
    pub request_timeout: Option<u64>,
    pub retries: u64,
}

pub struct Event {
    pub at: u64,
    pub what: What,
}

pub enum What {
    Tick,
    Arrival {
        inbox: u64,
        message: Box<Message>,
    },
    /// Without a reply, the replier is gone.
    Answer {
        request: u64,
        reply: Option<Box<Message>>,
    },
    Link {
        up: bool,
    },
    Connection {
        state: State,
    },
    WatcherEnded,
}

#[derive(Clone, Copy, Debug, PartialEq, Eq)]
pub enum State {
    Pending,
    Connected,
    Disconnected,
}

pub struct Message {
    pub subject: String,
    pub reply: Option<String>,
    pub payload: String,
    pub status: Option<u16>,
    pub description: Option<String>,
    pub headers: Vec<(String, String)>,
}

impl Message {
    pub fn first_header(&self, name: &str) -> Option<&str> {
        self.headers.iter().find(|(other, _)| other == name).map(|(_, value)| value.as_str())
    }

    pub fn last_header(&self, name: &str) -> Option<&str> {
        self.headers.iter().rfind(|(other, _)| other == name).map(|(_, value)| value.as_str())
    }
}

/// Reads a whole input, or answers the number of the first line that does not read, counted from 1.
pub fn read(input: &[u8]) -> Result<Transcript, usize> {
    let body = input.strip_suffix(b"\n").unwrap_or(input);
    let mut lines = body.split(|&b| b == b'\n');
    let setup = lines.next().ok_or(Unreadable).and_then(|line| read_line(line, setup)).map_err(|_| 1usize)?;
    let events = lines
        .zip(2usize..)
        .map(|(line, number)| read_line(line, event).map_err(|_| number))
        .collect::<Result<_, _>>()?;
    Ok(Transcript { setup, events })
}

/// Reads one line by what it is to hold; nothing else may stand in it.
fn read_line<T>(line: &[u8], read: fn(&mut Object) -> Read<T>) -> Read<T> {
    let value: Value = serde_json::from_slice(line).map_err(|_| Unreadable)?;
    if has_float(&value) {
        return Err(Unreadable);
    }
    let mut object = Object::read(value)?;
    let result = read(&mut object)?;
    emptied(&object)?;
    Ok(result)
}

fn setup(object: &mut Object) -> Read<Setup> {
    let mode = required(object, "mode")?;
    let config: Config = required(object, "config")?;
    if mode == Mode::Push && config.deliver_subject.is_none() {
        return Err(Unreadable);
    }
    Ok(Setup {
        mode,
        start: required(object, "start")?,
        settings: required(object, "settings")?,
        config,
        info: required(object, "info")?,
    })
}

impl Member for Mode {
    fn read(value: Value) -> Read<Mode> {
        match String::read(value)?.as_str() {
            "pull" => Ok(Mode::Pull),
            "push" => Ok(Mode::Push),
            _ => Err(Unreadable),
        }
    }
}

impl Member for Settings {
    fn read(value: Value) -> Read<Settings> {
        let object = &mut Object::read(value)?;
        let settings = Settings {
            api_prefix: given(object, "api_prefix")?.unwrap_or_else(|| "$JS.API".into()),
            inbox_prefix: given(object, "inbox_prefix")?.unwrap_or_else(|| "_INBOX.t".into()),
            context_timeout: optional(object, "context_timeout")?,
            request_timeout: given(object, "request_timeout")?.unwrap_or(Some(10_000_000_000)),
            retries: given::<u32>(object, "retries")?.unwrap_or(u32::MAX).into(),
        };
        emptied(object)?;
        Ok(settings)
    }
}

fn event(object: &mut Object) -> Read<Event> {
    Ok(Event { at: required(object, "at")?, what: what(object)? })
}

/// What the event's one further member says; what is left over is refused by the caller.
fn what(object: &mut Object) -> Read<What> {
    if let Some(arrival) = given::<Object>(object, "arrival")? {
        read_arrival(arrival)
    } else if let Some(answer) = given::<Object>(object, "answer")? {
        read_answer(answer)
    } else if let Some(link) = given::<String>(object, "link")? {
        match link.as_str() {
            "open" => Ok(What::Link { up: true }),
            "closed" => Ok(What::Link { up: false }),
            _ => Err(Unreadable),
        }
    } else if let Some(connection) = given::<String>(object, "connection")? {
        let state = match connection.as_str() {
            "connected" => State::Connected,
            "disconnected" => State::Disconnected,
            "pending" => State::Pending,
            _ => return Err(Unreadable),
        };
        Ok(What::Connection { state })
    } else if let Some(watcher) = given::<String>(object, "watcher")? {
        match watcher.as_str() {
            "ended" => Ok(What::WatcherEnded),
            _ => Err(Unreadable),
        }
    } else {
        Ok(What::Tick)
    }
}

fn read_arrival(mut object: Object) -> Read<What> {
    let inbox = required(&mut object, "inbox")?;
    let message = Box::new(read_message(object)?);
    Ok(What::Arrival { inbox, message })
}

fn read_answer(mut object: Object) -> Read<What> {
    let request = required(&mut object, "request")?;
    match given::<bool>(&mut object, "gone")? {
        Some(true) => {
            emptied(&object)?;
            Ok(What::Answer { request, reply: None })
        }
        Some(false) => Err(Unreadable),
        None => Ok(What::Answer { request, reply: Some(Box::new(read_message(object)?)) }),
    }
}

/// The message that an arrival or an answer brings, to which all members that are left belong.
fn read_message(mut object: Object) -> Read<Message> {
    let message = Message {
        subject: optional(&mut object, "subject")?.unwrap_or_default(),
        reply: optional(&mut object, "reply")?,
        payload: read_payload(object.remove("payload"))?,
        status: optional(&mut object, "status")?,
        description: optional(&mut object, "description")?,
        headers: optional::<Vec<Header>>(&mut object, "headers")?
            .unwrap_or_default()
            .into_iter()
            .map(|Header(name, value)| (name, value))
            .collect(),
    };
    emptied(&object)?;
    Ok(message)
}

fn read_payload(value: Option<Value>) -> Read<String> {
    match value {
        None | Some(Value::Null) => Ok(String::new()),
        Some(Value::String(text)) => Ok(text),
        Some(value @ (Value::Object(_) | Value::Array(_))) => Ok(value.to_string()),
        Some(_) => Err(Unreadable),
    }
}

struct Header(String, String);

impl Member for Header {
    fn read(value: Value) -> Read<Header> {
        let texts = Vec::<String>::read(value)?;
        let [name, value] = <[String; 2]>::try_from(texts).map_err(|_| Unreadable)?;
        Ok(Header(name, value))
    }
}
