//! The ordered consumer, event by event.

use crate::ack::read_delivery;
use crate::config::{answered_info, Info};
use crate::names::{is_valid_name, is_valid_subject};
use crate::pull::PullReader;
use crate::push::PushReader;
use crate::recreation::{Recreation, Stage};
use crate::requests::Subjects;
use crate::transcript::{Event, Message, Mode, Setup, State, What};

pub const SECOND: u64 = 1_000_000_000;
/// How long a request of a recreation waits where no timeout is set.
pub const DEFAULT_TIMEOUT: u64 = 10 * SECOND;

/// What the replay puts out.
pub struct Run {
    /// Each output with the number of its step: 0 for the opening, and from 1 on for the events.
    pub outputs: Vec<(usize, Output)>,
    pub ended: bool,
}

#[derive(Debug)]
pub enum Output {
    Yield { stream_sequence: u64, consumer_sequence: u64, payload: String, subject: String },
    Item(ItemKind),
    Recreate { serial: u64, start: Start },
    Request { number: u64, subject: String, payload: String },
    Publish { subject: String, reply: Option<String>, payload: String },
    Subscribe { inbox: u64, subject: String },
}

#[derive(Clone, Copy, Debug)]
pub enum ItemKind {
    MissingHeartbeat,
    RequestLimitExceeded,
    PushBasedConsumer,
    Pull,
    Recreate,
    Other,
}

#[derive(Clone, Copy, Debug)]
pub enum Start {
    All,
    From(u64),
}

#[derive(Debug)]
pub enum Refusal {
    NoDeliverSubject,
    BadSettings(&'static str),
    BadEvent(usize),
    SequenceEnd(usize),
}

/// A recreation is due and there is no sequence to start from.
#[derive(Debug)]
pub struct SequenceEnd;

/// Whether a wait that was set is over; one whose end is past the last moment never is.
pub fn due(now: u64, set: u64, wait: u64) -> bool {
    set.checked_add(wait).map_or(false, |end| end <= now)
}

/// The wait after the nth failed try.
pub fn wait_after(failures: u64) -> u64 {
    if failures < 5 {
        failures * SECOND / 2
    } else {
        10 * SECOND
    }
}

/// Runs the consumer of the setup over all events, or refuses them.
pub fn replay_ordered(setup: &Setup, events: &[Event]) -> Result<Run, Refusal> {
    refuse(setup, events)?;
    let mut consumer = Consumer::new(setup);
    consumer.open();
    for (place, event) in events.iter().enumerate() {
        consumer.step += 1;
        consumer.handle(event).map_err(|SequenceEnd| Refusal::SequenceEnd(place))?;
    }
    Ok(Run { outputs: consumer.outputs, ended: consumer.ended })
}

/// The refusals that need no run.
fn refuse(setup: &Setup, events: &[Event]) -> Result<(), Refusal> {
    let deliver_subject = setup.info.config.deliver_subject.as_deref();
    if setup.mode == Mode::Push && deliver_subject.is_none() {
        return Err(Refusal::NoDeliverSubject);
    }
    let filter = &setup.config.filter_subject;
    let tests = [
        ("stream_name", is_valid_name(&setup.info.stream_name)),
        ("name", is_valid_name(&setup.info.name)),
        ("api_prefix", is_valid_subject(&setup.settings.api_prefix)),
        ("inbox_prefix", is_valid_subject(&setup.settings.inbox_prefix)),
        ("filter_subject", filter.is_empty() || is_valid_subject(filter)),
        ("deliver_subject", setup.mode == Mode::Pull || deliver_subject.map_or(false, is_valid_subject)),
    ];
    if let Some((field, _)) = tests.into_iter().find(|(_, passes)| !passes) {
        return Err(Refusal::BadSettings(field));
    }
    let mut before = setup.start;
    for (place, event) in events.iter().enumerate() {
        if event.at < before {
            return Err(Refusal::BadEvent(place));
        }
        before = event.at;
    }
    Ok(())
}

/// What the consumer is at between two events.
pub enum Phase<'s> {
    Pulling(PullReader),
    Pushing(PushReader),
    Recreating(Recreation<'s>),
    Idle,
}

/// The consumer's state, and what it has put out so far.
pub struct Consumer<'s> {
    pub setup: &'s Setup,
    pub subjects: Subjects<'s>,
    pub phase: Phase<'s>,
    outputs: Vec<(usize, Output)>,
    /// The number of the step that is being taken.
    step: usize,
    /// Inboxes and requests so far.
    inboxes: u64,
    requests: u64,
    /// The last accepted consumer number and the last yielded stream sequence.
    pub number: u64,
    last: u64,
    serial: u64,
    /// Whether a pull heartbeat was missed, and whether a pull request went past a limit.
    pub missed: bool,
    pub limited: bool,
    pub up: bool,
    connection: State,
    pub ended: bool,
}

impl<'s> Consumer<'s> {
    fn new(setup: &'s Setup) -> Consumer<'s> {
        Consumer {
            setup,
            subjects: Subjects { setup },
            phase: Phase::Idle,
            outputs: Vec::new(),
            step: 0,
            inboxes: 1,
            requests: 0,
            number: 0,
            last: 0,
            serial: 0,
            missed: false,
            limited: false,
            up: true,
            connection: State::Connected,
            ended: false,
        }
    }

    fn open(&mut self) {
        self.read_inbox(0, &self.setup.info, self.setup.start);
    }

    pub fn put(&mut self, output: Output) {
        self.outputs.push((self.step, output));
    }

    pub fn item(&mut self, kind: ItemKind) {
        self.put(Output::Item(kind));
    }

    pub fn end(&mut self, kind: ItemKind) {
        self.item(kind);
        self.ended = true;
    }

    /// Sends a request and answers its number.
    pub fn request(&mut self, subject: String, payload: String) -> u64 {
        self.requests += 1;
        self.put(Output::Request { number: self.requests, subject, payload });
        self.requests
    }

    /// Subscribes the next inbox and answers its number.
    pub fn subscribe(&mut self) -> u64 {
        let inbox = self.inboxes;
        self.inboxes += 1;
        self.put(Output::Subscribe { inbox, subject: self.subjects.inbox(inbox) });
        inbox
    }

    fn handle(&mut self, event: &'s Event) -> Result<(), SequenceEnd> {
        if self.ended {
            return Ok(());
        }
        let change = match event.what {
            What::Connection { state } if state != self.connection => Some(state),
            _ => None,
        };
        let old = self.connection;
        match event.what {
            What::Link { up } => self.up = up,
            What::Connection { state } => self.connection = state,
            What::WatcherEnded if self.setup.mode == Mode::Push => {
                self.end(ItemKind::Other);
                return Ok(());
            }
            _ => {}
        }
        match std::mem::replace(&mut self.phase, Phase::Idle) {
            Phase::Idle => self.start_recreation(event.at),
            Phase::Recreating(recreation) => self.step_recreation(recreation, event),
            Phase::Pulling(reader) => self.step_pull(reader, event, change),
            Phase::Pushing(_) if change.is_some() && (old == State::Connected || change == Some(State::Connected)) => {
                self.start_recreation(event.at)
            }
            Phase::Pushing(reader) => self.step_push(reader, event),
        }
    }

    /// Makes the inbox current, with a reader that starts now.
    pub fn read_inbox(&mut self, inbox: u64, info: &Info, now: u64) {
        self.phase = match self.setup.mode {
            Mode::Pull => Phase::Pulling(self.start_pull(inbox, info, now)),
            Mode::Push => Phase::Pushing(PushReader { inbox, heard: now }),
        };
    }

    /// Names the consumer anew and makes the first try. The inbox that was current was dropped before.
    pub fn start_recreation(&mut self, now: u64) -> Result<(), SequenceEnd> {
        if self.last == u64::MAX {
            return Err(SequenceEnd);
        }
        self.number = 0;
        self.serial += 1;
        let start = match (self.last, self.setup.config.start_sequence) {
            (0, None | Some(0)) => Start::All,
            (0, Some(configured)) => Start::From(configured),
            (last, _) => Start::From(last + 1),
        };
        self.put(Output::Recreate { serial: self.serial, start });
        self.begin_try(Recreation { serial: self.serial, start, failures: 0, stage: Stage::Retry { since: now } }, now);
        Ok(())
    }

    /// Yields a message, or says that it can't be read; whether it asks for a recreation.
    pub fn deliver(&mut self, message: &Message) -> bool {
        let delivery = match message.reply.as_deref().and_then(read_delivery) {
            Some(delivery) => delivery,
            None => {
                self.item(ItemKind::Other);
                return false;
            }
        };
        if self.number.checked_add(1) != Some(delivery.consumer_sequence) {
            return true;
        }
        self.number = delivery.consumer_sequence;
        self.last = delivery.stream_sequence;
        self.limited = false;
        self.put(Output::Yield {
            stream_sequence: delivery.stream_sequence,
            consumer_sequence: delivery.consumer_sequence,
            payload: message.payload.clone(),
            subject: message.subject.clone(),
        });
        false
    }
}

/// The answer that the event brings to the request: a message, or nothing where the replier is gone.
pub fn answer_to(number: u64, event: &Event) -> Option<Option<&Message>> {
    match &event.what {
        What::Answer { request, reply } if *request == number => Some(reply.as_deref()),
        _ => None,
    }
}

/// The message that the event brings to the inbox.
pub fn arrival_on(number: u64, event: &Event) -> Option<&Message> {
    match &event.what {
        What::Arrival { inbox, message } if *inbox == number => Some(message),
        _ => None,
    }
}

/// The info that an answer brings, where it is a good one.
pub fn good_info(reply: Option<&Message>) -> Option<Info> {
    reply.filter(|message| message.status != Some(503)).and_then(|message| answered_info(&message.payload))
}
