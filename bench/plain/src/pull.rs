//! The pull reader: its ledger of what was asked for, its timers, and its info request after a reconnect.

use crate::config::Info;
use crate::replay::{
    answer_to, arrival_on, due, good_info, wait_after, Consumer, ItemKind, Output, Phase, SequenceEnd, DEFAULT_TIMEOUT,
    SECOND,
};
use crate::requests::pull_body;
use crate::transcript::{Event, Message, State};

/// The most messages and the longest expiry of a pull request, and the longest heartbeat.
const BATCH: u64 = 500;
const EXPIRES: u64 = 30 * SECOND;
const HEARTBEAT: u64 = 15 * SECOND;
/// How long after its expiry a request counts as lost.
const GRACE: u64 = 5 * SECOND;
/// How many tries an info request has.
const INFO_TRIES: u64 = 6;

pub struct PullReader {
    inbox: u64,
    stream: String,
    name: String,
    batch: u64,
    expires: u64,
    heartbeat: u64,
    /// Messages that were asked for and have not come, and whether more were found wanting since the last request.
    pending: u64,
    waiting: bool,
    /// When the last request was tried, and when something was last heard.
    asked: u64,
    heard: u64,
    info: Option<InfoCall>,
}

/// An open info request.
struct InfoCall {
    failures: u64,
    stage: InfoStage,
}

enum InfoStage {
    Asked { request: u64, at: u64 },
    Waiting { since: u64 },
}

/// A cap of 0 or below is none.
fn capped(value: u64, cap: u64) -> u64 {
    if cap == 0 {
        value
    } else {
        value.min(cap)
    }
}

impl Consumer<'_> {
    /// A reader that asks for its first messages.
    pub fn start_pull(&mut self, inbox: u64, info: &Info, now: u64) -> PullReader {
        let expires = capped(EXPIRES, info.config.max_expires);
        let mut reader = PullReader {
            inbox,
            stream: info.stream_name.clone(),
            name: info.name.clone(),
            batch: capped(BATCH, info.config.max_batch.try_into().unwrap_or(0)),
            expires,
            heartbeat: HEARTBEAT.min(expires / 2),
            pending: 0,
            waiting: false,
            asked: now,
            heard: now,
            info: None,
        };
        self.apply_threshold(&mut reader, now);
        reader
    }

    pub fn step_pull(
        &mut self,
        mut reader: PullReader,
        event: &Event,
        change: Option<State>,
    ) -> Result<(), SequenceEnd> {
        let now = event.at;
        match (reader.info.take(), change) {
            (Some(call), _) => self.step_info(&mut reader, call, event),
            (None, Some(State::Connected)) => self.try_info(&mut reader, 0, now),
            (None, Some(_)) => reader.asked = now,
            (None, None) => {}
        }
        if reader.info.is_none() && due(now, reader.asked, reader.expires + GRACE) {
            self.pull_request(&mut reader, true, now);
        }
        if let Some(message) = arrival_on(reader.inbox, event) {
            if self.hear_pull(&mut reader, message) {
                return self.start_recreation(now);
            }
            if !self.ended {
                self.apply_threshold(&mut reader, now);
            }
            reader.heard = now;
        } else if reader.heartbeat > 0 && due(now, reader.heard, 2 * reader.heartbeat) {
            if self.missed {
                return self.start_recreation(now);
            }
            self.missed = true;
            reader.heard = now;
        }
        self.phase = Phase::Pulling(reader);
        Ok(())
    }

    // Requests.

    fn apply_threshold(&mut self, reader: &mut PullReader, now: u64) {
        if reader.pending <= reader.batch / 2 && !reader.waiting {
            reader.waiting = true;
            if reader.info.is_none() {
                self.pull_request(reader, false, now);
            }
        }
    }

    fn pull_request(&mut self, reader: &mut PullReader, reset: bool, now: u64) {
        reader.asked = now;
        if !self.up {
            self.item(ItemKind::Pull);
            return;
        }
        self.put(Output::Publish {
            subject: self.subjects.next(&reader.stream, &reader.name),
            reply: Some(self.subjects.inbox(reader.inbox)),
            payload: pull_body(reader.batch, reader.expires, reader.heartbeat),
        });
        reader.pending = if reset { reader.batch } else { reader.pending.saturating_add(reader.batch) };
        reader.waiting = false;
    }

    // Infos.

    fn try_info(&mut self, reader: &mut PullReader, failures: u64, now: u64) {
        if self.up {
            let request = self.request(self.subjects.info(&reader.stream, &reader.name), "{}".into());
            reader.info = Some(InfoCall { failures, stage: InfoStage::Asked { request, at: now } });
        } else {
            self.fail_info(reader, failures + 1, now);
        }
    }

    fn fail_info(&mut self, reader: &mut PullReader, failures: u64, now: u64) {
        if failures < INFO_TRIES {
            reader.info = Some(InfoCall { failures, stage: InfoStage::Waiting { since: now } });
        } else {
            self.item(ItemKind::Pull);
            self.pull_request(reader, false, now);
        }
    }

    fn step_info(&mut self, reader: &mut PullReader, call: InfoCall, event: &Event) {
        let now = event.at;
        let failures = call.failures;
        match call.stage {
            InfoStage::Waiting { since } if due(now, since, wait_after(failures)) => {
                self.try_info(reader, failures, now)
            }
            InfoStage::Waiting { .. } => reader.info = Some(call),
            InfoStage::Asked { request, at } => match answer_to(request, event).map(good_info) {
                Some(Some(info)) => self.pull_request(reader, info.num_waiting == 0, now),
                Some(None) => self.fail_info(reader, failures + 1, now),
                None if self.info_timed_out(reader.inbox, at, now) => self.fail_info(reader, failures + 1, now),
                None => reader.info = Some(call),
            },
        }
    }

    /// The first inbox's info request has no timeout of its own.
    fn info_timed_out(&self, inbox: u64, at: u64, now: u64) -> bool {
        let later = if inbox == 0 { None } else { Some(DEFAULT_TIMEOUT) };
        let settings = &self.setup.settings;
        let timeout = settings.context_timeout.or(settings.request_timeout).or(later);
        timeout.map_or(false, |timeout| due(now, at, timeout))
    }

    // Arrivals.

    /// Handles an arrival; whether it asks for a recreation.
    fn hear_pull(&mut self, reader: &mut PullReader, message: &Message) -> bool {
        match message.status {
            None | Some(200) => {
                reader.pending = reader.pending.saturating_sub(1);
                self.missed = false;
                self.deliver(message)
            }
            Some(100) => false,
            Some(408 | 409 | 423) => self.hear_status(reader, message),
            Some(503) => true,
            Some(_) => {
                self.item(ItemKind::Other);
                false
            }
        }
    }

    /// A status that ends a request, or says how much of it will not come.
    fn hear_status(&mut self, reader: &mut PullReader, message: &Message) -> bool {
        match message.description.as_deref() {
            Some("Consumer Deleted") => return true,
            Some("Consumer is push based") => self.end(ItemKind::PushBasedConsumer),
            Some(text) if text.starts_with("Exceeded MaxRequest") => {
                if !self.limited {
                    self.limited = true;
                    return true;
                }
                self.end(ItemKind::RequestLimitExceeded);
            }
            _ => match (number_in(message, "Nats-Pending-Messages"), number_in(message, "Nats-Pending-Bytes")) {
                (Some(messages), Some(_)) => {
                    reader.pending = reader.pending.saturating_sub(messages.unwrap_or(reader.batch));
                }
                _ => self.item(ItemKind::Other),
            },
        }
        false
    }
}

/// The number in the first header of the name: nothing in it where there is no header, and nothing where it can't be read.
fn number_in(message: &Message, name: &str) -> Option<Option<u64>> {
    message.first_header(name).map(str::parse).transpose().ok()
}
