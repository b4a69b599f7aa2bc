//! The recreation of a consumer: its tries, each of a delete request and a create request.

use crate::replay::{
    answer_to, arrival_on, due, good_info, wait_after, Consumer, ItemKind, Phase, SequenceEnd, Start, DEFAULT_TIMEOUT,
};
use crate::transcript::{Event, Message, Mode};
use crate::{config::Info, requests};

pub struct Recreation<'s> {
    pub serial: u64,
    pub start: Start,
    /// Tries that have failed.
    pub failures: u64,
    pub stage: Stage<'s>,
}

pub enum Stage<'s> {
    Deleting { request: u64, at: u64 },
    Creating { request: u64, at: u64, inbox: Option<u64>, held: Vec<&'s Message> },
    Retry { since: u64 },
}

impl<'s> Consumer<'s> {
    /// Makes a try: asks for the old consumer's deletion, or with the link down goes on to the create.
    pub fn begin_try(&mut self, recreation: Recreation<'s>, now: u64) {
        if self.up {
            let subject = self.subjects.delete(recreation.serial - 1);
            let request = self.request(subject, "{}".into());
            self.go_on(recreation, Stage::Deleting { request, at: now });
        } else {
            self.create(recreation, now);
        }
    }

    fn go_on(&mut self, recreation: Recreation<'s>, stage: Stage<'s>) {
        self.phase = Phase::Recreating(Recreation { stage, ..recreation });
    }

    fn create(&mut self, recreation: Recreation<'s>, now: u64) {
        if !self.up {
            return self.fail(recreation, now);
        }
        let inbox = (self.setup.mode == Mode::Push).then(|| self.subscribe());
        let deliver_subject = inbox.map(|inbox| self.subjects.inbox(inbox));
        let name = self.subjects.name(recreation.serial);
        let body = requests::create_body(self.setup, &name, recreation.start, deliver_subject);
        let request = self.request(self.subjects.create(&name), body);
        self.go_on(recreation, Stage::Creating { request, at: now, inbox, held: Vec::new() });
    }

    /// The next try follows after a wait, or the recreation is given up.
    fn fail(&mut self, recreation: Recreation<'s>, now: u64) {
        let failures = recreation.failures + 1;
        if failures > self.setup.settings.retries {
            self.item(ItemKind::Recreate);
            self.phase = Phase::Idle;
        } else {
            self.go_on(Recreation { failures, ..recreation }, Stage::Retry { since: now });
        }
    }

    pub fn step_recreation(&mut self, mut recreation: Recreation<'s>, event: &'s Event) -> Result<(), SequenceEnd> {
        let now = event.at;
        match std::mem::replace(&mut recreation.stage, Stage::Retry { since: now }) {
            Stage::Retry { since } if due(now, since, wait_after(recreation.failures)) => {
                self.begin_try(recreation, now)
            }
            Stage::Deleting { request, at } if answer_to(request, event).is_some() || self.timed_out(at, now) => {
                self.create(recreation, now);
            }
            Stage::Creating { request, at, inbox, mut held } => {
                held.extend(inbox.and_then(|inbox| arrival_on(inbox, event)));
                match answer_to(request, event) {
                    Some(reply) => match good_info(reply).filter(|info| self.is_fit(info)) {
                        Some(info) => return self.succeed(recreation, &info, inbox, held, now),
                        None => self.fail(recreation, now),
                    },
                    None if self.timed_out(at, now) => self.fail(recreation, now),
                    None => self.go_on(recreation, Stage::Creating { request, at, inbox, held }),
                }
            }
            stage => self.go_on(recreation, stage),
        }
        Ok(())
    }

    /// Whether the new consumer delivers as this one reads.
    fn is_fit(&self, info: &Info) -> bool {
        self.setup.mode == Mode::Pull || info.config.deliver_subject.is_some()
    }

    fn timed_out(&self, at: u64, now: u64) -> bool {
        let settings = &self.setup.settings;
        due(now, at, settings.context_timeout.or(settings.request_timeout).unwrap_or(DEFAULT_TIMEOUT))
    }

    /// Reads the new consumer: push its held arrivals first, of which one may ask for the next recreation.
    fn succeed(
        &mut self,
        recreation: Recreation<'s>,
        info: &Info,
        inbox: Option<u64>,
        held: Vec<&'s Message>,
        now: u64,
    ) -> Result<(), SequenceEnd> {
        match inbox {
            Some(inbox) => {
                for message in held {
                    if self.hear_push(message) {
                        return self.start_recreation(now);
                    }
                }
                self.read_inbox(inbox, info, now);
            }
            None if self.up => {
                let inbox = self.subscribe();
                self.read_inbox(inbox, info, now);
            }
            None => self.fail(recreation, now),
        }
        Ok(())
    }
}
