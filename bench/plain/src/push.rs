//! The push reader.

use crate::replay::{arrival_on, due, Consumer, ItemKind, Output, Phase, SequenceEnd, SECOND};
use crate::transcript::{Event, Message};

/// How long the reader waits for a message or a heartbeat.
const PATIENCE: u64 = 10 * SECOND;

/// The current inbox, and when it last heard something.
pub struct PushReader {
    pub inbox: u64,
    pub heard: u64,
}

impl Consumer<'_> {
    pub fn step_push(&mut self, mut reader: PushReader, event: &Event) -> Result<(), SequenceEnd> {
        let now = event.at;
        if let Some(message) = arrival_on(reader.inbox, event) {
            if self.hear_push(message) {
                return self.start_recreation(now);
            }
            reader.heard = now;
        } else if due(now, reader.heard, PATIENCE) {
            self.item(ItemKind::MissingHeartbeat);
            return self.start_recreation(now);
        }
        self.phase = Phase::Pushing(reader);
        Ok(())
    }

    /// Handles an arrival; whether it asks for a recreation.
    pub fn hear_push(&mut self, message: &Message) -> bool {
        match message.status {
            None => self.deliver(message),
            Some(100) => self.hear_beat(message),
            Some(_) => false,
        }
    }

    /// Answers flow control; a heartbeat that tells another number than the last one shows a gap.
    fn hear_beat(&mut self, message: &Message) -> bool {
        let told = match message.last_header("Nats-Last-Consumer").map(str::parse::<u64>) {
            None => None,
            Some(Ok(number)) => Some(number),
            Some(Err(_)) => {
                self.item(ItemKind::Other);
                return false;
            }
        };
        if let (true, Some(subject)) = (self.up, &message.reply) {
            self.put(Output::Publish { subject: subject.clone(), reply: None, payload: String::new() });
        }
        told.map_or(false, |number| number != self.number)
    }
}
