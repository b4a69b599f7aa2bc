//! A live table of a bucket: the last entries of each key, by messages that lie in a queue in memory.

use crate::ack::read_delivery;
use std::collections::{HashMap, VecDeque};
use std::sync::Arc;

/// How many messages are delivered at once.
const BATCH: u64 = 500;
const BUCKET: &str = "config";
const PREFIX: &str = "$KV.config.";

struct Message {
    subject: String,
    reply: String,
    payload: Arc<[u8]>,
    headers: Option<HashMap<String, Vec<String>>>,
}

#[derive(Clone, Copy, PartialEq, Eq)]
enum Operation {
    Put,
    Delete,
    Purge,
}

/// A change of a key, as it is told and kept.
#[derive(Clone)]
#[allow(dead_code)]
struct Entry {
    bucket: String,
    key: String,
    value: Arc<[u8]>,
    revision: u64,
    operation: Operation,
    created: i128,
    delta: u64,
}

/// The value of a key of the bucket with this sequence in the stream, and as many messages of the consumer before it.
fn change(key: u64, sequence: u64) -> Message {
    Message {
        subject: format!("{PREFIX}{key}"),
        reply: format!("$JS.ACK.log.c1.1.{sequence}.{sequence}.1790230470084404000.0"),
        payload: Arc::from(&b"0123456789abcdef"[..]),
        headers: None,
    }
}

fn operation_of(message: &Message) -> Operation {
    let named = |name| message.headers.as_ref()?.get(name)?.first().map(String::as_str);
    match (named("KV-Operation"), named("Nats-Marker-Reason")) {
        (Some("DEL"), _) => Operation::Delete,
        (Some("PURGE"), _) | (None, Some("MaxAge" | "Purge")) => Operation::Purge,
        (Some(_), _) | (None, None) => Operation::Put,
        (None, Some(_)) => Operation::Delete,
    }
}

/// The rows of a table, of which each keeps so many entries of a key.
struct Table {
    rows: HashMap<String, VecDeque<Entry>>,
    history: usize,
    /// The number of the consumer's next message.
    number: u64,
}

impl Table {
    fn new(history: usize) -> Self {
        Self { rows: HashMap::new(), history, number: 1 }
    }

    /// Takes the next message of the consumer, and tells its change; or nothing where a message before it is missing.
    fn apply(&mut self, message: Message) -> Option<Entry> {
        let delivery = read_delivery(&message.reply)?;
        if delivery.consumer_sequence != self.number {
            return None;
        }
        self.number += 1;
        let entry = Entry {
            bucket: BUCKET.into(),
            key: message.subject.strip_prefix(PREFIX)?.into(),
            operation: operation_of(&message),
            value: message.payload,
            revision: delivery.stream_sequence,
            created: delivery.published,
            delta: delivery.pending,
        };
        self.keep(&entry);
        Some(entry)
    }

    fn keep(&mut self, entry: &Entry) {
        let Some(row) = self.rows.get_mut(&entry.key) else {
            self.rows.insert(entry.key.clone(), VecDeque::from([entry.clone()]));
            return;
        };
        if entry.operation == Operation::Purge {
            row.clear();
        }
        while row.len() >= self.history {
            row.pop_front();
        }
        row.push_back(entry.clone());
    }

    fn entry_count(&self) -> usize {
        self.rows.values().map(VecDeque::len).sum()
    }
}

/// How many changes a table tells, each of the next of so many keys, and how many entries it keeps of them.
pub fn read(changes: u64, keys: u64) -> (u64, usize) {
    let (mut table, mut inbox, mut told) = (Table::new(1), VecDeque::new(), 0);
    for batch in 0..changes.div_ceil(BATCH) {
        let first = batch * BATCH + 1;
        inbox.extend((first..=changes.min(first + BATCH - 1)).map(|sequence| change(sequence % keys, sequence)));
        while let Some(message) = inbox.pop_front() {
            told += u64::from(table.apply(message).is_some());
        }
    }
    (told, table.entry_count())
}

#[cfg(test)]
mod tests {
    use super::*;

    fn after(history: usize, operations: &[Option<&str>]) -> Vec<u64> {
        let mut table = Table::new(history);
        for (sequence, operation) in (1..).zip(operations) {
            let headers = operation.map(|it| HashMap::from([("KV-Operation".into(), vec![it.into()])]));
            assert!(table.apply(Message { headers, ..change(7, sequence) }).is_some());
        }
        table.rows["7"].iter().map(|entry| entry.revision).collect()
    }

    #[test]
    fn keeps_the_last_entries() {
        assert_eq!(after(1, &[None, None, None]), [3]);
        assert_eq!(after(2, &[None, None, Some("DEL")]), [2, 3]);
        assert_eq!(after(2, &[None, None, Some("PURGE"), None]), [3, 4]);
        assert_eq!(read(1000, 300), (1000, 300));
    }

    #[test]
    fn tells_no_change_after_a_loss() {
        let mut table = Table::new(1);
        assert!(table.apply(change(7, 2)).is_none());
    }
}
