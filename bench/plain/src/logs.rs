//! `project FILTER`, `mirror` and `relay STREAM NAME`: the table, the mirror and the transcript of what a run yields.

use std::collections::BTreeMap;
use std::io::{self, BufWriter, Write};

use serde_json::json;

use crate::replay::{Output, Run};
use crate::text::write_text;
use crate::transcript::Setup;

/// A message of a log.
pub struct Entry<'r> {
    sequence: u64,
    subject: &'r str,
    payload: &'r str,
}

/// Why there is no table and no mirror.
pub enum NoLog {
    NoStart,
    NotRising(u64),
}

/// The start that the setup asks for.
pub fn start(setup: &Setup) -> Result<u64, NoLog> {
    setup.config.start_sequence.filter(|start| *start > 0).ok_or(NoLog::NoStart)
}

/// What the run yields, in order. The sequences have to rise, and be at or past the start.
pub fn entries(run: &Run, start: u64) -> Result<Vec<Entry<'_>>, NoLog> {
    let mut entries = Vec::new();
    let mut last = start - 1;
    for (_, output) in &run.outputs {
        if let Output::Yield { stream_sequence, payload, subject, .. } = output {
            if *stream_sequence <= last {
                return Err(NoLog::NotRising(last));
            }
            last = *stream_sequence;
            entries.push(Entry { sequence: last, subject, payload });
        }
    }
    Ok(entries)
}

/// The last entry of each subject that the filter matches, where its payload is not empty.
pub fn write_table(output: &mut impl Write, entries: &[Entry], filter: &str) -> io::Result<()> {
    let mut writer = BufWriter::new(output);
    let mut table = BTreeMap::new();
    for entry in entries {
        if entry.payload.is_empty() {
            table.remove(entry.subject);
        } else {
            table.insert(entry.subject, entry);
        }
    }
    let mut rows = 0;
    for entry in table.values().filter(|entry| matches(filter, entry.subject)) {
        write!(writer, "[\"entry\",")?;
        write_text(&mut writer, entry.subject)?;
        write!(writer, ",{},", entry.sequence)?;
        write_text(&mut writer, entry.payload)?;
        writer.write_all(b"]\n")?;
        rows += 1;
    }
    writeln!(writer, "[\"table\",{rows},{}]", entries.last().map_or(0, |entry| entry.sequence))?;
    writer.flush()
}

/// The entries in order, with the holes between them.
pub fn write_mirror(output: &mut impl Write, entries: &[Entry], start: u64) -> io::Result<()> {
    let mut writer = BufWriter::new(output);
    let (mut next, mut holes) = (start, 0);
    for entry in entries {
        if next < entry.sequence {
            writeln!(writer, "[\"hole\",{next},{}]", entry.sequence - 1)?;
            holes += entry.sequence - next;
        }
        next = entry.sequence.wrapping_add(1);
        write!(writer, "[\"message\",{},", entry.sequence)?;
        write_text(&mut writer, entry.subject)?;
        writer.write_all(b",")?;
        write_text(&mut writer, entry.payload)?;
        writer.write_all(b"]\n")?;
    }
    writeln!(writer, "[\"mirror\",{start},{},{},{holes}]", next.wrapping_sub(1), entries.len())?;
    writer.flush()
}

/// The transcript of a consumer that is sent the entries.
pub fn write_relay(output: &mut impl Write, setup: &Setup, entries: &[Entry], start: u64, stream: &str, name: &str) -> io::Result<()> {
    let mut writer = BufWriter::new(output);
    let mut config = json!({"deliver_policy": "by_start_sequence", "opt_start_seq": start});
    if !setup.config.filter_subject.is_empty() {
        config["filter_subject"] = json!(setup.config.filter_subject);
    }
    if !setup.config.filter_subjects.is_empty() {
        config["filter_subjects"] = json!(setup.config.filter_subjects);
    }
    let nowhere = json!({"consumer_seq": 0, "stream_seq": 0});
    let info = json!({
        "ack_floor": nowhere, "config": config, "created": "2026-01-01T00:00:00Z", "delivered": nowhere, "name": name, "num_ack_pending": 0,
        "num_pending": 0, "num_redelivered": 0, "num_waiting": 0, "stream_name": stream,
    });
    writeln!(writer, "{}", json!({"config": config, "info": info, "mode": "pull", "settings": {}, "start": 0}))?;
    for (place, entry) in entries.iter().enumerate() {
        writer.write_all(b"{\"arrival\":{\"inbox\":0,\"payload\":")?;
        write_text(&mut writer, entry.payload)?;
        writer.write_all(b",\"reply\":")?;
        write_text(&mut writer, &format!("$JS.ACK.{stream}.{name}.1.{}.{}.0.0", entry.sequence, place + 1))?;
        writer.write_all(b",\"subject\":")?;
        write_text(&mut writer, entry.subject)?;
        writeln!(writer, "}},\"at\":{}}}", place + 1)?;
    }
    writer.flush()
}

/// The line of what was refused.
pub fn write_no_log(output: &mut impl Write, refusal: &NoLog) -> io::Result<()> {
    let line = match refusal {
        NoLog::NoStart => json!(["refused", "NoStart"]),
        NoLog::NotRising(last) => json!(["refused", "NotRising", last]),
    };
    writeln!(output, "{line}")?;
    output.flush()
}

/// Whether the filter matches the subject, token by token.
fn matches(filter: &str, subject: &str) -> bool {
    let mut tokens = subject.split('.');
    let mut wanted = filter.split('.').peekable();
    while let Some(token) = wanted.next() {
        if token == ">" && wanted.peek().is_none() {
            return tokens.next().is_some();
        }
        if !tokens.next().map_or(false, |found| token == "*" || token == found) {
            return false;
        }
    }
    tokens.next().is_none()
}
