//! `replay`, `project FILTER`, `mirror` and `relay STREAM NAME` in plain Rust: each reads a transcript from standard input and writes its text. `info CALLS SUBJECT` reads
//! an acknowledgement subject so many times, and prints whether it reads. `poll MODE MESSAGES` has an ordered consumer hear so many messages, and prints how many it yields.
//! `table CHANGES KEYS` has a live table of a bucket read so many changes, each of the next of so many keys, and prints how many it tells and how many entries it keeps.
//!
//! It is written from the repository's documents alone, with one `serde_json::Value` a line, and shares no line with the
//! proved program. The bench measures the proved program against it, and compares what the two write.

mod ack;
mod config;
mod fields;
mod instant;
mod logs;
mod names;
mod pull;
mod push;
mod recreation;
mod replay;
mod requests;
mod table;
mod text;
mod transcript;

use logs::{Entry, NoLog};
use names::is_valid_name;
use std::hint::black_box;
use std::io::{self, Read, Write};
use std::num::NonZeroU64;
use std::process::ExitCode;
use transcript::{Setup, Transcript};

/// The most bytes that a transcript may have.
const LIMIT: usize = 67_108_864;

/// How a call ended, with the number of its exit status.
enum Status {
    Done,
    ReadFault,
    Usage,
    BadLine(usize),
    WriteFault,
    Refused,
    TooLong,
}

impl Status {
    fn exit(&self) -> u8 {
        match self {
            Status::Done => 0,
            Status::ReadFault => 1,
            Status::Usage => 2,
            Status::BadLine(_) => 3,
            Status::WriteFault => 4,
            Status::Refused => 6,
            Status::TooLong => 7,
        }
    }

    /// What goes to standard error; nothing where all went well.
    fn line(&self) -> Option<String> {
        match self {
            Status::Done => None,
            Status::ReadFault => Some("ReadFault".into()),
            Status::Usage => Some("Usage".into()),
            Status::BadLine(line) => Some(format!("BadLine {line}")),
            Status::WriteFault => Some("WriteFault".into()),
            Status::Refused => Some("Refused".into()),
            Status::TooLong => Some("TooLong".into()),
        }
    }
}

fn main() -> ExitCode {
    let words: Vec<String> = std::env::args().skip(1).collect();
    let status = match &words[..] {
        [command] if command == "replay" => replay(&mut io::stdin().lock(), &mut io::stdout().lock()),
        [command, filter] if command == "project" => project(filter, &mut io::stdin().lock(), &mut io::stdout().lock()),
        [command] if command == "mirror" => mirror(&mut io::stdin().lock(), &mut io::stdout().lock()),
        [command, stream, name] if command == "relay" && is_valid_name(stream) && is_valid_name(name) => {
            relay(stream, name, &mut io::stdin().lock(), &mut io::stdout().lock())
        }
        [command, calls, subject] if command == "info" => info(calls, subject),
        [command, mode, messages] if command == "poll" => poll(mode, messages),
        [command, changes, keys] if command == "table" => table(changes, keys),
        _ => Status::Usage,
    };
    if let Some(line) = status.line() {
        eprintln!("{line}");
    }
    ExitCode::from(status.exit())
}

/// Reads a subject so many times.
fn info(calls: &str, subject: &str) -> Status {
    let Ok(calls) = calls.parse::<u64>() else {
        return Status::Usage;
    };
    let mut reads = false;
    for _ in 0..calls {
        reads = ack::read_delivery(black_box(subject)).is_some();
    }
    println!("{reads}");
    Status::Done
}

/// How many messages a consumer of `poll` hears.
const BATCH: u64 = 500;

/// Has an ordered consumer hear the messages of a batch, which lie in memory; as often as so many messages have whole batches.
fn poll(mode: &str, messages: &str) -> Status {
    let Ok(messages) = messages.parse::<u64>() else {
        return Status::Usage;
    };
    let batch = match transcript::read(batch(mode).as_bytes()) {
        Ok(batch) => batch,
        Err(line) => return Status::BadLine(line),
    };
    let mut yielded = 0;
    for _ in 0..messages / BATCH {
        match replay::replay_ordered(&batch.setup, black_box(&batch.events)) {
            Ok(run) => yielded += yields(&run),
            Err(_) => return Status::Refused,
        }
    }
    println!("{yielded} read by {mode}");
    Status::Done
}

/// The transcript of a batch.
fn batch(mode: &str) -> String {
    let config = r#""deliver_policy":"all","deliver_subject":"deliver""#;
    let sequences = r#"{"consumer_seq":0,"stream_seq":0}"#;
    let mut text = format!(
        r#"{{"mode":"{mode}","start":0,"settings":{{}},"config":{{{config}}},"info":{{"stream_name":"log","name":"c1","created":"2026-01-01T00:00:00Z","config":{{{config}}},"delivered":{sequences},"ack_floor":{sequences},"num_ack_pending":0,"num_redelivered":0,"num_waiting":0,"num_pending":0}}}}"#
    );
    for number in 1..=BATCH {
        text += &format!(
            "\n{{\"at\":0,\"arrival\":{{\"inbox\":0,\"subject\":\"log.line\",\"reply\":\"$JS.ACK.log.c1.1.{number}.{number}.1790230470084404000.0\",\"payload\":\"0123456789abcdef\"}}}}"
        );
    }
    text
}

fn yields(run: &replay::Run) -> usize {
    run.outputs.iter().filter(|(_, output)| matches!(output, replay::Output::Yield { .. })).count()
}

/// Has a table read so many changes of so many keys.
fn table(changes: &str, keys: &str) -> Status {
    let (Ok(changes), Ok(keys)) = (changes.parse(), keys.parse::<NonZeroU64>()) else {
        return Status::Usage;
    };
    let (told, kept) = table::read(changes, keys.get());
    println!("{told} changes told, {kept} entries kept");
    Status::Done
}

/// Reads the input to its end as a transcript.
fn read(input: &mut impl Read) -> Result<Transcript, Status> {
    let mut bytes = Vec::new();
    if input.read_to_end(&mut bytes).is_err() {
        return Err(Status::ReadFault);
    }
    if bytes.len() > LIMIT {
        return Err(Status::TooLong);
    }
    transcript::read(&bytes).map_err(Status::BadLine)
}

fn written(result: io::Result<()>) -> Status {
    result.map_or(Status::WriteFault, |()| Status::Done)
}

/// Replays the input, and writes the text of the run or the line of the refusal.
fn replay(input: &mut impl Read, output: &mut impl Write) -> Status {
    let transcript = match read(input) {
        Ok(transcript) => transcript,
        Err(status) => return status,
    };
    match replay::replay_ordered(&transcript.setup, &transcript.events) {
        Ok(run) => written(text::write_run(output, &run, transcript.events.len())),
        Err(refusal) => {
            // The input was refused, whether or not its line could be written.
            let _ = text::write_refusal(output, &refusal);
            Status::Refused
        }
    }
}

/// Replays the input, and writes the table of its yields.
fn project(filter: &str, input: &mut impl Read, output: &mut impl Write) -> Status {
    on_log(input, output, |output, _, entries, _| logs::write_table(output, entries, filter))
}

/// Replays the input, and writes its yields with the holes between them.
fn mirror(input: &mut impl Read, output: &mut impl Write) -> Status {
    on_log(input, output, |output, _, entries, start| logs::write_mirror(output, entries, start))
}

/// Replays the input, and writes the transcript of a consumer that is sent its yields.
fn relay(stream: &str, name: &str, input: &mut impl Read, output: &mut impl Write) -> Status {
    on_log(input, output, |output, setup, entries, start| logs::write_relay(output, setup, entries, start, stream, name))
}

fn on_log<W: Write>(input: &mut impl Read, output: &mut W, write: impl Fn(&mut W, &Setup, &[Entry], u64) -> io::Result<()>) -> Status {
    let transcript = match read(input) {
        Ok(transcript) => transcript,
        Err(status) => return status,
    };
    let start = match logs::start(&transcript.setup) {
        Ok(start) => start,
        Err(refusal) => return no_log(output, &refusal),
    };
    let run = match replay::replay_ordered(&transcript.setup, &transcript.events) {
        Ok(run) => run,
        Err(refusal) => {
            let _ = text::write_refusal(output, &refusal);
            return Status::Refused;
        }
    };
    match logs::entries(&run, start) {
        Ok(entries) => written(write(output, &transcript.setup, &entries, start)),
        Err(refusal) => no_log(output, &refusal),
    }
}

fn no_log(output: &mut impl Write, refusal: &NoLog) -> Status {
    let _ = logs::write_no_log(output, refusal);
    Status::Refused
}
