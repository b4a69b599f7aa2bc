//! `frames receive MESSAGES` and `frames send MESSAGES`: what the lines `receive` and `send` of the crate benchmarks do, in
//! plain Rust, and the same line. A client over no socket: bytes come in pieces, and messages go to their subscription's
//! queue; what is published waits in a queue, and is written as the bytes to send.

mod client;

use client::{Client, Damage, Refused};
use std::process::ExitCode;

/// How many messages the server sends, or the client publishes, at once.
const BATCH: u64 = 1_000;
/// The greatest length of a piece that comes, in bytes.
const PIECE: usize = 65_536;
const SUBJECT: &str = "log.line";

fn payload() -> Vec<u8> {
    b"0123456789abcdef".repeat(8)
}

fn greeted() -> Result<Client, Damage> {
    let mut client = Client::new();
    client.received(b"INFO {\"max_payload\":1048576}\r\n")?;
    client.write();
    client.sent(client.to_send().len());
    Ok(client)
}

fn receive(messages: u64) -> Result<u64, Damage> {
    let mut client = greeted()?;
    let subscription = client.subscribe(SUBJECT);
    let mut frame = format!("MSG {SUBJECT} {subscription} 128\r\n").into_bytes();
    frame.extend_from_slice(&payload());
    frame.extend_from_slice(b"\r\n");
    let frames = frame.repeat(BATCH as usize);
    let mut received = 0;
    for _ in 0..messages / BATCH {
        for piece in frames.chunks(PIECE) {
            client.received(piece)?;
            while client.take(subscription).is_some() {
                received += 1;
            }
        }
    }
    Ok(received)
}

fn send(messages: u64) -> Result<usize, Damage> {
    let mut client = greeted()?;
    let payload = payload();
    let mut sent = 0;
    for _ in 0..messages / BATCH {
        for _ in 0..BATCH {
            client.publish(SUBJECT, None, &payload).map_err(|Refused| Damage)?;
        }
        client.write();
        let count = client.to_send().len();
        client.sent(count);
        sent += count;
    }
    Ok(sent)
}

fn main() -> ExitCode {
    let words: Vec<String> = std::env::args().skip(1).collect();
    let done = match (words.first().map(String::as_str), words.get(1).and_then(|word| word.parse().ok())) {
        (Some("receive"), Some(messages)) => receive(messages).map(|count| println!("{count} received")),
        (Some("send"), Some(messages)) => send(messages).map(|count| println!("{count} bytes sent")),
        _ => return ExitCode::from(2),
    };
    match done {
        Ok(()) => ExitCode::SUCCESS,
        Err(Damage) => ExitCode::FAILURE,
    }
}
