//! The text of a run, and the line of a refusal.

use std::io::{self, BufWriter, Write};

use serde_json::json;

use crate::replay::{Output, Refusal, Run, Start};

/// Writes one line for each output, and the line of the end.
pub fn write_run(output: &mut impl Write, run: &Run, events: usize) -> io::Result<()> {
    let mut writer = BufWriter::new(output);
    for (step, output) in &run.outputs {
        write_output(&mut writer, *step, output)?;
    }
    writeln!(writer, "[\"end\",{},{events}]", run.ended)?;
    writer.flush()
}

fn write_output(writer: &mut impl Write, step: usize, output: &Output) -> io::Result<()> {
    match output {
        Output::Yield { stream_sequence, consumer_sequence, payload, subject } => {
            write!(writer, "[{step},\"yield\",{stream_sequence},{consumer_sequence},")?;
            write_text(writer, payload)?;
            if !subject.is_empty() {
                writer.write_all(b",")?;
                write_text(writer, subject)?;
            }
        }
        Output::Item(kind) => write!(writer, "[{step},\"item\",\"{kind:?}\"")?,
        Output::Recreate { serial, start: Start::All } => write!(writer, "[{step},\"recreate\",{serial},\"all\"")?,
        Output::Recreate { serial, start: Start::From(sequence) } => {
            write!(writer, "[{step},\"recreate\",{serial},{sequence}")?;
        }
        Output::Request { number, subject, payload } => {
            write!(writer, "[{step},\"request\",{number},")?;
            write_text(writer, subject)?;
            writer.write_all(b",")?;
            write_text(writer, payload)?;
        }
        Output::Publish { subject, reply, payload } => {
            write!(writer, "[{step},\"publish\",")?;
            write_text(writer, subject)?;
            writer.write_all(b",")?;
            serde_json::to_writer(&mut *writer, reply)?;
            writer.write_all(b",")?;
            write_text(writer, payload)?;
        }
        Output::Subscribe { inbox, subject } => {
            write!(writer, "[{step},\"subscribe\",{inbox},")?;
            write_text(writer, subject)?;
        }
    }
    writer.write_all(b"]\n")
}

pub fn write_text(writer: &mut impl Write, text: &str) -> io::Result<()> {
    serde_json::to_writer(writer, text).map_err(io::Error::from)
}

/// Writes the one line of a refusal.
pub fn write_refusal(output: &mut impl Write, refusal: &Refusal) -> io::Result<()> {
    let line = match refusal {
        Refusal::NoDeliverSubject => json!(["refused", "NoDeliverSubject"]),
        Refusal::BadSettings(field) => json!(["refused", "BadSettings", field]),
        Refusal::BadEvent(place) => json!(["refused", "BadEvent", place]),
        Refusal::SequenceEnd(place) => json!(["refused", "SequenceEnd", place]),
    };
    writeln!(output, "{line}")?;
    output.flush()
}
