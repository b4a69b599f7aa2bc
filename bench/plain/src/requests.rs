//! The subjects and bodies of what the consumer sends.

use serde_json::{json, Map, Value};

use crate::config::ReplayPolicy;
use crate::replay::Start;
use crate::transcript::{Mode, Setup};

pub struct Subjects<'s> {
    pub setup: &'s Setup,
}

impl Subjects<'_> {
    /// The subject of an inbox; a push consumer's first inbox is its deliver subject.
    pub fn inbox(&self, number: u64) -> String {
        match (self.setup.mode, number, &self.setup.info.config.deliver_subject) {
            (Mode::Push, 0, Some(subject)) => subject.clone(),
            _ => format!("{}.{number}", self.setup.settings.inbox_prefix),
        }
    }

    /// The consumer's name after that many recreations.
    pub fn name(&self, serial: u64) -> String {
        match serial {
            0 => self.setup.info.name.clone(),
            serial => format!("{}_{serial}", self.setup.info.name),
        }
    }

    fn api(&self, call: &str, stream: &str, consumer: &str) -> String {
        format!("{}.CONSUMER.{call}.{stream}.{consumer}", self.setup.settings.api_prefix)
    }

    pub fn delete(&self, serial: u64) -> String {
        self.api("DELETE", &self.setup.info.stream_name, &self.name(serial))
    }

    pub fn create(&self, name: &str) -> String {
        let mut subject = self.api("CREATE", &self.setup.info.stream_name, name);
        let filter = &self.setup.config.filter_subject;
        if !filter.is_empty() {
            subject.push('.');
            subject.push_str(filter);
        }
        subject
    }

    pub fn info(&self, stream: &str, name: &str) -> String {
        self.api("INFO", stream, name)
    }

    pub fn next(&self, stream: &str, name: &str) -> String {
        self.api("MSG.NEXT", stream, name)
    }
}

/// The body of a pull request.
pub fn pull_body(batch: u64, expires: u64, heartbeat: u64) -> String {
    let mut body = json!({
        "batch": batch,
        "expires": expires,
        "group": null,
        "max_bytes": 0,
        "min_ack_pending": null,
        "min_pending": null,
        "priority": null,
    });
    if heartbeat > 0 {
        body["idle_heartbeat"] = heartbeat.into();
    }
    body.to_string()
}

/// The body of a create request: the setup's configuration under a new name and with its own start.
pub fn create_body(setup: &Setup, name: &str, start: Start, deliver_subject: Option<String>) -> String {
    let config = &setup.config;
    let mut written = Map::new();
    let mut set = |key: &str, value: Value| written.insert(key.into(), value);
    set("name", name.into());
    set("ack_policy", "none".into());
    set("max_deliver", 1.into());
    set("inactive_threshold", 30_000_000_000u64.into());
    set("num_replicas", 1.into());
    set("mem_storage", true.into());
    let replay_policy = match config.replay_policy {
        ReplayPolicy::Instant => "instant",
        ReplayPolicy::Original => "original",
    };
    set("replay_policy", replay_policy.into());
    match start {
        Start::All => set("deliver_policy", "all".into()),
        Start::From(sequence) => {
            set("opt_start_seq", sequence.into());
            set("deliver_policy", "by_start_sequence".into())
        }
    };
    if let Some(description) = &config.description {
        set("description", description.as_str().into());
    }
    if !config.filter_subject.is_empty() {
        set("filter_subject", config.filter_subject.as_str().into());
    }
    if !config.filter_subjects.is_empty() {
        set("filter_subjects", config.filter_subjects.clone().into());
    }
    if config.rate_limit != 0 {
        set("rate_limit_bps", config.rate_limit.into());
    }
    if config.sample_frequency != 0 {
        set("sample_freq", config.sample_frequency.to_string().into());
    }
    if config.max_waiting != 0 {
        set("max_waiting", config.max_waiting.into());
    }
    if config.headers_only {
        set("headers_only", true.into());
    }
    if !config.metadata.is_empty() {
        set("metadata", json!(config.metadata));
    }
    match deliver_subject {
        Some(subject) => {
            set("deliver_subject", subject.into());
            set("flow_control", true.into());
            set("idle_heartbeat", 5_000_000_000u64.into());
        }
        None => {
            if config.max_batch != 0 {
                set("max_batch", config.max_batch.into());
            }
            if config.max_bytes != 0 {
                set("max_bytes", config.max_bytes.into());
            }
            if config.max_expires != 0 {
                set("max_expires", config.max_expires.into());
            }
        }
    }
    json!({ "action": "", "config": written, "stream_name": setup.info.stream_name }).to_string()
}
