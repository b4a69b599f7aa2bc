//! Configurations and infos of consumers, read from JSON.

use std::collections::BTreeMap;

use serde_json::Value;

use crate::fields::{defaulted, given, has_float, optional, required, Member, Object, Read, Unreadable};
use crate::instant::is_instant;

/// A text that is an instant. The instant itself is never used.
struct Instant;

impl Member for Instant {
    fn read(value: Value) -> Read<Instant> {
        let text = String::read(value)?;
        is_instant(&text).then_some(Instant).ok_or(Unreadable)
    }
}

/// One of the words of an enumeration.
#[derive(Clone, Copy, Debug, Default, PartialEq, Eq)]
pub enum ReplayPolicy {
    #[default]
    Instant,
    Original,
}

impl Member for ReplayPolicy {
    fn read(value: Value) -> Read<ReplayPolicy> {
        match String::read(value)?.as_str() {
            "instant" => Ok(ReplayPolicy::Instant),
            "original" => Ok(ReplayPolicy::Original),
            _ => Err(Unreadable),
        }
    }
}

/// A percentage, as digits with at most one `%` after them.
#[derive(Clone, Copy, Debug, Default)]
struct SampleFrequency(u8);

impl Member for SampleFrequency {
    fn read(value: Value) -> Read<SampleFrequency> {
        let text = String::read(value)?;
        let digits = text.strip_suffix('%').unwrap_or(&text);
        digits.parse().map(SampleFrequency).map_err(|_| Unreadable)
    }
}

/// Texts by their names.
#[derive(Debug, Default)]
struct Metadata(BTreeMap<String, String>);

impl Member for Metadata {
    fn read(value: Value) -> Read<Metadata> {
        let members = Object::read(value)?.into_iter();
        members.map(|(name, text)| Ok((name, String::read(text)?))).collect::<Read<_>>().map(Metadata)
    }
}

/// What an ordered consumer keeps of a configuration, and what a reader needs of an answered one.
#[derive(Debug)]
pub struct Config {
    pub deliver_subject: Option<String>,
    pub description: Option<String>,
    /// The sequence that the configuration asks for, where it starts by one.
    pub start_sequence: Option<u64>,
    pub filter_subject: String,
    pub filter_subjects: Vec<String>,
    pub replay_policy: ReplayPolicy,
    pub rate_limit: u64,
    pub sample_frequency: u8,
    pub max_waiting: i64,
    pub headers_only: bool,
    pub max_batch: i64,
    pub max_bytes: i64,
    pub max_expires: u64,
    pub metadata: BTreeMap<String, String>,
}

impl Member for Config {
    fn read(value: Value) -> Read<Config> {
        let object = &mut Object::read(value)?;
        test_what_is_not_kept(object)?;
        Ok(Config {
            deliver_subject: optional(object, "deliver_subject")?,
            description: optional(object, "description")?,
            start_sequence: start_sequence(object)?,
            filter_subject: defaulted(object, "filter_subject")?,
            filter_subjects: defaulted(object, "filter_subjects")?,
            replay_policy: defaulted(object, "replay_policy")?,
            rate_limit: defaulted(object, "rate_limit_bps")?,
            sample_frequency: given(object, "sample_freq")?.unwrap_or(SampleFrequency(0)).0,
            max_waiting: defaulted(object, "max_waiting")?,
            headers_only: defaulted(object, "headers_only")?,
            max_batch: defaulted(object, "max_batch")?,
            max_bytes: defaulted(object, "max_bytes")?,
            max_expires: defaulted(object, "max_expires")?,
            metadata: defaulted::<Metadata>(object, "metadata")?.0,
        })
    }
}

/// The start sequence under `by_start_sequence`. The other policies' keys are tested and dropped.
fn start_sequence(object: &mut Object) -> Read<Option<u64>> {
    match required::<String>(object, "deliver_policy")?.as_str() {
        "all" | "last" | "new" | "last_per_subject" => Ok(None),
        "by_start_sequence" => required(object, "opt_start_seq").map(Some),
        "by_start_time" => required::<Instant>(object, "opt_start_time").map(|_| None),
        _ => Err(Unreadable),
    }
}

/// Members that an ordered consumer replaces by its own, but that have to be of their kinds.
fn test_what_is_not_kept(object: &mut Object) -> Read<()> {
    for key in ["durable_name", "name", "deliver_group"] {
        optional::<String>(object, key)?;
    }
    word(object, "ack_policy", &["explicit", "none", "all", "flow_control"])?;
    word(object, "priority_policy", &["none", "overflow", "pinned_client", "prioritized"])?;
    for key in ["max_deliver", "max_ack_pending"] {
        given::<i64>(object, key)?;
    }
    for key in ["ack_wait", "idle_heartbeat", "inactive_threshold", "num_replicas", "priority_timeout"] {
        given::<u64>(object, key)?;
    }
    for key in ["flow_control", "mem_storage"] {
        given::<bool>(object, key)?;
    }
    given::<Vec<u64>>(object, "backoff")?;
    given::<Vec<String>>(object, "priority_groups")?;
    optional::<Instant>(object, "pause_until")?;
    Ok(())
}

/// A member that is absent or one of these words.
fn word(object: &mut Object, key: &str, words: &[&str]) -> Read<()> {
    match given::<String>(object, key)? {
        Some(text) if !words.contains(&text.as_str()) => Err(Unreadable),
        _ => Ok(()),
    }
}

/// What is used of a consumer's info.
#[derive(Debug)]
pub struct Info {
    pub stream_name: String,
    pub name: String,
    pub config: Config,
    pub num_waiting: u64,
}

impl Member for Info {
    fn read(value: Value) -> Read<Info> {
        let object = &mut Object::read(value)?;
        required::<Instant>(object, "created")?;
        required::<SequenceInfo>(object, "delivered")?;
        required::<SequenceInfo>(object, "ack_floor")?;
        for key in ["num_ack_pending", "num_redelivered", "num_pending"] {
            required::<u64>(object, key)?;
        }
        optional::<Cluster>(object, "cluster")?;
        for key in ["push_bound", "paused"] {
            given::<bool>(object, key)?;
        }
        optional::<u64>(object, "pause_remaining")?;
        given::<Vec<PriorityGroup>>(object, "priority_groups")?;
        Ok(Info {
            stream_name: required(object, "stream_name")?,
            name: required(object, "name")?,
            config: required(object, "config")?,
            num_waiting: required(object, "num_waiting")?,
        })
    }
}

struct SequenceInfo;

impl Member for SequenceInfo {
    fn read(value: Value) -> Read<SequenceInfo> {
        let object = &mut Object::read(value)?;
        required::<u64>(object, "consumer_seq")?;
        required::<u64>(object, "stream_seq")?;
        optional::<Instant>(object, "last_active")?;
        Ok(SequenceInfo)
    }
}

struct Cluster;

impl Member for Cluster {
    fn read(value: Value) -> Read<Cluster> {
        let object = &mut Object::read(value)?;
        optional::<String>(object, "name")?;
        optional::<String>(object, "leader")?;
        Ok(Cluster)
    }
}

struct PriorityGroup;

impl Member for PriorityGroup {
    fn read(value: Value) -> Read<PriorityGroup> {
        let object = &mut Object::read(value)?;
        required::<String>(object, "group")?;
        optional::<String>(object, "pinned_client_id")?;
        optional::<Instant>(object, "pinned_ts")?;
        Ok(PriorityGroup)
    }
}

/// An error that the API answers.
struct ApiError;

impl Member for ApiError {
    fn read(value: Value) -> Read<ApiError> {
        let object = &mut Object::read(value)?;
        required::<u64>(object, "code")?;
        given::<u64>(object, "err_code")?;
        optional::<String>(object, "description")?;
        Ok(ApiError)
    }
}

/// The info in an answer's body; nothing where it holds an error or does not read.
pub fn answered_info(body: &str) -> Option<Info> {
    let mut value: Value = serde_json::from_str(body).ok()?;
    if has_float(&value) {
        return None;
    }
    let error = value.as_object_mut()?.remove("error");
    if error.map_or(false, |error| ApiError::read(error).is_ok()) {
        return None;
    }
    Info::read(value).ok()
}
