"""What stands in a transcript's lines: the setup with the first consumer, which is made here, and messages."""
import json
import os
import secrets

from plain import Connection

TOP = os.path.dirname(os.path.dirname(os.path.dirname(os.path.abspath(__file__))))
PROGRAM = os.path.join(TOP, "crates", "wilfjodi", "out", "wilfjodi")
SECOND = 1_000_000_000
API = "$JS.API"


class Refused(Exception):
    """The server has refused the request, or what it sent cannot stand in a line."""


def configuration(words, name, deliver_subject):
    """The consumer's configuration, as a create request has it."""
    config = {
        "name": name,
        "deliver_policy": "all",
        "ack_policy": "none",
        "max_deliver": 1,
        "replay_policy": "instant",
        "inactive_threshold": 30 * SECOND,
        "num_replicas": 1,
        "mem_storage": True,
    }
    if words.start is not None:
        config.update(deliver_policy="by_start_sequence", opt_start_seq=words.start)
    if words.filter:
        config["filter_subject"] = words.filter
    if words.push:
        config.update(deliver_subject=deliver_subject, flow_control=True, idle_heartbeat=5 * SECOND)
    elif words.expires:
        config["max_expires"] = int(words.expires * SECOND)
    return config


def asked(server, subject, body):
    """The answer of the API to a request that goes over a connection of its own."""
    connection = Connection(server)
    try:
        answer = connection.request(f"{API}.{subject}", json.dumps(body).encode())
    finally:
        connection.close()
    if answer.status == 503:
        raise Refused("the server has no JetStream")
    value = json.loads(answer.payload)
    if "error" in value:
        raise Refused(f"{subject}: {value['error'].get('description', value['error'])}")
    return value


def setup_line(words, inbox_prefix):
    """Makes the first consumer, whose messages go to inbox 0, and answers the setup line."""
    name = secrets.token_hex(4)
    config = configuration(words, name, f"{inbox_prefix}.0")
    subject = ".".join(["CONSUMER.CREATE", words.stream, name, *([words.filter] if words.filter else [])])
    info = asked(words.server, subject, {"action": "", "config": config, "stream_name": words.stream})
    return {"mode": "push" if words.push else "pull", "start": 0, "settings": {"inbox_prefix": inbox_prefix}, "config": config, "info": info}


def message_keys(message):
    """A message as an event's line has it."""
    try:
        keys = {"subject": message.subject, "payload": message.payload.decode("utf-8")}
    except UnicodeDecodeError as error:
        raise Refused(f"a payload on {message.subject} is no UTF-8, and cannot stand in a transcript") from error
    optional = {"reply": message.reply, "status": message.status, "description": message.description, "headers": message.headers or None}
    return {**keys, **{key: value for key, value in optional.items() if value is not None}}
