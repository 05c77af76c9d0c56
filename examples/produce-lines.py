#!/usr/bin/python3
"""Produces each whole line of the input as a message, in order, as it comes: docs/DEPLOY.md.

    produce-lines.py BROKERS TOPIC

It wants the client library confluent_kafka (Debian's package python3-confluent-kafka). A last line that was cut is left out, and so is
a floor's line, which changes no answer but may stand only first. It waits for brokers that are gone, and ends where a message is
refused."""
import sys

from confluent_kafka import Producer

brokers, topic = sys.argv[1:3]
refused = []


def delivered(error, message):
    if error is not None:
        refused.append(error)


producer = Producer({
    "bootstrap.servers": brokers,
    "enable.idempotence": True,
    "message.timeout.ms": 0,
    "message.max.bytes": 2200000,
})
for line in sys.stdin.buffer:
    if not line.endswith(b"\n") or line.startswith(b"floor\t"):
        continue
    while True:
        try:
            producer.produce(topic, line[:-1], partition=0, on_delivery=delivered)
            break
        except BufferError:
            producer.poll(0.1)
    producer.poll(0)
    if refused:
        sys.exit(str(refused[0]))
producer.flush()
