#!/bin/sh
# A client of `pqd serve` by nc and jq: puts three messages into a durable queue, takes them out, and shows what it got.
# A message is sent as hexadecimal digits, two for each byte.
{
    echo '{"op":"create","queue":"lines","kind":"durable"}'
    for message in one two three; do
        value=$(printf %s "$message" | od -An -tx1 | tr -d ' \n')
        echo '{"op":"put","client":2,"queue":"lines","value":"'"$value"'"}'
    done
    for _ in 1 2 3 4; do
        echo '{"op":"take","client":3,"queue":"lines"}'
    done
} | nc -N 127.0.0.1 "$1" | jq -r '
    def digit: if . > 96 then . - 87 else . - 48 end;
    def text: [scan("..") | explode | map(digit) | .[0] * 16 + .[1]] | implode;
    if .got then .got | text else .reply end'
