#!/usr/bin/env bash
# Words of queues at rest in fresh records, by the plain programs of bench/plain: drawn words and those of drawn runs,
# of both kinds of queue, with each verdict. And images that the built pqd renews, beside them. Plain programs that are
# wrong in one place are seen to fail. Then pqd serves connections beside plain lists, and renews queues meanwhile. It
# takes the program that the last `rt ci`, or `rt run` in crates/pqd, left, or the one that PQD names.
set -eu
cd "$(dirname "$0")/.."
. tests/cases.sh
pqd=${PQD:-$PWD/crates/pqd/out/pqd}
need "$pqd"
cp -r bench/plain "$work/plain"
cp -r bench/plain "$work/right"

renewal() {
    python3 -B tests/renewing.py "$work/plain" > "$work/out" 2>&1 || true
    difference 'renewal' tests/renewal.txt "$work/out"
}
renewed() {
    python3 -B tests/renewed.py "$work/plain" "$pqd" "$work" > "$work/out" 2>&1 || true
    difference 'renewed' tests/renewed.txt "$work/out"
}
# pqd serves with these options: OPTION..
serving() {
    python3 -B tests/serving_renewed.py "$pqd" "$@" > "$work/out" 2>&1 || true
    difference 'serving' tests/serving_renewed.txt "$work/out"
}
judge 'renewal' "$(renewal)"
judge 'renewed' "$(renewed)"
judge 'serving' "$(serving --renew)"
judge 'serving without renewals' "$([ -n "$(serving)" ] || echo 'no call finds its client without room')"

# The items' order, and two in one record; what is told, by whom, and of which call.
wrong renewal.py 'enumerate(self.items)' 'enumerate(reversed(self.items))' renewal
wrong renewal.py 'return 1 + client * self.new.records + 2 + turn' 'return 3 + turn' renewal
wrong renewal.py 'old.kept + [nothing]' 'old.kept[1:] + old.kept[:1] + [nothing]' renewal
wrong renewal.py 'self.put_entry(log, "number", told["number"])' 'self.put_entry(log, "number", 0)' renewal
wrong renewal.py '"mark")] = self.first(client) + 1' '"mark")] = self.first(client) + 1 if "got" in told else 0' renewal
wrong renewal.py '"mark")] = self.first(client) + 1' '"mark")] = self.first(0) + 1' renewal
wrong renewal.py 'if "got" in told or told.get("reply") == "done":' \
    'if "got" in told or told.get("reply") == "done" or told.get("told") == "nottaken":' renewal
# The records that are used, and the room.
wrong renewal.py '= 2 + max(0, turns)' '= 1 + max(0, turns)' renewal
wrong renewal.py 'count + 2 * clients <= clients * records' 'count + clients <= clients * records' renewal
# What pqd does is compared: the room, and what is told.
wrong renewal.py 'count + 2 * clients <= clients * records' 'count + 2 * clients < clients * records' renewed
wrong image.py 'queue.kept = [self.told(client)' 'queue.kept = [self.told(0)' renewed
count
