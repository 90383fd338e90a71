"""What the reader of examples/from_jepsen.py reads: values of EDN as its definition has them, and what is no value."""
import os
import sys

sys.path.insert(0, os.path.join(os.path.dirname(os.path.abspath(__file__)), "../../examples"))
from from_jepsen import Reader, lines_of

READ = [
    ("nil true false", [None, True, False]),
    ("0 -7 +7 12N 1.5 -2.5e3 3M", [0, -7, 7, 12, 1.5, -2500.0, 3]),
    (r'"a \"b\" \\ \n A" ""', ['a "b" \\ \n A', ""]),
    (r"\a \newline \A \(", ["a", "\n", "A", "("]),
    (":invoke sym-bol a/b - +", [":invoke", "sym-bol", "a/b", "-", "+"]),
    ("[1, (2 3) #{4}]", [[1, [2, 3], [4]]]),
    ("{:a 1, :b [nil]} {}", [{":a": 1, ":b": [None]}, {}]),
    ("{[1 2] 3}", [{"[1, 2]": 3}]),
    ("; a comment\n1 ; another\n", [1]),
    ("1 #_ 2 #_ [3 #_ 4] 5", [1, 5]),
    ('#inst "2026-01-01" #jepsen.history.Op{:index 0}', ["2026-01-01", {":index": 0}]),
    ("", []),
]
NOT_READ = ["[1", '"a', "{:a}", ")", "[1 }", r'"\q"', "#_"]
NO_HISTORY = [
    "7",
    "{:type :ok :process 0 :f :enqueue :value 1}",
    "{:type :invoke :process 0 :f :enqueue :value 1} {:type :invoke :process 0 :f :dequeue}",
    "{:type :invoke :process 0 :f :enqueue :value 1} {:type :ok :process 0 :f :dequeue :value 1}",
    "{:type :invoke :process 0 :f :drain}",
    "{:type :invoke :process 0 :f :drain} {:type :info :process 0 :f :drain}",
    "{:type :invoke :process 0 :f :dequeue} {:type :info :f :kill} {:type :ok :process 0 :f :dequeue}",
]


def is_refused(call):
    try:
        call()
    except ValueError:
        return True
    return False


for text, wanted in READ:
    read = list(Reader(text).values())
    assert read == wanted, (text, read)
for text in NOT_READ:
    assert is_refused(lambda: list(Reader(text).values())), text
for text in NO_HISTORY:
    assert is_refused(lambda: lines_of(text, ["kill"])), text
