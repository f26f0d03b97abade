#!/usr/bin/env python3
"""use_address_again.py PROGRAM CALLS ROUNDS: an endpoint is made at one address, waited on and deleted, in so many rounds.

The set-up is written to the program's standard input, and its whole report is compared. In the end the endpoint is made
once more, and nobody waits on it. So it is over the other pairs of stores, which CALLS runs, the program of crates/test_calls.
"""
import sys

from program import PAIRS, run

SIZES = """format = 1
memory_bits = 16
root_radix = 4
threads = 2
endpoints = 1
untyped = [{ base = 16384, bits = 12 }]
"""
RETYPE = '{ thread = 2048, op = "retype", cap = 5, kind = 2, root = 1, offset = 8, count = 1 }'
SEND = '{ thread = 4096, op = "send", cap = 8 }'
DELETE = '{ thread = 2048, op = "delete", cap = 1, index = 8 }'
RECEIVE = '{ thread = 4096, op = "nbrecv", cap = 8 }'
REPLIES = {
    RETYPE: "2048 retype: done",
    SEND: "4096 send: waiting",
    DELETE: "2048 delete: done",
    RECEIVE: "4096 nbrecv: empty",
}
END = """thread 2048 ready
thread 4096 ready
endpoint 6144 idle
endpoint 16384 idle
slot 32 cnode 0 radix 4 guard 0 size 60 children
slot 64 tcb 2048
slot 96 tcb 4096
slot 128 endpoint 6144 badge 0 rights wrgp
slot 160 untyped 16384 bits 12 free 16 children
slot 256 endpoint 16384 badge 0 rights wrgp
slot 2048 cnode 0 radix 4 guard 0 size 60
slot 4096 cnode 0 radix 4 guard 0 size 60
expected 0 of 0
"""


def main():
    program, other, rounds = sys.argv[1], sys.argv[2], int(sys.argv[3])
    calls = [RETYPE, SEND, DELETE] * rounds + [RETYPE, RECEIVE]
    setup = SIZES + "call = [\n" + "".join(f"  {call},\n" for call in calls) + "]\n"
    wanted = "".join(f"{number} {REPLIES[call]}\n" for number, call in enumerate(calls, 1)) + END
    wrong = [words[1:] for words in ([program, "check"], *([other, *pair] for pair in PAIRS)) if run(*words, text=setup) != (0, wanted)]
    print(f"an address used again in {rounds} rounds: {f'failed by {wrong}' if wrong else 'passed'}")
    return 1 if wrong else 0


sys.exit(main())
