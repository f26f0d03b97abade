"""Questions about orders that are told twice: as a set-up for `sel4sim explore`, and as a Promela model for SPIN."""

import set_ups

# Each kind: what a client calls, by its number and the call's, both from 0 on. `messages`: one client receives, and the
# others send and nbsend in turn. `turns`: each sends and receives in turn. `apart`: each has an endpoint of its own.
KINDS = {
    "messages": lambda client, number: ("send", "nbsend")[number % 2] if client else "recv",
    "turns": lambda client, number: ("send", "recv")[(client + number) % 2],
    "apart": lambda client, number: "nbsend",
}

# How many steps lead from a state to one, where they are needed. SPIN counts them, and so says whether these are right.
STEPS = {"messages 3 x 20": 60_955}

# A call in a model.
PROMELA = {
    "send": "send({client}, {endpoint}, {label}, true)",
    "nbsend": "send({client}, {endpoint}, {label}, false)",
    "recv": "recv({client}, {endpoint})",
}


class Question:
    """Clients that make so many calls each, over one endpoint or each over its own. No two messages have one label."""

    def __init__(self, kind, clients, count):
        self.name = f"{kind} {clients} x {count}"
        self.clients = clients
        self.ops = [[KINDS[kind](client, number) for number in range(count)] for client in range(clients)]
        self.endpoint_of = list(range(clients)) if kind == "apart" else [0] * clients
        self.endpoints = max(self.endpoint_of) + 1

    def label(self, client, number):
        return number * self.clients + client + 1

    def call(self, client, number):
        op = self.ops[client][number]
        words = {"cap": 2 + self.clients + self.endpoint_of[client]}
        if op != "recv":
            words["label"] = self.label(client, number)
        return client, (set_ups.thread_of(client), op, words)

    def set_up(self, memory_bits=16):
        calls = [self.call(client, number) for client, own in enumerate(self.ops) for number in range(len(own))]
        return set_ups.of_clients(memory_bits, self.clients, self.endpoints, calls)

    def process(self, client):
        """The process of a client."""
        lines = ""
        for number, op in enumerate(self.ops[client]):
            words = {"client": client, "endpoint": self.endpoint_of[client], "label": self.label(client, number)}
            lines += f"  {PROMELA[op].format(**words)};\n"
        return f"\nactive proctype client_{client}() {{\n{lines}end: false\n}}\n"

    def model(self):
        head = f'#define THREADS {self.clients}\n#define ENDPOINTS {self.endpoints}\n#include "endpoints.pml"\n'
        return head + "".join(map(self.process, range(self.clients)))
