"""Set-ups that grow: the text of each, by its size. All are of the wide profile and of format 1."""

SLOT_BITS = 5
TCB_BITS = 11

# The most objects that one retype makes.
MAX_COUNT = 256

# One round: a message to a thread that waits, one from a thread that waits, two calls that find nobody, a retype that
# finds its slot full, and a capability that is moved there and back.
ROUND = [
    (2048, "send", {"cap": 4, "label": 7, "words": [1, 2]}),
    (4096, "recv", {"cap": 4}),
    (4096, "recv", {"cap": 4}),
    (2048, "nbsend", {"cap": 4, "label": 7}),
    (4096, "nbrecv", {"cap": 4}),
    (2048, "retype", {"cap": 5, "kind": 2, "root": 1, "offset": 4, "count": 1}),
    (2048, "move", {"cap": 1, "index": 8, "src_index": 3}),
    (2048, "move", {"cap": 1, "index": 3, "src_index": 8}),
]


def pairs(call):
    thread, op, words = call
    return [f"thread = {thread}", f'op = "{op}"'] + [f"{key} = {value}" for key, value in words.items()]


def top(memory_bits, root_radix, threads, endpoints):
    return (
        f"format = 1\nmemory_bits = {memory_bits}\nroot_radix = {root_radix}\n"
        f"threads = {threads}\nendpoints = {endpoints}\n"
    )


def inline(head, untypeds, calls):
    """The text of a set-up with inline tables."""
    regions = ", ".join(f"{{ base = {base}, bits = {bits} }}" for base, bits in untypeds)
    lines = ",\n".join("{ " + ", ".join(pairs(call)) + " }" for call in calls)
    return f"{head}untyped = [{regions}]\ncall = [\n{lines}\n]\n"


def headers(head, untypeds, calls):
    """The text of the same set-up with headers."""
    regions = "".join(f"[[untyped]]\nbase = {base}\nbits = {bits}\n" for base, bits in untypeds)
    return head + regions + "".join("[[call]]\n" + "\n".join(pairs(call)) + "\n" for call in calls)


def rounds_of_calls(count, spell):
    return spell(top(16, 4, 2, 1), [(16384, 12)], [ROUND[i % len(ROUND)] for i in range(count)])


def full_memory(size):
    """A memory of so many bytes. Its second half is one CNode, each slot of which holds an endpoint of the second
    quarter; every slot of the root CNode is full too."""
    bits = size.bit_length() - 1
    thread = 2048
    slots = size // 2 >> SLOT_BITS
    cnode = (thread, "retype", {"cap": 4, "kind": 4, "size_bits": bits - 6, "root": 1, "offset": 5, "count": 1})
    endpoints = [
        (thread, "retype", {"cap": 3, "kind": 2, "root": 5, "offset": first, "count": MAX_COUNT})
        for first in range(0, slots, MAX_COUNT)
    ]
    copies = [(thread, "copy", {"cap": 1, "index": slot, "src_index": 2}) for slot in (0, 6, 7)]
    regions = [(size // 4, bits - 2), (size // 2, bits - 1)]
    return inline(top(bits, 3, 1, 0), regions, [cnode, *endpoints, *copies])


def regions_up_to(first, end):
    """The largest aligned regions from one address to another, by base and bits."""
    while first < end:
        bits = (first & -first).bit_length() - 1
        yield first, bits
        first += 1 << bits


# How often the sends of one badge are cancelled and made again.
CANCELS = 8


class Queue:
    """A memory with room for threads: one at boot, which cancels, and others made of untyped regions, which send."""

    def __init__(self, threads, memory_bits):
        self.radix = (threads + 12 - 1).bit_length()
        self.memory_bits = memory_bits
        self.boot_thread = max(1 << TCB_BITS, 1 << (SLOT_BITS + self.radix))
        self.regions = list(regions_up_to(self.boot_thread + (2 << TCB_BITS), 1 << memory_bits))
        self.senders = self.first_senders(threads - 1)
        # Slots 1, 2 and 3 have the root CNode, the thread and the endpoint; then come the regions, the badged
        # capabilities and the threads.
        self.badged = 4 + len(self.regions)
        self.first_tcb = self.badged + 2

    def first_senders(self, count):
        """The addresses of the first threads that the regions have room for, each with its region's number."""
        regions = enumerate(self.regions)
        places = [(place, n) for n, (base, bits) in regions for place in range(base, base + (1 << bits), 1 << TCB_BITS)]
        return places[:count]

    def made(self):
        """The calls that make all threads and let them take part."""
        slot = self.first_tcb
        for n in range(len(self.regions)):
            left = sum(1 for _, region in self.senders if region == n)
            while left > 0:
                count = min(left, MAX_COUNT)
                words = {"cap": 4 + n, "kind": 1, "root": 1, "offset": slot, "count": count}
                yield self.boot_thread, "retype", words
                slot, left = slot + count, left - count
        for tcb in range(self.first_tcb, slot):
            yield self.boot_thread, "set_space", {"cap": tcb, "root": 1}
            yield self.boot_thread, "resume", {"cap": tcb}

    def sends(self, first, step):
        for number, (thread, _) in list(enumerate(self.senders))[first::step]:
            yield thread, "send", {"cap": self.badged + number % 2, "label": number}

    def calls(self):
        for badge in (1, 2):
            words = {"cap": 1, "index": self.badged + badge - 1, "src_index": 3, "word": badge}
            yield self.boot_thread, "mint", words
        yield from self.made()
        yield from self.sends(0, 1)
        for _ in range(CANCELS):
            yield self.boot_thread, "cancel_badged", {"cap": 1, "index": self.badged}
            yield from self.sends(0, 2)


def long_queue(threads):
    """Threads that wait to send, by two badges in turn; the sends of one are cancelled and made again, some times."""
    queue = next(q for q in (Queue(threads, bits) for bits in range(12, 21)) if len(q.senders) == threads - 1)
    return inline(top(queue.memory_bits, queue.radix, 1, 1), queue.regions, queue.calls())


def forest(slots, deep):
    """A CNode whose slots are filled with copies of a badged capability, or each with a copy of the one before it
    (`deep`); then a leaf is revoked, and then all."""
    radix = slots.bit_length() - 1
    memory_bits = max(15, radix + SLOT_BITS + 1)
    thread, cnode, source = 2048, 6, 4 if deep else 7
    regions = [(8192, 12), (1 << (memory_bits - 1), radix + SLOT_BITS)]
    calls = [
        (thread, "retype", {"cap": 5, "kind": 4, "size_bits": radix, "root": 1, "offset": cnode, "count": 1}),
        (thread, "mint", {"cap": 1, "index": 7, "src_index": 3, "word": 5}),
    ]
    for slot in range(slots):
        words = {"cap": cnode, "index": slot, "depth": radix}
        if deep and slot > 0:
            words |= {"src_index": slot - 1, "src_depth": radix}
        else:
            words |= {"src_root": 1, "src_index": source}
        calls.append((thread, "copy", words))
    calls.append((thread, "revoke", {"cap": cnode, "index": slots - 1, "depth": radix}))
    calls.append((thread, "revoke", {"cap": 1, "index": source}))
    return inline(top(memory_bits, 4, 1, 1), regions, calls)


# Each subject: its sizes, and its text by the size.
CALLS = [1000, 4096, 16384, 65536]
SUBJECTS = {
    "calls, inline tables": (CALLS, lambda size: rounds_of_calls(size, inline)),
    "calls, headers": (CALLS, lambda size: rounds_of_calls(size, headers)),
    "memories": ([1 << 14, 1 << 16, 1 << 18, 1 << 20], full_memory),
    "queues": ([8, 32, 128, 500], long_queue),
    "forests, wide": ([16, 256, 2048, 16384], lambda size: forest(size, False)),
    "forests, deep": ([16, 256, 2048, 16384], lambda size: forest(size, True)),
}


def thread_of(client):
    """The boot thread of a client, where the root CNode has 16 slots."""
    return (client + 1) << TCB_BITS


# What the clients of a set-up do in turn, each beginning elsewhere: they fill and empty the same three slots, and use
# what they find there. No call waits.
CLIENTS = 3
MIXED = ["mint", "nbsend", "delete", "nbrecv", "copy"]
SHARED_SLOTS = 3


def mixed_call(client, number):
    """A call of a client, by its number from 0 on; slots 5 and 6 have the endpoints."""
    slot = 9 + (number + client) % SHARED_SLOTS
    word = 10 * client + number + 1
    words = {
        "mint": {"cap": 1, "index": slot, "src_index": 5, "word": word},
        "nbsend": {"cap": slot, "label": word},
        "delete": {"cap": 1, "index": slot},
        "nbrecv": {"cap": 5},
        "copy": {"cap": 1, "index": slot, "src_index": 6},
    }
    op = MIXED[(number + 2 * client) % len(MIXED)]
    return thread_of(client), op, words[op]


def of_clients(memory_bits, clients, endpoints, calls):
    """A set-up of clients with a boot thread each; `calls` has those of all, each behind its client."""
    lines = ",\n".join("{ " + ", ".join([f"client = {client}", *pairs(call)]) + " }" for client, call in calls)
    return f"{top(memory_bits, 4, clients, endpoints)}clients = {clients}\ncall = [\n{lines}\n]\n"


def mixed_clients(counts):
    """Clients that make so many calls each."""
    calls = [(client, mixed_call(client, number)) for client, count in enumerate(counts) for number in range(count)]
    return of_clients(16, CLIENTS, 2, calls)


# How many calls each of the clients makes whose orders are explored.
EXPLORED = [4, 6, 8, 10]
