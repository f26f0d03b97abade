"""Set-ups that grow in one direction each, for every command, by their size. In a memory of 2^20 bytes a loader makes
objects of two untyped regions, and hands them out."""

from set_ups import MAX_COUNT, SLOT_BITS, TCB_BITS, inline, top

MEMORY_BITS = 20
WORD_BITS = 64

# The untyped regions, by base and bits: a quarter of the memory, and half of it.
SMALL = (1 << 18, 18)
LARGE = (1 << 19, 19)

# What a retype makes, and what a copy may keep.
THREAD, ENDPOINT, CNODE = 1, 2, 4
WRITE, READ = 1, 2

# In the root CNode.
ROOT = 1
LOADER_TCB = 2


class Loader:
    """The calls of the first boot thread. Slots of the root CNode have that CNode, the boot threads, an endpoint and
    the two regions, and from `made` on what the loader makes."""

    def __init__(self, boot_threads, made):
        self.boot_threads = boot_threads
        self.endpoint = LOADER_TCB + boot_threads
        self.small, self.large = self.endpoint + 1, self.endpoint + 2
        self.made = self.endpoint + 3
        self.radix = max(4, (self.made + made - 1).bit_length())
        self.thread = max(1 << TCB_BITS, 1 << (SLOT_BITS + self.radix))
        # The two threads between which a way is asked for.
        self.asked = [self.thread + (n << TCB_BITS) for n in (1, 2)] if boot_threads > 1 else self.made_threads(2)
        self.calls = []

    @staticmethod
    def made_threads(count):
        """The addresses of threads that are the first objects of the large region."""
        return [LARGE[0] + (n << TCB_BITS) for n in range(count)]

    def call(self, op, **words):
        self.calls.append((self.thread, op, words))

    def make(self, region, kind, count, first, root=ROOT, size_bits=0):
        """New objects in the slots of a CNode from the first on."""
        for done in range(0, count, MAX_COUNT):
            words = {"root": root, "offset": first + done, "count": min(MAX_COUNT, count - done)}
            self.call("retype", cap=region, kind=kind, size_bits=size_bits, **words)

    def begin_in(self, tcb, cnode, radix):
        """Lets a thread look up words in a CNode, in whose root's slot the capability is."""
        self.call("set_space", cap=tcb, root=cnode, word=WORD_BITS - radix)

    def text(self):
        return inline(top(MEMORY_BITS, self.radix, self.boot_threads, 1), [SMALL, LARGE], self.calls)


def radix_of(slots):
    return max(3, (slots - 1).bit_length())


def components(count, reached):
    """So many components, each a thread, a CNode and an endpoint, on which it receives; each may send to the endpoints
    of so many others, those behind it."""
    loader, radix = Loader(1, 3 * count), radix_of(1 + reached)
    tcbs, cnodes, endpoints = (loader.made + n * count for n in range(3))
    loader.make(loader.large, THREAD, count, tcbs)
    loader.make(loader.small, CNODE, count, cnodes, size_bits=radix)
    loader.make(loader.small, ENDPOINT, count, endpoints)
    for own in range(count):
        there = {"cap": cnodes + own, "depth": radix, "src_root": ROOT}
        loader.call("copy", **there, index=0, src_index=endpoints + own, rights=READ)
        for step in range(1, reached + 1):
            other = (own + step) % count
            loader.call("mint", **there, index=step, src_index=endpoints + other, rights=WRITE, word=own + 1)
        loader.begin_in(tcbs + own, cnodes + own, radix)
        loader.call("resume", cap=tcbs + own)
    return loader


def client_and_server(count, badges):
    """A client that may send to so many endpoints of a server, or to one endpoint by so many badges."""
    loader, radix = Loader(3, 2), radix_of(count)
    clients, servers = loader.made, loader.made + 1
    loader.make(loader.large, CNODE, 2, clients, size_bits=radix)
    if badges:
        loader.call("copy", cap=servers, index=0, depth=radix, src_root=ROOT, src_index=loader.endpoint, rights=READ)
    else:
        loader.make(loader.small, ENDPOINT, count, 0, root=servers)
    for index in range(count):
        source = {"src_root": servers, "src_index": index, "src_depth": radix}
        if badges:
            source = {"src_root": ROOT, "src_index": loader.endpoint}
        loader.call("mint", cap=clients, index=index, depth=radix, **source, rights=WRITE, word=index + 1)
    loader.begin_in(LOADER_TCB + 1, clients, radix)
    loader.begin_in(LOADER_TCB + 2, servers, radix)
    return loader


# How many slots each of the nested CNodes has, as bits.
NESTED_BITS = 4


def nested(count):
    """A client whose CNode has so many CNodes in it, each full with badges of one endpoint."""
    loader, radix = Loader(3, 2), radix_of(count)
    outer, servers = loader.made, loader.made + 1
    loader.make(loader.small, CNODE, 2, outer, size_bits=radix)
    loader.make(loader.large, CNODE, count, 0, root=outer, size_bits=NESTED_BITS)
    whole = {"depth": radix + NESTED_BITS, "src_root": ROOT, "src_index": loader.endpoint, "rights": WRITE}
    for index in range(count << NESTED_BITS):
        loader.call("mint", cap=outer, index=index, **whole, word=index % (1 << NESTED_BITS) + 1)
    loader.begin_in(LOADER_TCB + 1, outer, radix + NESTED_BITS)
    loader.begin_in(LOADER_TCB + 2, servers, radix)
    return loader


def chain(count, outermost_first):
    """CNodes of two slots, each in a slot of the one before it or, otherwise, of the one behind it; a client begins in
    the outermost, and a server in a CNode of its own."""
    loader = Loader(3, count + 1)
    first, last = loader.made, loader.made + count - 1
    loader.make(loader.large, CNODE, count + 1, first, size_bits=1)
    inner = range(last, first, -1) if outermost_first else range(first, last)
    for cnode in inner:
        outer = cnode - 1 if outermost_first else cnode + 1
        loader.call("move", cap=outer, index=0, depth=1, src_root=ROOT, src_index=cnode)
    loader.begin_in(LOADER_TCB + 1, first if outermost_first else last, 1)
    loader.begin_in(LOADER_TCB + 2, last + 1, 1)
    return loader


# How many threads share the slots of one CNode.
SHARING = 64


def shared_slots(count):
    """Threads that all begin in the root CNode, so many slots of which have badges of one endpoint."""
    loader = Loader(1, SHARING + count)
    loader.make(loader.large, THREAD, SHARING, loader.made)
    for tcb in range(loader.made, loader.made + SHARING):
        loader.call("set_space", cap=tcb, root=ROOT)
        loader.call("resume", cap=tcb)
    for badge in range(1, count + 1):
        index = loader.made + SHARING + badge - 1
        loader.call("mint", cap=ROOT, index=index, src_index=loader.endpoint, word=badge)
    return loader


# Each direction: its sizes, and the loader by the size.
DIRECTIONS = {
    "components, each with a way to the next": ([64, 128, 256], lambda size: components(size, 1)),
    "components, each with a way to each": ([16, 32, 64], lambda size: components(size, size - 1)),
    "endpoints of one client": ([2048, 4096, 8192], lambda size: client_and_server(size, False)),
    "badges of one client": ([2048, 4096, 8192], lambda size: client_and_server(size, True)),
    "CNodes of 16 slots in one": ([128, 256, 512], nested),
    "chain of CNodes, outermost first": ([1000, 2000, 4000], lambda size: chain(size, True)),
    "chain of CNodes, innermost first": ([1000, 2000, 4000], lambda size: chain(size, False)),
    "slots that 64 threads share": ([256, 512, 1024], shared_slots),
}
