/* Memory for the program in a browser, in place of the C library's: blocks of a header and 2^k bytes, with a list of
   free ones for each k. What the caller gets lies behind the header, aligned as it asked. Memory that is asked for beyond
   what the module may have is refused, and the program says so, as it does elsewhere. */

typedef unsigned long size;
typedef unsigned char byte;

#define PAGE 65536UL
#define CLASSES 41 /* no request of 2^40 bytes or more can be met */
#define ALIGNMENT sizeof(struct header)

/* What stands right before the bytes that a caller has: the block's class, and where the block begins. */
struct header {
    size class;
    struct free_block *block;
};

struct free_block {
    struct free_block *next;
};

/* What the program's library expects: whether there was memory, and where. */
struct tried {
    size ok;
    void *bytes;
};

extern byte __heap_base; /* the linker's: the first byte behind the module's data and stack */

static struct free_block *free_blocks[CLASSES];
static size top; /* the first byte that no block has ever had; 0 before the first request */
static size end; /* the first byte behind the module's memory */

static size up_to(size number, size alignment) { return (number + alignment - 1) & ~(alignment - 1); }

static struct header *header_of(void *bytes) { return (struct header *)bytes - 1; }

static size length_of(size class) { return sizeof(struct header) + (1UL << class); }

/* The least k, from 4 on, for which 2^k bytes hold what is asked for and what its alignment may take; at least CLASSES where
   that is too much. */
static size class_of(size bytes, size spare) {
    if (bytes >> (CLASSES - 1) || spare >> (CLASSES - 1)) return CLASSES;
    size asked = bytes + spare;
    return asked <= 16 ? 4 : 64 - (size)__builtin_clzl(asked - 1);
}

/* Makes the module's memory so many pages longer, and says whether there are so many. */
static int longer_by(size pages) {
    /* -1 where there is no more, of 32 bits once the module has 32-bit memory */
    if ((unsigned)__builtin_wasm_memory_grow(0, pages) == ~0U) return 0;
    end += pages * PAGE;
    return 1;
}

/* The same by a quarter of what there is, where that is more and may be had: a browser takes long each time, however few
   the pages are. */
static int longer_by_at_least(size pages) {
    size quarter = end / PAGE / 4;
    return (quarter > pages && longer_by(quarter)) || longer_by(pages);
}

/* A block that was never used, or null. */
static struct free_block *new_block(size bytes) {
    if (top == 0) {
        top = up_to((size)&__heap_base, ALIGNMENT);
        end = __builtin_wasm_memory_size(0) * PAGE;
    }
    if (bytes > end - top && !longer_by_at_least((bytes - (end - top) + PAGE - 1) / PAGE)) return 0;
    struct free_block *block = (struct free_block *)top;
    top += bytes;
    return block;
}

static void *take(size bytes, size alignment) {
    if (alignment < ALIGNMENT) alignment = ALIGNMENT;
    size class = class_of(bytes, alignment - ALIGNMENT);
    if (class >= CLASSES) return 0;
    struct free_block *block = free_blocks[class];
    if (block) free_blocks[class] = block->next;
    else block = new_block(length_of(class));
    if (!block) return 0;
    void *taken = (void *)up_to((size)block + sizeof(struct header), alignment);
    *header_of(taken) = (struct header){class, block};
    return taken;
}

static void give_back(void *bytes) {
    struct header header = *header_of(bytes);
    header.block->next = free_blocks[header.class];
    free_blocks[header.class] = header.block;
}

static struct tried tried(void *bytes) { return (struct tried){bytes != 0, bytes}; }

struct tried rattle_alloc(size bytes, size alignment) { return tried(take(bytes, alignment)); }

void rattle_dealloc(void *bytes) { give_back(bytes); }

/* Where there is no memory the old bytes stay as they are, and are given back. */
struct tried rattle_realloc(void *old, size kept, size bytes, size alignment) {
    struct header header = *header_of(old);
    size before = (size)old - (size)header.block;
    if (bytes <= length_of(header.class) - before) return (struct tried){1, old};
    void *taken = take(bytes, alignment);
    if (!taken) return (struct tried){0, old};
    __builtin_memcpy(taken, old, kept);
    give_back(old);
    return tried(taken);
}

void *malloc(size bytes) { return take(bytes, ALIGNMENT); }

void free(void *bytes) {
    if (bytes) give_back(bytes);
}

/* The module has instructions for these: no loops are written here. */
void *memcpy(void *to, const void *from, size bytes) { return __builtin_memcpy(to, from, bytes); }

void *memmove(void *to, const void *from, size bytes) { return __builtin_memmove(to, from, bytes); }

void *memset(void *to, int value, size bytes) { return __builtin_memset(to, value, bytes); }

int memcmp(const void *one, const void *other, size bytes) {
    const byte *a = one, *b = other;
    for (size at = 0; at < bytes; at++)
        if (a[at] != b[at]) return a[at] - b[at];
    return 0;
}
