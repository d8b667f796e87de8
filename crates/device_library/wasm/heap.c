// The heap of the module. Nothing proves it.
//
// A block has a power of two of bytes: its class is the exponent. Blocks that were given back wait
// by their class; new ones come from the end of the memory, which grows for them and never shrinks.
// A block begins with its class, in 16 bytes, and the caller is given what is behind them.

typedef unsigned long size;

#define HEAD 16        // bytes, as no caller asks for a larger alignment
#define LEAST_CLASS 5  // a head, and as much behind it
#define MOST_BYTES (1ul << 32)

struct block {
    size class;
    struct block *next; // while it waits
};

extern unsigned char __heap_base; // (of the linker)
static size end_of_blocks;
static struct block *waiting[64];

static size class_of(size bytes) {
    size class = 64 - __builtin_clzl(bytes + HEAD - 1);
    return class < LEAST_CLASS ? LEAST_CLASS : class;
}

// A block from the end of the memory, or 0 where the memory may not grow.
static struct block *new_block(size class) {
    size start = end_of_blocks ? end_of_blocks : ((size)&__heap_base + HEAD - 1) / HEAD * HEAD;
    size end = start + (1ul << class);
    size have = (size)__builtin_wasm_memory_size(0) << 16;
    // (a refusal is -1 of 32 bits, once the addresses are)
    if (end > have && (unsigned)__builtin_wasm_memory_grow(0, (end - have + 0xFFFF) >> 16) == ~0u)
        return 0;
    end_of_blocks = end;
    ((struct block *)start)->class = class;
    return (struct block *)start;
}

static void *take(size bytes) {
    if (bytes > MOST_BYTES)
        return 0;
    size class = class_of(bytes);
    struct block *block = waiting[class];
    if (block)
        waiting[class] = block->next;
    else
        block = new_block(class);
    return block ? (char *)block + HEAD : 0;
}

static struct block *block_of(void *place) {
    return (struct block *)((char *)place - HEAD);
}

static void give_back(void *place) {
    struct block *block = block_of(place);
    block->next = waiting[block->class];
    waiting[block->class] = block;
}

// For what a caller passes in: 0 where there is no memory.
void *device_alloc(size bytes) {
    return take(bytes);
}

void device_free(void *place) {
    give_back(place);
}

// What the kit's crate libc asks of a heap.
struct tried {
    size ok;
    void *place;
};

static struct tried tried(void *place) {
    static char nothing[HEAD] __attribute__((aligned(HEAD)));
    return (struct tried){place != 0, place ? place : nothing};
}

struct tried rattle_alloc(size bytes, size alignment) {
    return tried(take(bytes ? bytes : alignment));
}

struct tried rattle_realloc(void *old, size kept, size bytes, size alignment) {
    if (!bytes)
        bytes = alignment;
    if (bytes <= (1ul << block_of(old)->class) - HEAD)
        return tried(old);
    void *place = take(bytes);
    if (place) {
        __builtin_memcpy(place, old, kept < bytes ? kept : bytes);
        give_back(old);
    }
    return tried(place);
}

void rattle_dealloc(void *place) {
    give_back(place);
}
