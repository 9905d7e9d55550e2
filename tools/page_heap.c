/* The heap of the page's module: the three calls that Rattle's libc makes of the C library. Blocks have sizes of 16, 32, 64 .. bytes,
 * each behind a header of 16 bytes that holds its class; a free block waits in the list of its class. Memory grows by whole pages, and
 * where it can't, the answer is no. All blocks are aligned to 16 bytes. */
typedef unsigned long u64;
typedef unsigned char u8;
typedef struct Block {
    u64 class;
    struct Block *next;
} Block;
typedef struct {
    u64 is_made;
    void *place;
} Tried;

enum { HEADER = 16, PAGE_BITS = 16, LEAST_PAGES = 64, CLASSES = 48, MOST_BITS = 40 };

extern u8 __heap_base;
static u64 top, end;
static Block *spare[CLASSES];

static const Tried NO = {0, 0};

/* The least class whose blocks have so many bytes: a block of class n has 2^n. */
static u64 class_of(u64 bytes) {
    return bytes <= 16 ? 4 : 64 - (u64)__builtin_clzl(bytes - 1);
}

static Block *fresh(u64 class) {
    u64 size = ((u64)1 << class) + HEADER;
    if (!top) {
        top = ((u64)&__heap_base + 15) & ~(u64)15;
        end = __builtin_wasm_memory_size(0) << PAGE_BITS;
    }
    if (end - top < size) {
        u64 wanted = (size - (end - top) + (1 << PAGE_BITS) - 1) >> PAGE_BITS;
        u64 pages = wanted < LEAST_PAGES ? LEAST_PAGES : wanted;
        /* The no of a memory with 64-bit addresses is 2^64 - 1, and of one that was lowered to 32 bits 2^32 - 1. */
        if ((unsigned)__builtin_wasm_memory_grow(0, pages) == (unsigned)-1) return 0;
        end += pages << PAGE_BITS;
    }
    Block *block = (Block *)top;
    top += size;
    block->class = class;
    return block;
}

static Block *block_of(void *place) {
    return (Block *)((u8 *)place - HEADER);
}

Tried rattle_alloc(u64 bytes, u64 align) {
    (void)align;
    if (bytes >> MOST_BITS) return NO;
    u64 class = class_of(bytes);
    Block *block = spare[class];
    if (block) spare[class] = block->next;
    else block = fresh(class);
    if (!block) return NO;
    return (Tried){1, (u8 *)block + HEADER};
}

void rattle_dealloc(void *place) {
    Block *block = block_of(place);
    block->next = spare[block->class];
    spare[block->class] = block;
}

/* A block stays where the bytes fit it and fill more than a quarter of it. */
Tried rattle_realloc(void *place, u64 kept, u64 bytes, u64 align) {
    u64 size = (u64)1 << block_of(place)->class;
    if (bytes <= size && bytes << 2 > size) return (Tried){1, place};
    Tried tried = rattle_alloc(bytes, align);
    if (!tried.is_made) return tried;
    __builtin_memcpy(tried.place, place, kept < bytes ? kept : bytes);
    rattle_dealloc(place);
    return tried;
}

/* For the page: room for so many bytes that it hands in or is handed, 0 where there is none; and the end of such a room. */
u64 room(u64 bytes) {
    Tried tried = rattle_alloc(bytes, 16);
    return tried.is_made ? (u64)tried.place : 0;
}

void let_go(u64 place) {
    rattle_dealloc((void *)place);
}
