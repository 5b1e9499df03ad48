// The heap of the page's module: the functions that the kit's library asks of C (its rattle/libc/src/heap.rt), and room for
// what the page hands over. A block has a power of two of bytes, of which the first 16 are its header; blocks that were
// given back wait in a list for each power. No alignment above 16 is asked for. Nothing here is proved.
typedef unsigned long long u64;
typedef struct Header {
    u64 power;
    struct Header *next;
} Header;
typedef struct {
    _Bool ok;
    void *at;
} Tried;

enum { PAGE = 65536, PAGES_AT_LEAST = 64, LEAST_POWER = 5, LARGEST_POWER = 40 };

extern Header __heap_base;
static char *unused, *end;
static Header *given_back[LARGEST_POWER + 1];
static char nothing;

static int power_for(u64 size) {
    u64 whole = size + sizeof(Header);
    return whole <= 1 << LEAST_POWER ? LEAST_POWER : 64 - __builtin_clzll(whole - 1);
}

static Header *header_of(void *block) {
    return (Header *)block - 1;
}

static void start(void) {
    unused = (char *)(((u64)&__heap_base + 15) & ~15ULL);
    end = (char *)(__builtin_wasm_memory_size(0) * PAGE);
}

static _Bool grow_by(u64 pages) {
    if (__builtin_wasm_memory_grow(0, pages) == (u64)-1) {
        return 0;
    }
    end += pages * PAGE;
    return 1;
}

static _Bool has_unused(u64 size) {
    u64 left = end - unused;
    if (left >= size) {
        return 1;
    }
    u64 pages = (size - left + PAGE - 1) / PAGE;
    return (pages < PAGES_AT_LEAST && grow_by(PAGES_AT_LEAST)) || grow_by(pages);
}

static Header *take_power(int power) {
    Header *block = given_back[power];
    if (block) {
        given_back[power] = block->next;
        return block;
    }
    if (!unused) {
        start();
    }
    if (!has_unused(1ULL << power)) {
        return 0;
    }
    block = (Header *)unused;
    unused += 1ULL << power;
    block->power = power;
    return block;
}

static void *take(u64 size) {
    if (size >> (LARGEST_POWER - 1)) {
        return 0;
    }
    Header *block = take_power(power_for(size));
    return block ? block + 1 : 0;
}

static void give_back(void *at) {
    Header *block = header_of(at);
    block->next = given_back[block->power];
    given_back[block->power] = block;
}

static Tried tried(void *at) {
    return (Tried){at != 0, at ? at : &nothing};
}

Tried rattle_alloc(u64 size, u64 align) {
    return tried(take(size));
}

void rattle_dealloc(void *at) {
    give_back(at);
}

Tried rattle_realloc(void *at, u64 kept, u64 size, u64 align) {
    if (power_for(size) == header_of(at)->power) {
        return tried(at);
    }
    void *moved = take(size);
    if (moved) {
        __builtin_memcpy(moved, at, kept < size ? kept : size);
        give_back(at);
    }
    return tried(moved);
}

// For the page itself; null where there is no memory.
__attribute__((export_name("take"))) void *take_room(u64 size) {
    return take(size);
}

__attribute__((export_name("give_back"))) void give_back_room(void *at) {
    give_back(at);
}
