/* The memory of the module, in the place of the C library's: what the proved code asks for blocks, and what the page asks for its own.

   Blocks lie behind the stack and the constants. The size of a block is one of 4, 5, 6 or 7 times a power of two; sixteen bytes in front of it
   tell which. A block that is given back waits in the list of its size, and is the first one to be handed out again. */
typedef unsigned long long u64;

/* What the proved code reads of a growth: whether there was room, and the block. */
typedef struct {
    u64 is_there;
    u64 block;
} Growth;

enum { SIZES = 4 * 64, HEAD = 16, PAGE = 65536 };
static const u64 LARGEST = 1ull << 40;

extern unsigned char __heap_base;
static u64 waiting[SIZES];
static u64 end;

static u64 pages(void) { return __builtin_wasm_memory_size(0); }

static int grows_by(u64 more) { return __builtin_wasm_memory_grow(0, more) != (u64)-1; }

/* Whether memory reaches so far. It grows by a quarter at least, so that it grows seldom. */
static int reaches(u64 to) {
    if (to <= pages() * PAGE) return 1;
    u64 lacking = (to + PAGE - 1) / PAGE - pages();
    u64 quarter = pages() / 4;
    return (lacking < quarter && grows_by(quarter)) || grows_by(lacking);
}

/* The number of the least size that has so many bytes, from 16 on. */
static int number_for(u64 bytes) {
    u64 last = (bytes < 16 ? 16 : bytes) - 1;
    int quarter = 63 - __builtin_clzll(last) - 2;
    return 4 * quarter + (int)(last >> quarter & 3) + 1;
}

static u64 size_of(u64 number) { return (((4 + (number & 3)) << (number >> 2)) + 15) & ~15ull; }

static u64 number_of(u64 block) { return *(u64 *)(block - HEAD); }

static u64 take(u64 bytes) {
    if (bytes > LARGEST) return 0;
    int number = number_for(bytes + HEAD);
    u64 block = waiting[number];
    if (block) {
        waiting[number] = *(u64 *)block;
        return block;
    }
    if (!end) end = ((u64)&__heap_base + 15) & ~15ull;
    if (!reaches(end + size_of(number))) return 0;
    *(u64 *)end = number;
    block = end + HEAD;
    end += size_of(number);
    return block;
}

static void give(u64 block) {
    u64 number = number_of(block);
    *(u64 *)block = waiting[number];
    waiting[number] = block;
}

static Growth grown(u64 block) { return (Growth){block != 0, block}; }

/* Each block lies at a multiple of 16, which is as much as anything asks. */
Growth rattle_alloc(u64 bytes, u64 align) {
    (void)align;
    return grown(take(bytes));
}

Growth rattle_realloc(u64 block, u64 kept, u64 bytes, u64 align) {
    (void)align;
    if (bytes <= size_of(number_of(block)) - HEAD) return grown(block);
    u64 larger = take(bytes);
    if (larger) {
        __builtin_memcpy((void *)larger, (void *)block, kept);
        give(block);
    }
    return grown(larger);
}

void rattle_dealloc(u64 block) { give(block); }

__attribute__((export_name("host_take"))) u64 host_take(u64 bytes) { return take(bytes); }
__attribute__((export_name("host_give"))) void host_give(u64 block) { give(block); }
