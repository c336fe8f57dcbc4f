// The C runtime of web/motesim.wasm: what the native program gets from glibc and from the kit's C libraries. It has one
// thread. Streams are functions of the host, and memory is that of the module. tools/project/web.py compiles it.
typedef unsigned char u8;
typedef unsigned int u32;
typedef unsigned long u64;
typedef long i64;

#define HOST(name) __attribute__((import_module("host"), import_name(name)))
HOST("read") i64 host_read(u8 *to, u64 room);
HOST("write") void host_write(int stream, const u8 *from, u64 length);

// Streams. The host reads and writes all that it is asked for, or throws an exception, which ends the run.
int rattle_errno(void) { return 0; }
i64 read(int file, u8 *to, u64 room) { return host_read(to, room); }

i64 write(int file, const u8 *from, u64 length) {
    host_write(file, from, length);
    return (i64)length;
}

// The start of a program. A native program asks glibc what the processor can do, and ends if that is too little.
i64 __write(int file, const u8 *from, u64 length) { return write(file, from, length); }
u64 __sysv_signal(int signal, u64 handler) { return 0; }
__attribute__((noreturn)) void _exit(int status) { __builtin_trap(); }
static const u32 all[8] = {-1, -1, -1, -1, -1, -1, -1, -1};
const u32 *__x86_get_cpuid_feature_leaf(u32 index) { return all; }

// Memory. Each block begins with a header of 16 bytes that has its size. Free blocks of up to 1 MiB are in lists, one
// for each size; there are four sizes between two powers of two. Larger blocks are in one list, ordered by address. The
// memory from `top` to `end` is unused.
// (addresses are numbers here, so that the compiler assumes nothing about what is at them)
extern u8 __heap_base[];
enum { PAGE = 65536, HEADER = 16, SIZES = 80, LARGE = 1 << 20 };
struct block {
    u64 size;
    struct block *next;
};
static struct block *lists[SIZES], *large;
static u64 top, end;

// The list for blocks of at least this size, and the size of its blocks. (A size is a multiple of 16.)
static u32 list_for(u64 size, u64 *rounded) {
    *rounded = size;
    if (size <= 128)
        return (u32)(size / 16);
    u32 power = 63 - (u32)__builtin_clzl(size - 1);
    u64 step = 1UL << (power - 2);
    *rounded = (size + step - 1) & -step;
    return 9 + (power - 7) * 4 + (u32)((*rounded - (1UL << power)) / step) - 1;
}

// (the result is -1 if memory can't grow; after the lowering it has 32 bits)
static int grow(u64 bytes) {
    u64 pages = (bytes + PAGE - 1) / PAGE;
    if ((u32)__builtin_wasm_memory_grow(0, pages) == (u32)-1)
        return 0;
    end += pages * PAGE;
    return 1;
}

// A new block at `top`, or null. Memory grows by a quarter if it can.
static struct block *block_at_top(u64 size) {
    if (!top) {
        top = ((u64)__heap_base + 15) & -16UL;
        end = __builtin_wasm_memory_size(0) * PAGE;
    }
    if (end - top < size) {
        u64 missing = size - (end - top), quarter = end / 4;
        if (!(missing < quarter && grow(quarter)) && !grow(missing))
            return 0;
    }
    struct block *made = (struct block *)top;
    top += size;
    made->size = size;
    return made;
}

// The first free large block that is large enough, without the rest that isn't needed; or null.
static struct block *large_block(u64 size) {
    for (struct block **at = &large; *at; at = &(*at)->next) {
        struct block *found = *at;
        if (found->size < size)
            continue;
        *at = found->next;
        if (found->size - size > LARGE) {
            struct block *rest = (struct block *)((u8 *)found + size);
            *rest = (struct block){found->size - size, found->next};
            found->size = size;
            *at = rest;
        }
        return found;
    }
    return 0;
}

static struct block *block_of(u64 size) {
    struct block *found;
    if (size <= LARGE) {
        u32 list = list_for(size, &size);
        if ((found = lists[list])) {
            lists[list] = found->next;
            return found;
        }
    } else {
        size = (size + PAGE - 1) & -(u64)PAGE;
        if ((found = large_block(size)))
            return found;
    }
    return block_at_top(size);
}

// Makes the free block `low` and the next one in the list one block, if nothing is between them.
static void join(struct block *low) {
    struct block *high = low->next;
    if (high && (u8 *)low + low->size == (u8 *)high)
        *low = (struct block){low->size + high->size, high->next};
}

static void release(struct block *block) {
    if (block->size <= LARGE) {
        u64 size;
        u32 list = list_for(block->size, &size);
        block->next = lists[list];
        lists[list] = block;
        return;
    }
    if ((u64)block + block->size == top) {
        top = (u64)block;
        return;
    }
    struct block **at = &large, *before = 0;
    for (; *at && *at < block; at = &before->next)
        before = *at;
    block->next = *at;
    *at = block;
    join(block);
    if (before)
        join(before);
}

// An allocation: whether there is memory, and its address, which isn't null.
struct tried {
    u64 ok, at;
};
static u8 nothing[16] __attribute__((aligned(16)));
// (a size beyond this is refused before it is rounded)
static const u64 MOST = 1UL << 46;

struct tried rattle_alloc(u64 size, u64 align) {
    u64 whole = (size + HEADER + 15) & -16UL;
    struct block *made = size > MOST ? 0 : block_of(whole < 32 ? 32 : whole);
    return made ? (struct tried){1, (u64)made + HEADER} : (struct tried){0, (u64)nothing};
}

void rattle_dealloc(void *at) { release((struct block *)((u8 *)at - HEADER)); }

struct tried rattle_realloc(void *at, u64 kept, u64 size, u64 align) {
    struct block *block = (struct block *)((u8 *)at - HEADER);
    u64 room = block->size - HEADER;
    if (size <= room && room <= 2 * size + 64)
        return (struct tried){1, (u64)at};
    struct tried made = rattle_alloc(size, align);
    if (made.ok) {
        __builtin_memcpy((void *)made.at, at, room < size ? room : size);
        release(block);
    }
    return made;
}

// Arithmetic of 128 bits, which WebAssembly lacks.
typedef unsigned __int128 u128;
typedef union {
    u128 all;
    struct {
        u64 low, high;
    };
} wide;

u128 __multi3(u128 a, u128 b) {
    u64 x = (u64)a, y = (u64)b, x0 = (u32)x, x1 = x >> 32, y0 = (u32)y, y1 = y >> 32;
    u64 low = x0 * y0, one = x0 * y1, other = x1 * y0, middle = (low >> 32) + (u32)one + (u32)other;
    u64 high = x1 * y1 + (one >> 32) + (other >> 32) + (middle >> 32);
    return ((wide){.low = middle << 32 | (u32)low, .high = high + x * (u64)(b >> 64) + (u64)(a >> 64) * y}).all;
}

u128 __ashlti3(u128 a, int by) {
    wide it = {a};
    if (by & 64)
        it.high = it.low << (by & 63), it.low = 0;
    else if (by)
        it.high = it.high << by | it.low >> (64 - by), it.low <<= by;
    return it.all;
}

u128 __lshrti3(u128 a, int by) {
    wide it = {a};
    if (by & 64)
        it.low = it.high >> (by & 63), it.high = 0;
    else if (by)
        it.low = it.low >> by | it.high << (64 - by), it.high >>= by;
    return it.all;
}

// The program.
int motesim_main(void);
__attribute__((export_name("run"))) int run(void) { return motesim_main(); }
