// What the program calls of the system, where a page runs it: blocks of memory, and its input and output.
//
// Sizes are rounded up to classes: 16, 32, 48, 64, and then four to a doubling. A block that is given back goes to the list of
// its class. Sixteen bytes before each block tell its class.
typedef unsigned long long u64;
typedef long long i64;
typedef unsigned char u8;
typedef struct { u64 done; void *block; } Tried;
typedef struct Block { struct Block *next; } Block;

#define PAGE 65536ull
#define AT_ONCE 16
#define MOST (1ull << 40)

extern u8 __heap_base;
static u8 *unused, *end;
static Block *given_back[256];
static u64 in_use;

static u64 class_of(u64 size) {
    if (size <= 64) return size ? (size - 1) >> 4 : 0;
    u64 top = 63 - __builtin_clzll(size - 1);
    return 4 + (top - 6) * 4 + ((size - 1) >> (top - 2) & 3);
}

static u64 size_of(u64 class) {
    if (class < 4) return (class + 1) << 4;
    return (5 + ((class - 4) & 3)) << ((class - 4) / 4 + 4);
}

// Whether so many bytes are there past the last block; memory is grown for them.
static int has_room(u64 size) {
    if (!unused) {
        unused = (u8 *)(((u64)&__heap_base + 15) & ~15ull);
        end = (u8 *)(__builtin_wasm_memory_size(0) * PAGE);
    }
    u64 left = end - unused;
    if (left >= size) return 1;
    u64 pages = (size - left + PAGE - 1) / PAGE;
    if (pages < AT_ONCE) pages = AT_ONCE;
    if (__builtin_wasm_memory_grow(0, pages) == ~0ull) return 0;
    end += pages * PAGE;
    return 1;
}

static void *taken(u64 size) {
    if (size > MOST) return 0;
    u64 class = class_of(size);
    u8 *block = (u8 *)given_back[class];
    if (block) {
        given_back[class] = given_back[class]->next;
    } else {
        if (!has_room(size_of(class) + 16)) return 0;
        block = unused + 16;
        unused = block + size_of(class);
        *(u64 *)(block - 16) = class;
    }
    in_use += size_of(class);
    return block;
}

void rattle_dealloc(void *block) {
    u64 class = *(u64 *)((u8 *)block - 16);
    in_use -= size_of(class);
    ((Block *)block)->next = given_back[class];
    given_back[class] = block;
}

Tried rattle_alloc(u64 size, u64 alignment) {
    (void)alignment;
    Tried tried = {0, taken(size)};
    tried.done = tried.block != 0;
    return tried;
}

// A block of another size with the first bytes of an old one; where there is no memory for it, the old one stays.
Tried rattle_realloc(void *old, u64 kept, u64 size, u64 alignment) {
    u64 class = *(u64 *)((u8 *)old - 16);
    if (size <= size_of(class) && class_of(size) + 8 >= class) return (Tried){1, old};
    Tried tried = rattle_alloc(size, alignment);
    if (tried.done) {
        __builtin_memcpy(tried.block, old, kept < size ? kept : size);
        rattle_dealloc(old);
    }
    return tried;
}

u64 memory_in_use(void) { return in_use; }

// ---- input and output: the page has these two calls

__attribute__((import_module("page"), import_name("read"))) extern i64 page_read(void *to, u64 most);
__attribute__((import_module("page"), import_name("write"))) extern i64 page_write(const void *from, u64 count);
i64 read(int file, void *to, u64 most) { return file == 0 ? page_read(to, most) : -1; }
i64 write(int file, const void *from, u64 count) { return file == 1 ? page_write(from, count) : (i64)count; }
i64 __write(int file, const void *from, u64 count) { return write(file, from, count); }
i64 lseek(int file, i64 at, int from) { (void)file; (void)at; (void)from; return -1; }
int rattle_errno(void) { return 5; }

// ---- what a program asks of the system as it starts

void *__sysv_signal(int number, void *handler) { (void)number; (void)handler; return 0; }
int __xpg_strerror_r(int error, char *to, u64 most) { (void)error; if (most) *to = 0; return 0; }
static unsigned features[8] = {~0u, ~0u, ~0u, ~0u, ~0u, ~0u, ~0u, ~0u};
void *__x86_get_cpuid_feature_leaf(unsigned leaf) { (void)leaf; return features; }

// ---- products and shifts of 128 bits, which clang calls by name

typedef __int128 i128;
typedef unsigned __int128 u128;
typedef union { i128 whole; struct { u64 low; i64 high; } part; } Wide;

i128 __multi3(i128 a, i128 b) {
    Wide x = {a}, y = {b}, product;
    u64 m = ~0u, xl = x.part.low & m, xh = x.part.low >> 32, yl = y.part.low & m, yh = y.part.low >> 32;
    u64 low = xl * yl, one = xh * yl + (low >> 32), two = xl * yh + (one & m);
    product.part.low = (two << 32) | (low & m);
    product.part.high = xh * yh + (one >> 32) + (two >> 32) + x.part.low * y.part.high + x.part.high * y.part.low;
    return product.whole;
}

i128 __ashlti3(i128 a, int by) {
    Wide x = {a};
    if (by & 64) x.part.high = x.part.low << (by & 63), x.part.low = 0;
    else if (by) x.part.high = (u64)x.part.high << by | x.part.low >> (64 - by), x.part.low <<= by;
    return x.whole;
}

i128 __lshrti3(i128 a, int by) {
    Wide x = {a};
    if (by & 64) x.part.low = (u64)x.part.high >> (by & 63), x.part.high = 0;
    else if (by) x.part.low = x.part.low >> by | (u64)x.part.high << (64 - by), x.part.high = (u64)x.part.high >> by;
    return x.whole;
}
