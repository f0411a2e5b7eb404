/* The heap of the page's module, and the three functions of a C library that the library calls. No proof covers this file.
 *
 * A block has a power of two of bytes, of which the first 16 say which. A block that is given back goes to the list of its size. */
typedef unsigned long u64;
typedef unsigned char u8;
#define EXPORT(name) __attribute__((export_name(name)))

enum { HEAD = 16, LEAST = 4, LARGEST = 31 };

struct block {
    u64 kind; /* it has 2^kind bytes, with this head */
    struct block *next;
};

/* What an allocation returns: whether there was memory, and a pointer that is never NULL. */
struct taken {
    u64 ok;
    void *bytes;
};

extern u8 __heap_base;
static struct block *free_blocks[LARGEST + 1];
static u8 *top, *end;
static u64 used, left = ~0ul;

static u64 kind_of(u64 size) {
    u64 kind = LEAST;
    while (kind <= LARGEST && (1ul << kind) < size) kind++;
    return kind;
}

/* A block that was never taken, from the memory's end. */
static struct block *fresh_block(u64 size) {
    if (!top) {
        top = (u8 *)(((u64)&__heap_base + 15) & -16ul);
        end = (u8 *)(__builtin_wasm_memory_size(0) << 16);
    }
    if (size > (u64)(end - top)) {
        u64 pages = (size - (u64)(end - top) + 65535) >> 16;
        if (__builtin_wasm_memory_grow(0, pages) == -1ul) return 0;
        end += pages << 16;
    }
    struct block *block = (struct block *)top;
    top += size;
    return block;
}

EXPORT("page_take") void *page_take(u64 size) {
    if (size > 1ul << LARGEST || left == 0) return 0;
    u64 kind = kind_of(size + HEAD);
    if (kind > LARGEST) return 0;
    struct block *block = free_blocks[kind];
    if (block) free_blocks[kind] = block->next;
    else if (!(block = fresh_block(1ul << kind))) return 0;
    block->kind = kind;
    used += 1ul << kind;
    left--;
    return (u8 *)block + HEAD;
}

EXPORT("page_give") void page_give(void *bytes) {
    struct block *block = (struct block *)((u8 *)bytes - HEAD);
    used -= 1ul << block->kind;
    block->next = free_blocks[block->kind];
    free_blocks[block->kind] = block;
}

/* How many bytes are taken, and for tests: how many more blocks can be taken. */
EXPORT("page_used") u64 page_used(void) { return used; }
EXPORT("page_allow") void page_allow(u64 count) { left = count; }

static struct taken taken(void *bytes) { return (struct taken){bytes != 0, bytes ? bytes : &free_blocks}; }

struct taken rattle_alloc(u64 size, u64 align) { return taken(page_take(size ? size : align)); }

struct taken rattle_realloc(void *bytes, u64 kept, u64 size, u64 align) {
    u64 wanted = size ? size : align, has = (1ul << *(u64 *)((u8 *)bytes - HEAD)) - HEAD;
    if (wanted <= has) return taken(bytes);
    void *moved = page_take(wanted);
    if (!moved) return taken(0);
    __builtin_memcpy(moved, bytes, kept < size ? kept : size);
    page_give(bytes);
    return taken(moved);
}

void rattle_dealloc(void *bytes) { page_give(bytes); }

int memcmp(const void *one, const void *other, u64 size) {
    const u8 *p = one, *q = other;
    for (u64 at = 0; at < size; at++)
        if (p[at] != q[at]) return p[at] < q[at] ? -1 : 1;
    return 0;
}

int bcmp(const void *one, const void *other, u64 size) { return memcmp(one, other, size); }

/* The product of two 128-bit numbers, modulo 2^128: clang calls it where the overflow of a multiplication is looked at. */
__extension__ typedef unsigned __int128 u128;
u128 __multi3(u128 one, u128 other) {
    u64 a = (u64)one, b = (u64)other, mask = 0xffffffff;
    u64 a0 = a & mask, a1 = a >> 32, b0 = b & mask, b1 = b >> 32;
    u64 p00 = a0 * b0, p01 = a0 * b1, p10 = a1 * b0, p11 = a1 * b1;
    u64 middle = (p00 >> 32) + (p01 & mask) + (p10 & mask);
    u64 low = (p00 & mask) | (middle << 32);
    u64 high = p11 + (p01 >> 32) + (p10 >> 32) + (middle >> 32) + a * (u64)(other >> 64) + (u64)(one >> 64) * b;
    return ((u128)high << 64) | low;
}
