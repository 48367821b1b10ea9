/* What the module needs of a C library: blocks of memory, and arithmetic on 128 bits. Nothing here is proved.
 * A block is asked for, resized and given back by one thread. Its size is a power of two, and once it is given back it is
 * used again for that size. */

typedef unsigned long word;
typedef unsigned char byte;

/* The answer of an allocation, as two words: whether there is a block, and where. */
struct block {
    word found;
    byte *at;
};

/* What stands before each block. */
struct head {
    word size;
    struct head *next;
};

enum { UNIT = 16, PAGE = 65536, PAGES_AT_ONCE = 16 };

extern byte __heap_base;
static byte *top;
static struct head *given_back[64];

static word rounded(word size, word unit) { return (size + unit - 1) / unit * unit; }

/* The power of two that a block of a size has. */
static word power_for(word size) { return size <= UNIT ? 4 : 64 - (word)__builtin_clzl(size - 1); }

static struct block block_of(struct head *head) { return (struct block){1, (byte *)(head + 1)}; }

/* Makes the memory reach up to `end`. */
static int reaches(word end) {
    word have = __builtin_wasm_memory_size(0) * PAGE;
    return end <= have
        || __builtin_wasm_memory_grow(0, rounded(end - have, PAGE) / PAGE + PAGES_AT_ONCE) != (word)-1;
}

struct block rattle_alloc(word size, word alignment) {
    (void)alignment; /* at most 16, and each block is aligned so */
    if (size > 1UL << 32) return (struct block){0, 0};
    word power = power_for(size), need = 1UL << power;
    struct head **link = &given_back[power], *head = *link;
    if (head) {
        *link = head->next;
        return block_of(head);
    }
    if (!top) top = (byte *)rounded((word)&__heap_base, UNIT);
    if (!reaches((word)top + sizeof(struct head) + need)) return (struct block){0, 0};
    head = (struct head *)top;
    *head = (struct head){need, 0};
    top += sizeof(struct head) + need;
    return block_of(head);
}

void rattle_dealloc(byte *at) {
    if (!at) return;
    struct head *head = (struct head *)at - 1, **link = &given_back[power_for(head->size)];
    head->next = *link;
    *link = head;
}

struct block rattle_realloc(byte *at, word kept, word size, word alignment) {
    struct head *head = (struct head *)at - 1;
    if (size <= head->size) return block_of(head);
    struct block larger = rattle_alloc(size, alignment);
    if (larger.found) {
        __builtin_memcpy(larger.at, at, kept);
        rattle_dealloc(at);
    }
    return larger;
}

/* A block for JavaScript to write to. */
byte *page_room(word size) { return rattle_alloc(size, UNIT).at; }

/* What LLVM calls for numbers of 128 bits. */
typedef __int128 wide;
typedef unsigned __int128 unsigned_wide;
union halves {
    unsigned_wide all;
    struct { word low, high; } half;
};

wide __multi3(wide a, wide b) {
    union halves x = {(unsigned_wide)a}, y = {(unsigned_wide)b}, product;
    word mask = 0xffffffff, xl = x.half.low & mask, xh = x.half.low >> 32, yl = y.half.low & mask, yh = y.half.low >> 32;
    word low = xl * yl, first = xh * yl + (low >> 32), second = xl * yh + (first & mask);
    product.half.low = (low & mask) | second << 32;
    product.half.high = xh * yh + (first >> 32) + (second >> 32) + x.half.low * y.half.high + x.half.high * y.half.low;
    return (wide)product.all;
}

wide __ashlti3(wide a, int by) {
    union halves x = {(unsigned_wide)a}, shifted = x;
    if (by >= 64) {
        shifted.half.high = x.half.low << (by - 64);
        shifted.half.low = 0;
    } else if (by) {
        shifted.half.high = x.half.high << by | x.half.low >> (64 - by);
        shifted.half.low = x.half.low << by;
    }
    return (wide)shifted.all;
}

/* Shifted right, with the bits that come in from above. */
static wide shifted_right(wide a, int by, word above) {
    union halves x = {(unsigned_wide)a};
    if (by >= 64) {
        x.half.low = x.half.high;
        x.half.high = above;
        by -= 64;
    }
    if (by) {
        x.half.low = x.half.low >> by | x.half.high << (64 - by);
        x.half.high = x.half.high >> by | above << (64 - by);
    }
    return (wide)x.all;
}

wide __lshrti3(wide a, int by) { return shifted_right(a, by, 0); }

wide __ashrti3(wide a, int by) { return shifted_right(a, by, a < 0 ? -1UL : 0); }
