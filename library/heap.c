/* The heap of a WebAssembly module: memory of a power of two of bytes, from 32 on. What is freed waits in a list of its size. New memory comes
 * from the end of the module's memory, which grows. The page uses `page_alloc` and `page_free` as a C program uses malloc and free. */
typedef unsigned long size_t;

enum { PAGE = 65536, HEAD = 16, LEAST = 5, MOST = 40 };

/* What precedes the bytes that are given: the power of two, or while they are free the next free ones of the same size. */
typedef union head {
    size_t power;
    union head *next;
} head;

extern unsigned char __heap_base;
static head *freed[MOST + 1];
static size_t top;

static size_t power_for(size_t len) {
    size_t power = LEAST;
    while (power <= MOST && ((size_t)1 << power) < len + HEAD) power++;
    return power;
}

/* Bytes behind all others, or null if the memory can't grow. */
static head *fresh(size_t size) {
    if (!top) top = ((size_t)&__heap_base + HEAD - 1) & ~(size_t)(HEAD - 1);
    size_t end = __builtin_wasm_memory_size(0) * PAGE;
    if (end - top < size) {
        size_t pages = (size - (end - top) + PAGE - 1) / PAGE;
        if (__builtin_wasm_memory_grow(0, pages) == (size_t)-1) return 0;
    }
    head *at = (head *)top;
    top += size;
    return at;
}

__attribute__((export_name("page_alloc"))) void *page_alloc(size_t len) {
    size_t power = len < (size_t)1 << MOST ? power_for(len) : MOST + 1;
    if (power > MOST) return 0;
    head *at = freed[power];
    if (at)
        freed[power] = at->next;
    else if (!(at = fresh((size_t)1 << power)))
        return 0;
    at->power = power;
    return (unsigned char *)at + HEAD;
}

__attribute__((export_name("page_free"))) void page_free(void *bytes) {
    if (!bytes) return;
    head *at = (head *)((unsigned char *)bytes - HEAD);
    size_t power = at->power;
    at->next = freed[power];
    freed[power] = at;
}

/* The three functions that Rattle's `Global` calls: whether there was memory, and where. No bytes are an address too. */
typedef struct {
    size_t is_done;
    void *bytes;
} tried;

static unsigned char nothing[HEAD] __attribute__((aligned(16)));

static tried outcome(void *bytes) {
    return (tried){ bytes != 0, bytes ? bytes : nothing };
}

tried rattle_alloc(size_t len, size_t align) {
    return outcome(page_alloc(len ? len : align));
}

tried rattle_realloc(void *bytes, size_t kept, size_t len, size_t align) {
    size_t wanted = len ? len : align;
    if (bytes && power_for(wanted) == ((head *)((unsigned char *)bytes - HEAD))->power) return outcome(bytes);
    void *more = page_alloc(wanted);
    if (more && bytes) {
        __builtin_memcpy(more, bytes, kept < wanted ? kept : wanted);
        page_free(bytes);
    }
    return outcome(more);
}

void rattle_dealloc(void *bytes) {
    page_free(bytes);
}

/* Numbers of 128 bits, for which clang calls functions. */
typedef unsigned __int128 wide;
typedef union {
    wide all;
    struct {
        size_t low, high;
    } half;
} halves;

static wide joined(size_t high, size_t low) {
    return (halves){ .half = { low, high } }.all;
}

wide __ashlti3(wide x, int n) {
    halves of = { x };
    if (n == 0) return x;
    return n < 64 ? joined(of.half.high << n | of.half.low >> (64 - n), of.half.low << n) : joined(of.half.low << (n - 64), 0);
}

wide __lshrti3(wide x, int n) {
    halves of = { x };
    if (n == 0) return x;
    return n < 64 ? joined(of.half.high >> n, of.half.low >> n | of.half.high << (64 - n)) : joined(0, of.half.high >> (n - 64));
}

wide __multi3(wide x, wide y) {
    halves a = { x }, b = { y };
    size_t mask = 0xffffffff;
    size_t a0 = a.half.low & mask, a1 = a.half.low >> 32, b0 = b.half.low & mask, b1 = b.half.low >> 32;
    size_t middle = (a0 * b0 >> 32) + (a0 * b1 & mask) + (a1 * b0 & mask);
    size_t high = a1 * b1 + (a0 * b1 >> 32) + (a1 * b0 >> 32) + (middle >> 32);
    return joined(high + a.half.low * b.half.high + a.half.high * b.half.low, middle << 32 | (a0 * b0 & mask));
}
