// The heap of the module, and the room that its caller gets: the three functions by which the compiled program takes memory, which
// are all that it calls. Blocks have sizes 2^k from 32 bytes on; freed blocks of a size are a list. Each has a head of 16 bytes,
// which holds its k, so blocks lie at multiples of 16. Fresh memory is all that the module does not use otherwise, and it grows.
typedef unsigned long usize;
struct tried { unsigned char ok; void *place; };
extern unsigned char __heap_base;
static usize top;
static void *freed[64];
// What a call that failed answers points here.
static unsigned char none;

static void *get(usize size) {
    if (size > ((usize)1 << 31)) return 0;
    usize k = 64 - __builtin_clzl((size + 16 < 32 ? 32 : size + 16) - 1);
    unsigned char *block = freed[k];
    if (block) {
        freed[k] = *(void **)block;
        return block;
    }
    if (!top) top = ((usize)&__heap_base + 15) & ~(usize)15;
    usize end = top + ((usize)1 << k), there = __builtin_wasm_memory_size(0) * 65536;
    if (end > there) {
        // What the growth answers is not looked at: with a memory of 32 bits, a failure is another number.
        __builtin_wasm_memory_grow(0, (end - there + 65535) / 65536);
        if (__builtin_wasm_memory_size(0) * 65536 < end) return 0;
    }
    *(usize *)top = k;
    block = (unsigned char *)top + 16;
    top = end;
    return block;
}

static void give(unsigned char *block) {
    usize k = *(usize *)(block - 16);
    *(void **)block = freed[k];
    freed[k] = block;
}

struct tried rattle_alloc(usize size, usize align) {
    (void)align;
    void *block = get(size);
    return (struct tried){ block != 0, block ? block : &none };
}

struct tried rattle_realloc(void *old, usize kept, usize size, usize align) {
    (void)align;
    usize k = *(usize *)((unsigned char *)old - 16);
    if (size <= ((usize)1 << k) - 16) return (struct tried){ 1, old };
    void *block = get(size);
    if (block) {
        __builtin_memcpy(block, old, kept);
        give(old);
    }
    return (struct tried){ block != 0, block ? block : &none };
}

void rattle_dealloc(void *block) { give(block); }

// Room for what the page hands in; 0 where there is none.
__attribute__((export_name("room"))) void *room(usize size) { return get(size); }
