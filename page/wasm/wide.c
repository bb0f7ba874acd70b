// Products and shifts of 128 bits, which clang calls for WebAssembly by these names.
typedef unsigned long u64;
typedef unsigned __int128 u128;
typedef union { u128 whole; struct { u64 low, high; } half; } split;

u128 __multi3(u128 a, u128 b) {
    split x = { a }, y = { b }, r;
    u64 mask = 0xffffffff, a0 = x.half.low & mask, a1 = x.half.low >> 32, b0 = y.half.low & mask, b1 = y.half.low >> 32;
    u64 low = a0 * b0, middle = a1 * b0 + (low >> 32), more = a0 * b1 + (middle & mask);
    r.half.low = (more << 32) | (low & mask);
    r.half.high = a1 * b1 + (middle >> 32) + (more >> 32) + x.half.low * y.half.high + x.half.high * y.half.low;
    return r.whole;
}

u128 __ashlti3(u128 a, int n) {
    split x = { a }, r;
    if (n == 0) return a;
    if (n & 64) r.half.low = 0, r.half.high = x.half.low << (n & 63);
    else r.half.low = x.half.low << n, r.half.high = (x.half.high << n) | (x.half.low >> (64 - n));
    return r.whole;
}

u128 __lshrti3(u128 a, int n) {
    split x = { a }, r;
    if (n == 0) return a;
    if (n & 64) r.half.high = 0, r.half.low = x.half.high >> (n & 63);
    else r.half.high = x.half.high >> n, r.half.low = (x.half.low >> n) | (x.half.high << (64 - n));
    return r.whole;
}
