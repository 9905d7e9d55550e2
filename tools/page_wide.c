/* Integers of 128 bits, as clang calls for them by these names where a processor has none: a product, and shifts by 0 to 127. */
typedef unsigned long u64;
typedef unsigned __int128 u128;

static u128 joined(u64 low, u64 high) {
    union {
        struct {
            u64 low, high;
        } half;
        u128 whole;
    } both;
    both.half.low = low;
    both.half.high = high;
    return both.whole;
}

static u64 low_of(u128 number) {
    return (u64)number;
}

static u64 high_of(u128 number) {
    union {
        u128 whole;
        struct {
            u64 low, high;
        } half;
    } both;
    both.whole = number;
    return both.half.high;
}

/* The upper half of the product of two numbers of 64 bits, by halves of 32. The compiler must not see that it is that: it would
 * make it a product of 128 bits, which is a call of the function that asks here. */
static u64 upper_of_product(u64 first, u64 second) {
    u64 mask = 0xffffffff;
    u64 low = (first & mask) * (second & mask), carried = low >> 32;
    __asm__("" : "+r"(carried));
    u64 middle = (first >> 32) * (second & mask) + carried;
    u64 other = (first & mask) * (second >> 32) + (middle & mask);
    return (first >> 32) * (second >> 32) + (middle >> 32) + (other >> 32);
}

u128 __multi3(u128 first, u128 second) {
    u64 low = low_of(first) * low_of(second);
    u64 high = upper_of_product(low_of(first), low_of(second)) + low_of(first) * high_of(second) + high_of(first) * low_of(second);
    return joined(low, high);
}

u128 __ashlti3(u128 number, int by) {
    u64 low = low_of(number), high = high_of(number);
    if (by >= 64) return joined(0, low << (by - 64));
    if (by == 0) return number;
    return joined(low << by, high << by | low >> (64 - by));
}

u128 __lshrti3(u128 number, int by) {
    u64 low = low_of(number), high = high_of(number);
    if (by >= 64) return joined(high >> (by - 64), 0);
    if (by == 0) return number;
    return joined(low >> by | high << (64 - by), high >> by);
}
