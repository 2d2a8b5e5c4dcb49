/* wide.c: whole numbers of 128 bits, for vemiktag.wasm: the target has no instructions for them, and the compiler calls these. */

typedef unsigned long word;
typedef __int128 wide;

static wide joined(word high, word low) { return (wide)((unsigned __int128)high << 64 | low); }
static word low_of(wide it) { return (word)it; }
static word high_of(wide it) { return (word)((unsigned __int128)it >> 64); }

/* The product of two words: by halves of 32 bits, as by hand. */
static wide product(word a, word b) {
    word mask = 0xffffffff;
    word low = (a & mask) * (b & mask);
    word cross = (a >> 32) * (b & mask) + (low >> 32);
    word other = (a & mask) * (b >> 32) + (cross & mask);
    word high = (a >> 32) * (b >> 32) + (cross >> 32) + (other >> 32);
    return joined(high, other << 32 | (low & mask));
}

wide __multi3(wide a, wide b) {
    wide low = product(low_of(a), low_of(b));
    word high = high_of(low) + low_of(a) * high_of(b) + high_of(a) * low_of(b);
    return joined(high, low_of(low));
}

wide __ashlti3(wide it, int by) {
    if (by == 0) {
        return it;
    }
    if (by >= 64) {
        return joined(low_of(it) << (by - 64), 0);
    }
    return joined(high_of(it) << by | low_of(it) >> (64 - by), low_of(it) << by);
}

wide __lshrti3(wide it, int by) {
    if (by == 0) {
        return it;
    }
    if (by >= 64) {
        return joined(0, high_of(it) >> (by - 64));
    }
    return joined(high_of(it) >> by, high_of(it) << (64 - by) | low_of(it) >> by);
}
