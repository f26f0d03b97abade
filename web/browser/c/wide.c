/* Products and shifts of 128 bits, which the compiler calls by these names. */

typedef unsigned long word;
typedef unsigned __int128 wide;

#define LOW(number) ((number) & 0xffffffffUL)
#define HIGH(number) ((number) >> 32)

static word low_of(wide number) { return (word)number; }

/* By a union, since a shift would call the functions below. */
union parts {
    wide whole;
    struct {
        word low, high;
    };
};

static wide wide_of(word low, word high) { return (union parts){.low = low, .high = high}.whole; }

static word high_of(wide number) { return (union parts){.whole = number}.high; }

wide __multi3(wide one, wide other) {
    word a = low_of(one), b = low_of(other);
    word both_low = LOW(a) * LOW(b), a_low = LOW(a) * HIGH(b), b_low = HIGH(a) * LOW(b);
    word middle = HIGH(both_low) + LOW(a_low) + LOW(b_low);
    word high = HIGH(a) * HIGH(b) + HIGH(a_low) + HIGH(b_low) + HIGH(middle);
    return wide_of(LOW(both_low) | LOW(middle) << 32, high + high_of(one) * b + a * high_of(other));
}

wide __lshrti3(wide number, int bits) {
    word low = low_of(number), high = high_of(number);
    if (bits == 0) return number;
    if (bits >= 64) return wide_of(high >> (bits - 64), 0);
    return wide_of(low >> bits | high << (64 - bits), high >> bits);
}

wide __ashlti3(wide number, int bits) {
    word low = low_of(number), high = high_of(number);
    if (bits == 0) return number;
    if (bits >= 64) return wide_of(0, low << (bits - 64));
    return wide_of(low << bits, high << bits | low >> (64 - bits));
}
