// Searches on a full volume by two archives of the proved routines, `before` and `after`, for tools/speed/instructions to count: `mark` is
// called before and after each call that counts. Exit status 0 where all answers are right and the same on both sides.
typedef unsigned short u16;
typedef unsigned long usize;

int printf(const char *form, ...);

enum { SEGMENTS = 31, FILES = 71 * SEGMENTS, WORDS = 512 * SEGMENTS };

struct name {
    u16 first, second, extension;
};

struct answer {
    u16 number, first, length, date, segment, slot;
};

u16 before_fault(const u16 *d, usize len, usize v);
u16 after_fault(const u16 *d, usize len, usize v);
void before_lookup(const u16 *d, usize len, usize v, u16 a, u16 b, u16 c, struct answer *out);
void after_lookup(const u16 *d, usize len, usize v, u16 a, u16 b, u16 c, struct answer *out);

static u16 words[WORDS];
static usize volume;

// Three characters from 0 to 9, the k-th such text.
static u16 digits(unsigned k) {
    return (u16)((30 + k / 100 % 10) * 1600 + (30 + k / 10 % 10) * 40 + 30 + k % 10);
}

// Three characters from A to Z, the k-th such text.
static u16 letters(unsigned k) {
    return (u16)((1 + k / 676 % 26) * 1600 + (1 + k / 26 % 26) * 40 + 1 + k % 26);
}

// Names that differ in the first word; that share it, and differ in the second; that differ in the third alone.
static struct name first_differs(unsigned k) {
    return (struct name){letters(k), digits(0), letters(0)};
}

static struct name second_differs(unsigned k) {
    return (struct name){letters(0), letters(k), letters(0)};
}

static struct name third_differs(unsigned k) {
    return (struct name){letters(0), letters(0), letters(k)};
}

// A letter and four digits, the extension the same: 100 names share a first word.
static struct name numbered(unsigned k) {
    return (struct name){(u16)(6 * 1600 + (30 + k / 1000 % 10) * 40 + 30 + k / 100 % 10),
                         (u16)((30 + k / 10 % 10) * 1600 + (30 + k % 10) * 40), letters(0)};
}

// Each segment has 71 files of one block and then the marker. The names come in an order without a pattern: 1,571 is prime to 2,201.
static void fill(struct name (*name)(unsigned)) {
    volume = 6 + 2 * SEGMENTS;
    for (unsigned s = 0; s < SEGMENTS; s++) {
        u16 *g = words + 512 * s;
        g[0] = SEGMENTS;
        g[1] = (u16)(s + 1 < SEGMENTS ? s + 2 : 0);
        g[2] = s == 0 ? SEGMENTS : 0;
        g[3] = 0;
        g[4] = (u16)volume;
        for (unsigned k = 0; k < 71; k++) {
            u16 *slot = g + 5 + 7 * k;
            struct name n = name((71 * s + k) * 1571 % FILES);
            slot[0] = 1024;
            slot[1] = n.first;
            slot[2] = n.second;
            slot[3] = n.extension;
            slot[4] = 1;
            slot[5] = 0;
            slot[6] = 3556;
            volume++;
        }
        g[5 + 7 * 71] = 2048;
    }
}

__attribute__((noinline)) static void mark(void) {
    __asm__ volatile("");
}

static int same(struct answer a, struct answer b) {
    return a.number == b.number && a.first == b.first && a.length == b.length && a.date == b.date && a.segment == b.segment && a.slot == b.slot;
}

// The fault, and the lookup of a name that is not there: both meet every entry.
static int compare(const char *names, struct name (*name)(unsigned)) {
    struct answer a, b;
    struct name n = name(FILES);
    fill(name);
    printf("%s\n", names);
    mark();
    u16 x = before_fault(words, WORDS, volume);
    mark();
    u16 y = after_fault(words, WORDS, volume);
    mark();
    before_lookup(words, WORDS, volume, n.first, n.second, n.extension, &a);
    mark();
    after_lookup(words, WORDS, volume, n.first, n.second, n.extension, &b);
    mark();
    return x == 0 && y == 0 && a.number == 13 && same(a, b);
}

int main(void) {
    int good = compare("first word differs", first_differs);
    good &= compare("numbered, as F0123.AAA", numbered);
    good &= compare("second word differs", second_differs);
    good &= compare("third word differs", third_differs);
    return !good;
}
