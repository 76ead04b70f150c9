// The exchange of a row and a column in a plain table, for bench/pivot to time beside the dictionary: the same
// kernel by columns, with no labels, no unit rows and nothing proved. It reads what `pivot_bench print` prints
// and does as many pivots as its argument says, at the spots in turn, to and fro at each. It prints the checksum
// that `pivot_bench` has, and the processor time of the pivots on standard error.
//
// Compiled with HALVES all numbers must have 31 bits, with WORDS 63, with WIDE 127. All numbers are read at run
// time, so no product is known to the compiler. Where a division has a rest or a number does not fit, the
// kernel returns, and the program fails.
#include <stdbool.h>
#include <stddef.h>
#include <stdint.h>
#include <stdio.h>
#include <stdlib.h>
#include <time.h>

typedef __int128 Wide;
typedef unsigned __int128 UnsignedWide;

#if defined WIDE
typedef Wide Cell;
typedef UnsignedWide Unsigned;
#else
typedef int64_t Cell;
typedef uint64_t Unsigned;
#endif

// A positive divisor `odd 2^twos`, with the inverse of its odd part modulo the size of a cell.
typedef struct {
    Cell value;
    int twos;
    Unsigned inverse;
} Divisor;

// What the exchange does in a column: it multiplies by p, takes b away, and divides.
typedef struct {
    Cell p, b;
    Divisor g;
} Step;

static Divisor divisor_of(Cell value) {
    Divisor g = {value, 0, 1};
    Unsigned odd = (Unsigned)value;
    while (odd % 2 == 0) {
        odd /= 2;
        g.twos += 1;
    }
    // each step doubles the bits in which `odd inverse` is 1
    for (int bits = 1; bits < 128; bits *= 2) {
        g.inverse *= 2 - odd * g.inverse;
    }
    return g;
}

#if defined HALVES
// `(a p - c b) / g`, where it divides and is a half.
static inline bool exchanged(Cell a, Cell c, Step x, Cell *z) {
    int64_t n = a * x.p - c * x.b;
    int64_t q = (int64_t)((uint64_t)(n >> x.g.twos) * x.g.inverse);
    *z = q;
    return (uint64_t)q * (uint64_t)x.g.value == (uint64_t)n && -((int64_t)1 << 31) < q && q < (int64_t)1 << 31;
}
#elif defined WORDS
// `(a p - c b) / g`, where it divides and is a word.
static inline bool exchanged(Cell a, Cell c, Step x, Cell *z) {
    Wide n = (Wide)a * x.p - (Wide)c * x.b;
    int64_t q = (int64_t)((uint64_t)(n >> x.g.twos) * x.g.inverse);
    *z = q;
    return (Wide)q * x.g.value == n && q != INT64_MIN;
}
#elif defined WIDE
// `(a p - c b) / g`, where it divides and neither a product nor the difference passes.
static inline bool exchanged(Cell a, Cell c, Step x, Cell *z) {
    Wide ap, cb, n, product;
    if (__builtin_mul_overflow(a, x.p, &ap) || __builtin_mul_overflow(c, x.b, &cb) ||
        __builtin_sub_overflow(ap, cb, &n)) {
        return false;
    }
    Wide q = (Wide)((UnsignedWide)(n >> x.g.twos) * x.g.inverse);
    *z = q;
    return !__builtin_mul_overflow(q, x.g.value, &product) && product == n;
}
#else
#error "HALVES, WORDS or WIDE"
#endif

// The new cells of a column from the top, as long as that goes; how many are written.
static __attribute__((noinline)) size_t exchange_column(const Cell *restrict old, const Cell *restrict own,
                                                        Cell *restrict new, size_t height, const Step *step) {
    Step x = *step;
    // old(i) becomes (old(i) p - own(i) b) / g
    for (size_t i = 0; i < height; i++) {
        if (!exchanged(old[i], own[i], x, &new[i])) {
            return i;
        }
    }
    return height;
}

// Numbers over a denominator, column after column; `spare` has room for as many, and `own` for a column.
typedef struct {
    size_t height, width;
    Cell denominator;
    Cell *cells, *spare, *own;
} Table;

// The column of the exchange, and its own new one: there the denominator stands in the row of the exchange. In
// that row a number b becomes -b in all other columns, and so it does in the kernel where `own` has the pivot
// plus the denominator there.
static void exchange_own_column(Table *t, size_t row, size_t column, Cell sign) {
    const Cell *old = &t->cells[column * t->height];
    Cell *new = &t->spare[column * t->height];
    for (size_t i = 0; i < t->height; i++) {
        t->own[i] = old[i];
        new[i] = sign * old[i];
    }
    t->own[row] = old[row] + t->denominator;
    new[row] = sign * t->denominator;
}

static void swap_spare(Table *t) {
    Cell *old = t->cells;
    t->cells = t->spare;
    t->spare = old;
}

// Exchanges a row and a column, both counted from 0; false where that does not go.
static bool exchange(Table *t, size_t row, size_t column) {
    size_t height = t->height;
    Cell pivot = t->cells[column * height + row];
    if (pivot == 0) {
        return false;
    }
    Cell sign = pivot < 0 ? -1 : 1;
    exchange_own_column(t, row, column, sign);
    Step step = {sign * pivot, 0, divisor_of(t->denominator)};
    for (size_t j = 0; j < t->width; j++) {
        const Cell *old = &t->cells[j * height];
        step.b = sign * old[row];
        if (j != column && exchange_column(old, t->own, &t->spare[j * height], height, &step) < height) {
            return false;
        }
    }
    t->denominator = sign * pivot;
    swap_spare(t);
    return true;
}

static void fail(const char *why) {
    fprintf(stderr, "pivot_kernel: %s\n", why);
    exit(1);
}

// The first byte of the input that is not blank.
static int next_byte(void) {
    int byte = getchar();
    while (byte == ' ' || byte == '\n') {
        byte = getchar();
    }
    return byte;
}

// The next number of the input.
static Wide number(void) {
    int byte = next_byte();
    bool negative = byte == '-';
    if (negative) {
        byte = getchar();
    }
    if (byte < '0' || byte > '9') {
        fail("no number where one was to come");
    }
    Wide size = 0;
    for (; '0' <= byte && byte <= '9'; byte = getchar()) {
        size = size * 10 + (byte - '0');
    }
    return negative ? -size : size;
}

// The next number of the input, which must be as small as the kernel asks.
static Cell cell(void) {
    Wide z = number();
#if defined HALVES
    bool fits = -((Wide)1 << 31) < z && z < (Wide)1 << 31;
#elif defined WORDS
    bool fits = -((Wide)1 << 63) < z && z < (Wide)1 << 63;
#else
    bool fits = true;
#endif
    if (!fits) {
        fail("a number is too large for this kernel");
    }
    return (Cell)z;
}

static void *room(size_t count, size_t size) {
    void *place = calloc(count, size);
    if (place == NULL) {
        fail("no memory");
    }
    return place;
}

static Table read_table(void) {
    Table t;
    t.height = (size_t)number();
    t.width = (size_t)number();
    t.denominator = cell();
    t.cells = room(t.height * t.width, sizeof(Cell));
    t.spare = room(t.height * t.width, sizeof(Cell));
    t.own = room(t.height, sizeof(Cell));
    for (size_t i = 0; i < t.height; i++) {
        for (size_t j = 0; j < t.width; j++) {
            t.cells[j * t.height + i] = cell();
        }
    }
    return t;
}

// The checksum of `pivot_bench`, row by row.
static UnsignedWide checksum(const Table *t) {
    UnsignedWide sum = (UnsignedWide)t->denominator;
    for (size_t i = 0; i < t->height; i++) {
        for (size_t j = 0; j < t->width; j++) {
            sum = sum * 31 + (UnsignedWide)(Wide)t->cells[j * t->height + i];
        }
    }
    return sum;
}

static void print_digits(UnsignedWide size) {
    if (size >= 10) {
        print_digits(size / 10);
    }
    putchar('0' + (int)(size % 10));
}

static void print_number(Wide z) {
    if (z < 0) {
        putchar('-');
    }
    print_digits(z < 0 ? -(UnsignedWide)z : (UnsignedWide)z);
}

static int64_t processor_time(void) {
    struct timespec now;
    clock_gettime(CLOCK_THREAD_CPUTIME_ID, &now);
    return (int64_t)now.tv_sec * 1000000000 + now.tv_nsec;
}

typedef struct {
    size_t row, column;
} Spot;

typedef struct {
    size_t count;
    Spot *items;
} Spots;

static Spots read_spots(void) {
    Spots spots;
    spots.count = (size_t)number();
    spots.items = room(spots.count, sizeof(Spot));
    for (size_t k = 0; k < spots.count; k++) {
        spots.items[k].row = (size_t)number();
        spots.items[k].column = (size_t)number();
    }
    return spots;
}

// So many pivots, at the spots in turn, to and fro at each.
static void turns(Table *t, const Spots *spots, size_t pivots) {
    for (size_t k = 0; k < pivots; k++) {
        Spot spot = spots->items[k / 2 % spots->count];
        if (!exchange(t, spot.row, spot.column)) {
            fail("a pivot was refused");
        }
    }
}

int main(int count, char **words) {
    if (count != 2) {
        fail("usage: pivot_kernel PIVOTS < TABLE");
    }
    size_t pivots = (size_t)atoll(words[1]);
    number(); // the seed
    Table t = read_table();
    Spots spots = read_spots();
    int64_t start = processor_time();
    turns(&t, &spots, pivots);
    int64_t end = processor_time();
    printf("%zu pivots, checksum ", pivots);
    print_number((Wide)checksum(&t));
    printf("\n");
    fprintf(stderr, "%lld ns\n", (long long)(end - start));
    return 0;
}
