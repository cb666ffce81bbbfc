/* The library behind a pipe, for hosts that are not x86-64: a small program for x86-64, run under an emulator, that
   reads calls from its standard input, makes them, and writes what came of them. It needs no C library.

   A call is a struct call, then the contents of its slices (inputs, then results). The reply is a struct reply, then
   the contents of the result slices. The slices stand in one buffer with other contents beside each; all of it but
   the results must be the same after the call. */

typedef signed short i16;
typedef unsigned int u32;
typedef unsigned long u64;
typedef unsigned long size_t;

enum { SLICES = 4, BESIDE = 8, MOST = 1 << 16, ALL = SLICES * (MOST + 2 * BESIDE) };
enum { CHECK, BOX, CELL, CORNER, PLANE, SECTION, SPLIT, JOIN, NEAREST, DISTANCE, NEAREST_MANY, PROGRAM };

struct call {
    u32 function, word; /* word: the axis, the operation or the bytes of the program's input */
    i16 number[6];
    u32 inputs, results, length[SLICES];
};

struct reply {
    u64 answer, stray; /* stray: something that is no result was written */
};

#define WEAK extern __attribute__((weak))
WEAK u64 travelmap_check(const i16 *, size_t);
WEAK u64 travelmap_box(i16, i16, i16, i16, i16, i16, i16 *, size_t);
WEAK u64 travelmap_cell(const i16 *, size_t, i16, i16, i16);
WEAK u64 travelmap_corner(const i16 *, size_t, i16, i16, i16);
WEAK u64 travelmap_plane(const i16 *, size_t, i16);
WEAK u64 travelmap_section(const i16 *, size_t, u32, i16, i16 *, size_t);
WEAK u64 travelmap_split(const i16 *, size_t, u32, i16, i16 *, size_t, i16 *, size_t);
WEAK u64 travelmap_join(u32, const i16 *, size_t, const i16 *, size_t, i16 *, size_t);
WEAK u64 travelmap_nearest(const i16 *, size_t, i16, i16, i16);
WEAK u64 travelmap_nearest_distance(const i16 *, size_t, i16, i16, i16);
WEAK u64 travelmap_nearest_each(const i16 *, size_t, const i16 *, size_t, i16 *, size_t);
int main(void);

/* What compilers call without being asked. */
void *memcpy(void *to, const void *from, size_t n) {
    for (size_t i = 0; i < n; i++) ((volatile char *)to)[i] = ((const char *)from)[i];
    return to;
}
void *memmove(void *to, const void *from, size_t n) {
    if (to <= from) return memcpy(to, from, n);
    while (n--) ((volatile char *)to)[n] = ((const char *)from)[n];
    return to;
}
void *memset(void *to, int byte, size_t n) {
    for (size_t i = 0; i < n; i++) ((volatile char *)to)[i] = (char)byte;
    return to;
}
int memcmp(const void *a, const void *b, size_t n) {
    const unsigned char *p = a, *q = b;
    for (size_t i = 0; i < n; i++)
        if (p[i] != q[i]) return p[i] < q[i] ? -1 : 1;
    return 0;
}

/* A system call of Linux on x86-64. */
static long kernel(long number, long a, long b, long c) {
    long answer;
    __asm__ volatile("syscall" : "=a"(answer) : "a"(number), "D"(a), "S"(b), "d"(c) : "rcx", "r11", "memory");
    return answer;
}

/* Ends the program. */
static void stop(int status) {
    for (;;) kernel(60, status, 0, 0);
}

/* Reads exactly n bytes; ends the program where there are none left. */
static void get(void *to, size_t n) {
    for (size_t had = 0; had < n;) {
        long more = kernel(0, 0, (long)to + (long)had, (long)(n - had));
        if (more <= 0) stop(had != 0);
        had += (size_t)more;
    }
}

/* Writes exactly n bytes. */
static void put(const void *from, size_t n) {
    for (size_t had = 0; had < n;) {
        long more = kernel(1, 1, (long)from + (long)had, (long)(n - had));
        if (more <= 0) stop(1);
        had += (size_t)more;
    }
}

static struct call c;
static i16 buffer[ALL], kept[ALL];
static i16 *slice[SLICES];

#define LENT(at) slice[at], c.length[at]
#define ASKED c.number[0], c.number[1], c.number[2]
#define DO(function, arguments) (function ? function arguments : (stop(3), 0))

/* The program's standard input and output, in slices 0 and 1, and how much of each is used. */
static size_t taken, written;

long read(int file, void *to, size_t n) {
    size_t left = c.word - taken;
    if (file != 0) return -1;
    if (n > left) n = left;
    memcpy(to, (char *)slice[0] + taken, n);
    taken += n;
    return (long)n;
}
long write(int file, const void *from, size_t n) {
    if (file != 1 || n > 2 * c.length[1] - written) return -1;
    memcpy((char *)slice[1] + written, from, n);
    written += n;
    return (long)n;
}

/* What else the program calls of a C library: the error of a call that failed, and as it starts how a signal is taken
   and what the processor has, here all that it asks for. */
int rattle_errno(void) { return 5; }
long __write(int file, const void *from, size_t n) { return write(file, from, n); }
void *__sysv_signal(int number, void *taken_by) { return number ? 0 : taken_by; }
const u32 *__x86_get_cpuid_feature_leaf(u32 leaf) {
    static const u32 all[8] = {~0u, ~0u, ~0u, ~0u, ~0u, ~0u, ~0u, ~0u};
    return leaf < 64 ? all : 0;
}

/* Runs the program; answers how many bytes it wrote. */
static u64 run(void) {
    taken = written = 0;
    if (c.inputs != 1 || c.results != 1 || c.word > 2 * c.length[0]) stop(2);
    main();
    return written;
}

/* Makes the call. */
static u64 made(void) {
    switch (c.function) {
    case CHECK: return DO(travelmap_check, (LENT(0)));
    case BOX: return DO(travelmap_box, (ASKED, c.number[3], c.number[4], c.number[5], LENT(0)));
    case CELL: return DO(travelmap_cell, (LENT(0), ASKED));
    case CORNER: return DO(travelmap_corner, (LENT(0), ASKED));
    case PLANE: return DO(travelmap_plane, (LENT(0), c.number[0]));
    case SECTION: return DO(travelmap_section, (LENT(0), c.word, c.number[0], LENT(1)));
    case SPLIT: return DO(travelmap_split, (LENT(0), c.word, c.number[0], LENT(1), LENT(2)));
    case JOIN: return DO(travelmap_join, (c.word, LENT(0), LENT(1), LENT(2)));
    case NEAREST: return DO(travelmap_nearest, (LENT(0), ASKED));
    case DISTANCE: return DO(travelmap_nearest_distance, (LENT(0), ASKED));
    case NEAREST_MANY: return DO(travelmap_nearest_each, (LENT(0), LENT(1), LENT(2)));
    case PROGRAM: return run();
    default: stop(2);
    }
    return 0;
}

/* Reads one call, makes it, replies. */
static void serve(void) {
    u32 count, end = BESIDE;
    get(&c, sizeof c);
    count = c.inputs + c.results;
    if (count > SLICES) stop(2);
    for (u32 at = 0; at < count; at++) {
        if (c.length[at] > MOST) stop(2);
        slice[at] = buffer + end;
        get(slice[at], 2 * c.length[at]);
        end += c.length[at];
        for (u32 i = 0; i < BESIDE; i++) buffer[end++] = (i16)(31 * i + at);
    }
    for (u32 i = 0; i < end; i++) kept[i] = buffer[i];
    struct reply reply = {made(), 0};
    for (u32 at = c.inputs; at < count; at++) {
        i16 *was = kept + (slice[at] - buffer);
        for (u32 i = 0; i < c.length[at]; i++) was[i] = slice[at][i];
    }
    for (u32 i = 0; i < end; i++) reply.stray |= kept[i] != buffer[i];
    put(&reply, sizeof reply);
    for (u32 at = c.inputs; at < count; at++) put(slice[at], 2 * c.length[at]);
}

/* Serves until its input ends. The stack is brought to where the calling rules have it. */
__attribute__((force_align_arg_pointer)) void _start(void) {
    for (;;) serve();
}
