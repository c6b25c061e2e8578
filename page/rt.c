/* What the proved program wants from outside, where it runs as WebAssembly: memory, its words, files and where its text goes.
 *
 * The toolchain's compiler leaves the calls below undefined in the program's module. On a processor of its own they are the
 * toolchain's and the C library's; here they stand in this file, over five imports that page/host.js gives. A place in memory is
 * handed to these as 32 bits, since no more than 4 GB are ever taken: so the page has plain numbers, and no large ones. */

typedef unsigned char byte;
typedef unsigned int half;              /* 32 bits */
typedef unsigned long word;             /* 64 bits */
typedef unsigned __int128 wide;

#define IMPORT(name) __attribute__((import_module("host"), import_name(name))) extern

/* Takes bytes of the program's text, and answers how many they are, or -1. */
IMPORT("write") int host_write(int file, half from, half length);

/* The number of an opened file, or -1 where there is none of that name. */
IMPORT("open") int host_open(half name, half length);

/* How many of the file's next bytes were put, 0 at its end, or -1. */
IMPORT("read") int host_read(int file, half to, half length);

IMPORT("close") int host_close(int file);

/* The length of a word, whose bytes were put; -1 where there is none, -2 where it is longer than the room for it. */
IMPORT("arg") int host_arg(half place, half to, half length);

static half place(const void *at) {
    return (half)(word)at;
}

/* ---- bytes, as the C library copies, sets and compares them */

void *memset(void *to, int value, word length) {
    return __builtin_memset(to, value, length);
}

void *memcpy(void *to, const void *from, word length) {
    return __builtin_memcpy(to, from, length);
}

void *memmove(void *to, const void *from, word length) {
    return __builtin_memmove(to, from, length);
}

int memcmp(const void *left, const void *right, word length) {
    const byte *one = left, *other = right;
    for (; length > 0; length--, one++, other++)
        if (*one != *other) return *one - *other;
    return 0;
}

int bcmp(const void *left, const void *right, word length) {
    return memcmp(left, right, length);
}

/* Without optimisation, which would make it a call of itself. */
__attribute__((optnone, noinline)) word strlen(const char *text) {
    word length = 0;
    while (text[length]) length++;
    return length;
}

/* ---- memory: blocks one after the other, each with its size in front */

#define PAGE 65536ul
#define MOST 0x100000000ul

/* A block that was given back. In one that is taken, the bytes begin where this has `next`, at a multiple of 16. */
struct block { word size; struct block *next; };

extern byte __heap_base;
static word top = 0;
/* Those that were given back, by their places; no two of them touch. */
static struct block *given_back = 0;

static word end_of(struct block *block) {
    return (word)block + block->size;
}

/* The block of these bytes; none for a place that stands for no bytes. */
static struct block *block_of(void *bytes) {
    return (word)bytes > (word)&__heap_base ? (struct block *)((word)bytes - sizeof(word)) : 0;
}

/* A block above all others, or none where memory runs out. */
static struct block *block_on_top(word size) {
    word at = top ? top : (((word)&__heap_base + 15) & ~15ul) + sizeof(word);
    word have = __builtin_wasm_memory_size(0) * PAGE;
    if (size > MOST - at) return 0;
    if (at + size > have && __builtin_wasm_memory_grow(0, (at + size - have + PAGE - 1) / PAGE) == (word)-1) return 0;
    top = at + size;
    ((struct block *)at)->size = size;
    return (struct block *)at;
}

/* The first block that was given back and is large enough, without what lies over; or none. */
static struct block *block_again(word size) {
    struct block **link = &given_back;
    while (*link && (*link)->size < size) link = &(*link)->next;
    struct block *found = *link;
    if (!found) return 0;
    if (found->size == size) {
        *link = found->next;
    } else {
        struct block *rest = (struct block *)((word)found + size);
        rest->size = found->size - size;
        rest->next = found->next;
        *link = rest;
        found->size = size;
    }
    return found;
}

/* So many bytes at a multiple of 16; nothing where memory runs out. */
static void *take(word length) {
    if (length > MOST) return 0;
    word size = (length + sizeof(word) + 15) & ~15ul;
    struct block *block = block_again(size);
    if (!block) block = block_on_top(size);
    return block ? &block->next : 0;
}

/* Makes one of a block and the next one that was given back, if they touch. */
static void join(struct block *block) {
    struct block *next = block->next;
    if (!next || end_of(block) != (word)next) return;
    block->size += next->size;
    block->next = next->next;
}

void rattle_dealloc(void *old) {
    struct block *block = block_of(old), *before = 0;
    if (!block) return;
    for (struct block *each = given_back; each && each < block; each = each->next) before = each;
    block->next = before ? before->next : given_back;
    if (before) before->next = block;
    else given_back = block;
    join(block);
    if (before) join(before);
}

/* What the program is answered: whether there is such memory, and where. Its type is handed on, never read, where there is none. */
struct taken { word is_there, at; };

static struct taken answer(void *at, word otherwise) {
    struct taken answer = {at != 0, at ? (word)at : otherwise};
    return answer;
}

struct taken rattle_alloc(word length, word alignment) {
    return answer(take(length ? length : alignment), alignment);
}

/* What has shrunk stays; what has grown is copied. */
struct taken rattle_realloc(void *old, word old_length, word length, word alignment) {
    struct block *block = block_of(old);
    word wanted = length ? length : alignment, had = block ? block->size - sizeof(word) : 0;
    if (wanted <= had) return answer(old, alignment);
    void *at = take(wanted);
    if (at) {
        memcpy(at, old, had);
        rattle_dealloc(old);
    }
    return answer(at, alignment);
}

/* ---- words, files and text */

static int error = 0;

void rattle_set_errno(int number) {
    error = number;
}

int rattle_errno(void) {
    return error;
}

long rattle_arg(word number, byte *to, word length) {
    return host_arg((half)number, place(to), (half)length);
}

/* There is no environment. */
long rattle_env_at(word number, byte *to, word length) {
    return -1;
}

long rattle_env(byte *name, byte *to, word length) {
    return -1;
}

/* A file that is not there is the one fault: 2 is its number. */
int open(const char *name, int flags, ...) {
    int file = host_open(place(name), (half)strlen(name));
    if (file < 0) error = 2;
    return file;
}

/* What a call answered; where it failed, 5 is the number of a device that does not answer. */
static long answered(long count) {
    if (count < 0) error = 5;
    return count;
}

long read(int file, byte *to, word length) {
    return answered(host_read(file, place(to), (half)length));
}

long write(int file, const byte *from, word length) {
    return answered(host_write(file, place(from), (half)length));
}

long __write(int file, const byte *from, word length) {
    return write(file, from, length);
}

int close(int file) {
    return host_close(file);
}

/* ---- what is called and does nothing here: signals, places in files, the names of faults */

word __sysv_signal(int number, word handler) {
    return 0;
}

long lseek(int file, long to, int from) {
    return -1;
}

int __xpg_strerror_r(int number, char *to, word length) {
    if (length) *to = 0;
    return 0;
}

/* The library asks which features the other machine has, to choose among bodies that all compile here: it has each. */
static word features[8] = {~0ul, ~0ul, ~0ul, ~0ul, ~0ul, ~0ul, ~0ul, ~0ul};

void *__x86_get_cpuid_feature_leaf(unsigned leaf) {
    return features;
}

/* ---- numbers of 128 bits, which the compiler makes of two of 64 */

union parts { wide whole; struct { word low, high; } of; };

/* A product: the low halves with all 128 bits, by four products of 32 bits, and the cross products in the high half. */
wide __multi3(wide left, wide right) {
    union parts a = {left}, b = {right}, product;
    word al = (half)a.of.low, ah = a.of.low >> 32, bl = (half)b.of.low, bh = b.of.low >> 32;
    word low = al * bl, one = al * bh, other = ah * bl;
    word middle = (low >> 32) + (half)one + (half)other;
    product.of.low = (half)low | middle << 32;
    product.of.high = ah * bh + (one >> 32) + (other >> 32) + (middle >> 32) + a.of.high * b.of.low + a.of.low * b.of.high;
    return product.whole;
}

wide __ashlti3(wide value, int by) {
    union parts a = {value}, shifted;
    if (by == 0) return value;
    shifted.of.low = by < 64 ? a.of.low << by : 0;
    shifted.of.high = by < 64 ? a.of.high << by | a.of.low >> (64 - by) : a.of.low << (by - 64);
    return shifted.whole;
}

wide __lshrti3(wide value, int by) {
    union parts a = {value}, shifted;
    if (by == 0) return value;
    shifted.of.high = by < 64 ? a.of.high >> by : 0;
    shifted.of.low = by < 64 ? a.of.low >> by | a.of.high << (64 - by) : a.of.high >> (by - 64);
    return shifted.whole;
}

/* A quotient, bit by bit: the rates of faults have a few of them. */
wide __udivti3(wide left, wide right) {
    wide quotient = 0, rest = 0;
    for (int bit = 127; bit >= 0; bit--) {
        rest = rest << 1 | (left >> bit & 1);
        if (rest >= right) {
            rest -= right;
            quotient |= (wide)1 << bit;
        }
    }
    return quotient;
}
