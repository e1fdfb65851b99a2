/* What the program `checker` takes from its host, where the host is a page: a heap, one input to read, and room for what it
 * writes. `room` takes the input's length and how many bytes all of it may take, and returns where the input goes, or 0. `judge` runs
 * the program over the input and returns its status, and `text` with `text_length` is what it wrote. Of what `judge` takes, the first
 * says what is written (a place of `forms`), the second what the input is (a place of `kinds`). */

typedef unsigned long size;
typedef long offset;

/* The answer of the heap: whether there is memory, and where. */
struct tried {
    size ok;
    void *place;
};

/* A block begins with its class, in 16 bytes: class k has room for 16 << k bytes. */
struct block {
    size class;
    struct block *next;
};

#define CLASSES 40
#define PAGE 65536ul

extern unsigned char __heap_base;
extern int check_main(void);

static size top, limit;
static struct block *freed[CLASSES];
static unsigned char *document, *written;
static const char *words[4];
static size document_length, document_read, written_length, written_room;
static int error;

static size round16(size n) {
    return (n + 15) & ~15ul;
}

/* Takes so many bytes at the end of the memory, within the limit. */
static void *extend(size n) {
    size end = top + n, pages = __builtin_wasm_memory_size(0);
    if (end < top || end > limit) {
        return 0;
    }
    if (end > pages * PAGE && __builtin_wasm_memory_grow(0, (end - pages * PAGE + PAGE - 1) / PAGE) == ~0ul) {
        return 0;
    }
    top = end;
    return (void *)(end - n);
}

void rattle_dealloc(void *place) {
    struct block *it = (struct block *)((unsigned char *)place - 16);
    it->next = freed[it->class];
    freed[it->class] = it;
}

struct tried rattle_alloc(size n, size alignment) {
    (void)alignment; /* it divides 16 */
    size class = 0;
    while (class < CLASSES && 16ul << class < n) {
        class++;
    }
    struct block *it = class < CLASSES ? freed[class] : 0;
    if (it) {
        freed[class] = it->next;
    } else if (class == CLASSES || !(it = extend(16 + (16ul << class)))) {
        return (struct tried){0, (void *)16};
    }
    it->class = class;
    return (struct tried){1, (unsigned char *)it + 16};
}

struct tried rattle_realloc(void *place, size kept, size n, size alignment) {
    struct block *it = (struct block *)((unsigned char *)place - 16);
    if (n <= 16ul << it->class) {
        return (struct tried){1, place};
    }
    struct tried got = rattle_alloc(n, alignment);
    if (got.ok) {
        __builtin_memcpy(got.place, place, kept);
        rattle_dealloc(place);
    }
    return got;
}

offset read(int file, unsigned char *to, size n) {
    size left = document_length - document_read;
    (void)file;
    n = n < left ? n : left;
    __builtin_memcpy(to, document + document_read, n);
    document_read += n;
    return n;
}

offset write(int file, const unsigned char *from, size n) {
    if (file == 1 && written_length + n > written_room) {
        struct tried got = rattle_realloc(written, written_length, 2 * (written_length + n), 1);
        if (!got.ok) {
            error = 12;
            return -1;
        }
        written = got.place;
        written_room = 2 * (written_length + n);
    }
    if (file == 1) {
        __builtin_memcpy(written + written_length, from, n);
        written_length += n;
    }
    return n;
}

offset lseek(int file, offset to, int whence) {
    (void)file, (void)to, (void)whence;
    error = 29;
    return -1;
}

/* The arguments, by which the program writes the verdict with its reason or report, the document, or the leaves of the buffers. */
#define FORMS 3

static const char *const forms[FORMS] = {"--json", "--document", "--leaves"};

/* What an input is: a document, a module of SPIR-V, a text of WGSL. */
#define KINDS 3

static const char *const kinds[KINDS] = {0, "--spirv", "--wgsl"};

offset rattle_arg(size index, unsigned char *to, size n) {
    const char *word = index < 4 ? words[index] : 0;
    size length = 0;
    if (!word) {
        return -1;
    }
    while (word[length]) {
        length++;
    }
    if (n < length) {
        return -2;
    }
    __builtin_memcpy(to, word, length);
    return length;
}

offset rattle_env(const unsigned char *name, unsigned char *to, size n) {
    (void)name, (void)to, (void)n;
    return -1;
}

offset rattle_env_at(size index, unsigned char *to, size n) {
    (void)index, (void)to, (void)n;
    return -1;
}

void rattle_set_errno(int to) {
    error = to;
}

int rattle_errno(void) {
    return error;
}

offset __sysv_signal(int signal, offset to) {
    (void)signal, (void)to;
    return 0;
}

/* Where the bytes of an input of this length go, or 0, where all of it may take so many bytes; what was written before is gone. */
unsigned char *room(size length, size most) {
    top = round16((size)&__heap_base);
    limit = most < ~0ul - top ? top + most : ~0ul;
    for (int class = 0; class < CLASSES; class++) {
        freed[class] = 0;
    }
    document_length = length;
    document = length < limit ? extend(round16(length)) : 0;
    return document;
}

/* Runs the program over the input: 0 for accepted, 1 for refused, 2 where there is no memory, 3 for a module that was not read. */
int judge(int form, int kind) {
    struct tried got = rattle_alloc(4096, 1);
    words[0] = "shader";
    words[1] = forms[form < 0 || form >= FORMS ? 0 : form];
    words[2] = kinds[kind < 0 || kind >= KINDS ? 0 : kind];
    document_read = written_length = 0;
    written_room = got.ok ? 4096 : 0;
    written = got.place;
    return got.ok ? check_main() : 2;
}

unsigned char *text(void) {
    return written;
}

size text_length(void) {
    return written_length;
}

/* Numbers of 128 bits, which WebAssembly has not. */
typedef unsigned __int128 wide;

static wide joined(size high, size low) {
    union {
        size half[2];
        wide whole;
    } it = {{low, high}};
    return it.whole;
}

wide __multi3(wide a, wide b) {
    size x = (size)a, y = (size)b, x0 = (unsigned)x, x1 = x >> 32, y0 = (unsigned)y, y1 = y >> 32;
    size low = x0 * y0, middle = x1 * y0 + (low >> 32), other = x0 * y1 + (unsigned)middle;
    size high = x1 * y1 + (middle >> 32) + (other >> 32);
    return joined(high + x * (size)(b >> 64) + (size)(a >> 64) * y, other << 32 | (unsigned)low);
}

wide __ashlti3(wide it, int by) {
    size low = (size)it, high = (size)(it >> 64);
    return by & 64 ? joined(low << (by & 63), 0) : by ? joined(high << by | low >> (64 - by), low << by) : it;
}

wide __lshrti3(wide it, int by) {
    size low = (size)it, high = (size)(it >> 64);
    return by & 64 ? joined(0, high >> (by & 63)) : by ? joined(high >> by, low >> by | high << (64 - by)) : it;
}
