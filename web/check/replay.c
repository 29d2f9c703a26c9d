/* replay: the other half of agree.mjs, linked with the native archive. It reads calls that the module has made, makes them of the archive, and compares
 * the answers, every byte of what was lent, and memory. It ends with 1 at the first call that differs. */
#include "deskboard.h"
#include <stdio.h>
#include <stdlib.h>
#include <string.h>

enum { MOST = 6, NUMBERS = 256 };

/* A thing that is given to a call: 'n' a number, 'm' the memory, 'b', 'p' and 'w' a buffer of bytes, pixels and words. */
struct given {
    int letter;
    uint32_t value; /* the number, or the length */
    size_t bytes;
    void *at;
};

static uint8_t *memory;
static size_t length;
static unsigned long scenarios, calls, refused[NUMBERS];
static unsigned long long ticks, pixels;

static void stop(const char *why)
{
    fprintf(stderr, "replay: %s\n", why);
    exit(2);
}

static void take(void *to, size_t n)
{
    if (n && fread(to, 1, n, stdin) != n)
        stop("the calls end in the middle");
}

static int letter(void)
{
    unsigned char c;
    take(&c, 1);
    return c;
}

static uint32_t word(void)
{
    unsigned char b[4];
    take(b, 4);
    return b[0] | (uint32_t)b[1] << 8 | (uint32_t)b[2] << 16 | (uint32_t)b[3] << 24;
}

static void *room(size_t n)
{
    void *at = malloc(n ? n : 1);
    if (!at)
        stop("no memory is left");
    return at;
}

static void take_memory(void)
{
    length = word();
    free(memory);
    memory = room(length);
    take(memory, length);
}

static void take_given(struct given *g)
{
    g->letter = letter();
    g->value = word();
    g->bytes = g->letter == 'b' ? g->value : g->letter == 'p' ? (size_t)g->value * 2 : g->letter == 'w' ? (size_t)g->value * 4 : 0;
    g->at = g->letter == 'm' ? memory : NULL;
    if (g->letter == 'b' || g->letter == 'p' || g->letter == 'w') {
        g->at = room(g->bytes);
        take(g->at, g->bytes);
    }
}

#define LENT(i) g[i].at, g[i].value
static uint32_t made(const char *name, const struct given *g)
{
    if (!strcmp(name, "new")) return deskboard_new(LENT(0));
    if (!strcmp(name, "write")) return deskboard_write(LENT(0), g[1].value, (uint8_t)g[2].value);
    if (!strcmp(name, "read")) return deskboard_read(LENT(0), g[1].value, LENT(2));
    if (!strcmp(name, "reset")) return deskboard_reset(LENT(0));
    if (!strcmp(name, "tick")) return deskboard_tick(LENT(0), LENT(1), LENT(2));
    if (!strcmp(name, "run")) return deskboard_run(LENT(0), LENT(1), g[2].value, LENT(3));
    if (!strcmp(name, "start")) return deskboard_start(LENT(0), LENT(1));
    if (!strcmp(name, "next_line")) return deskboard_next_line(LENT(0), LENT(1), LENT(2));
    if (!strcmp(name, "draw")) return deskboard_draw(LENT(0), LENT(1), LENT(2), LENT(3), LENT(4));
    if (!strcmp(name, "compile")) return deskboard_compile(LENT(0), LENT(1), LENT(2));
    if (!strcmp(name, "install")) return deskboard_install(LENT(0), LENT(1), g[2].value);
    stop("a call that replay does not know");
    return 0;
}

/* The two sums of agree.mjs. */
static int memory_differs(uint32_t first, uint32_t second)
{
    uint32_t a = 0x811c9dc5u, b = 7;
    for (size_t i = 0; i < length; i++) {
        a = (a ^ memory[i]) * 16777619u;
        b = b * 31 + a;
    }
    return a != first || b != second;
}

static int buffer_differs(struct given *g)
{
    void *want = room(g->bytes);
    take(want, g->bytes);
    int differs = memcmp(want, g->at, g->bytes) != 0;
    free(want);
    free(g->at);
    return differs;
}

static void one_call(void)
{
    char name[16];
    size_t n = 0;
    while ((name[n] = (char)letter()) != 0)
        if (++n == sizeof name)
            stop("a name is too long");
    struct given g[MOST];
    int many = letter(), with_memory = 0;
    if (many > MOST)
        stop("too many things are given");
    for (int i = 0; i < many; i++) {
        take_given(&g[i]);
        with_memory |= g[i].letter == 'm';
    }
    uint32_t here = made(name, g), there = word(), first = word(), second = word();
    if (!here && !strcmp(name, "run")) ticks += ((uint32_t *)g[3].at)[DESKBOARD_REPORT_TICKS];
    if (!here && !strcmp(name, "draw")) pixels += ((uint32_t *)g[4].at)[DESKBOARD_REPORT_PIXELS];
    const char *what = here != there ? "the answer" : with_memory && memory_differs(first, second) ? "memory" : NULL;
    for (int i = 0; i < many; i++)
        if (g[i].letter != 'n' && g[i].letter != 'm' && buffer_differs(&g[i]) && !what)
            what = "what was lent";
    calls++;
    refused[DESKBOARD_NUMBER(here) % NUMBERS]++;
    if (!what)
        return;
    printf("scenario %lu, call %lu, %s: %s differs; the archive answers %u, the module %u\n", scenarios, calls, name, what, here, there);
    exit(1);
}

int main(void)
{
    for (int c; (c = letter()) != 'E';) {
        if (c == 'M') take_memory();
        else if (c == 'S') scenarios++;
        else if (c == 'C') one_call();
        else if (c == 'P') {
            uint32_t place = word();
            memory[place] = (uint8_t)word();
        } else stop("no such letter");
    }
    printf("%lu scenarios agree: %lu calls, %llu ticks in runs, %llu pixels drawn; answers", scenarios, calls, ticks, pixels);
    for (int i = 0; i < NUMBERS; i++)
        if (refused[i])
            printf(" %d: %lu", i, refused[i]);
    puts("");
    return calls ? 0 : 2;
}
