/* stack.c: measures the stack that a call of thatchnip_check takes; ends with 1 where a figure does not hold.
 * stack CORPUS IMAGE..: on the images of the recorded corpus, on the image files named, and on images made here, nested to the limits.
 *
 * Each call runs on a stack of its own that was painted before; the lowest byte changed shows how deep it went, counted from the stack
 * pointer at the call, so the caller's own frame is not in the figure and the two arguments on the stack and the return address are. Then
 * the figure is tried: a child process runs the same call on a stack that ends, rounded up to a page, at a page that may not be
 * touched, and must end; on a stack of one page less it must be killed. */
#define _DEFAULT_SOURCE
#include <stdio.h>
#include <stdlib.h>
#include <string.h>
#include <sys/mman.h>
#include <sys/wait.h>
#include <ucontext.h>
#include <unistd.h>

#include "corpus.h"
#include "thatchnip.h"

enum { PAINT = 0xa5, PAGE = 4096, AREA = 1024 * 1024, PLACES = 131072 };

typedef uint64_t entry(const uint8_t *, size_t, uint8_t *, size_t, uint8_t *, size_t, uint8_t *, size_t);

static uint8_t *area;
static uint8_t image[THATCHNIP_IMAGE_MOST + 1];
static size_t image_length;
static uint8_t outcomes[PLACES * THATCHNIP_OUTCOME_PLACE];
static uint8_t walked[PLACES * THATCHNIP_WALKED_PLACE];
static uint8_t reports[THATCHNIP_REPORTS_MOST * THATCHNIP_REPORT_PLACE];
static size_t outcome_length = sizeof outcomes, walked_length = sizeof walked, report_length = sizeof reports;

static entry *volatile called;
static uint64_t result;
static ucontext_t here, there;

/* Runs on the area's stack. */
static void trampoline(void) {
    result = called(image, image_length, outcomes, outcome_length, walked, walked_length, reports, report_length);
}

static void call_on_area(entry *f) {
    called = f;
    if (getcontext(&there) != 0)
        abort();
    there.uc_stack.ss_sp = area;
    there.uc_stack.ss_size = AREA;
    there.uc_link = &here;
    makecontext(&there, trampoline, 0);
    if (swapcontext(&here, &there) != 0)
        abort();
}

/* Touches nothing below its return address. */
static uint64_t nothing(const uint8_t *a, size_t al, uint8_t *b, size_t bl, uint8_t *c, size_t cl, uint8_t *d, size_t dl) {
    (void)a, (void)al, (void)b, (void)bl, (void)c, (void)cl, (void)d, (void)dl;
    return 0;
}

/* Bytes from the top of the area to the lowest one changed; the area is painted before and after. */
static size_t reached(entry *f) {
    size_t low = 0;
    call_on_area(f);
    while (low < AREA && area[low] == PAINT)
        low++;
    memset(area + low, PAINT, AREA - low);
    return AREA - low;
}

/* What a call of the check takes: two arguments and the return address, which `nothing` has too, and all below; `whole` is from the area's top. */
static size_t used(size_t *whole) {
    size_t caller = reached(nothing);
    *whole = reached(thatchnip_check);
    return *whole - caller + 3 * 8;
}

/* Whether the call ends on a stack of so many bytes; else it is killed by a signal. */
static int ends_within(size_t bytes) {
    int status;
    pid_t child;
    fflush(stdout);
    child = fork();
    if (child < 0)
        abort();
    if (child == 0) {
        if (mprotect(area, AREA - bytes, PROT_NONE) != 0)
            _exit(2);
        call_on_area(thatchnip_check);
        _exit(0);
    }
    if (waitpid(child, &status, 0) != child)
        abort();
    if (!WIFSIGNALED(status) && !(WIFEXITED(status) && WEXITSTATUS(status) == 0))
        abort();
    return !WIFSIGNALED(status);
}

static size_t most;
static int wrong;

/* Measures a call on the image that stands there, tries the figure, and prints it. */
static void measure(const char *name, uint32_t expected_refusal) {
    size_t whole, bytes = used(&whole), pages = (whole + PAGE - 1) / PAGE * PAGE;
    const char *fault = "";
    if (!ends_within(pages) || ends_within(pages - PAGE))
        fault = "  NOT SO on a guarded stack";
    if (thatchnip_refusal(result) != expected_refusal)
        fault = "  UNEXPECTED refusal";
    if (*fault != 0)
        wrong = 1;
    printf("%8lu  %2u  %s%s\n", (unsigned long)bytes, (unsigned)thatchnip_refusal(result), name, fault);
    if (bytes > most)
        most = bytes;
}

/* The image that is being made. */
static uint8_t nodes[THATCHNIP_NODES_MOST][THATCHNIP_IMAGE_NODE];
static uint8_t rules[THATCHNIP_RULES_MOST][THATCHNIP_IMAGE_RULE];
static uint8_t text[THATCHNIP_TEXT_MOST];
static uint32_t node_count, rule_count, text_count;

/* Lays a number down, little-endian. */
static void put(uint8_t *at, uint32_t x) {
    at[0] = (uint8_t)x, at[1] = (uint8_t)(x >> 8), at[2] = (uint8_t)(x >> 16), at[3] = (uint8_t)(x >> 24);
}

/* An image with nothing in it. */
static void begin(void) {
    memset(nodes, 0, sizeof nodes);
    memset(rules, 0, sizeof rules);
    node_count = rule_count = text_count = 0;
}

/* One node more, with an empty span; gives its number. */
static uint32_t node(int kind, int bits, uint32_t a, uint32_t b, uint32_t c) {
    uint8_t *n = nodes[node_count];
    n[0] = (uint8_t)kind, n[1] = (uint8_t)bits;
    put(n + 4, a), put(n + 8, b), put(n + 12, c);
    return node_count++;
}

/* One rule more. */
static void rule(const char *name, uint32_t root) {
    uint8_t *r = rules[rule_count++];
    put(r, text_count), put(r + 4, (uint32_t)strlen(name)), put(r + 8, root);
    memcpy(text + text_count, name, strlen(name));
    text_count += (uint32_t)strlen(name);
}

/* Lays the image out; the report table has places enough. */
static void finish(void) {
    uint32_t at = THATCHNIP_IMAGE_CONTENTS;
    put(image, at), put(image + 4, rule_count);
    memcpy(image + at, rules, rule_count * sizeof rules[0]);
    at += rule_count * (uint32_t)sizeof rules[0];
    put(image + 8, at), put(image + 12, node_count);
    memcpy(image + at, nodes, node_count * sizeof nodes[0]);
    at += node_count * (uint32_t)sizeof nodes[0];
    put(image + 16, at), put(image + 20, text_count);
    memcpy(image + at, text, text_count);
    image_length = at + text_count;
    report_length = sizeof reports;
}

enum { STR = 1, IDENT = 4, POSPRED = 6, SEQ = 8, CHOICE = 9, OPT = 10, REP = 11, REPONCE = 12, PUSH = 17, TAG = 19 };

/* A node over a part; counted repetitions have two copies. */
static uint32_t over(int kind, uint32_t part) {
    return node(kind, 0, part, kind >= 13 && kind <= 16 ? 2 : 0, kind == 16 ? 2 : 0);
}

/* So many nodes of a kind, one around the other, over a part. */
static uint32_t nest(int kind, int times, uint32_t part) {
    while (times-- > 0)
        part = over(kind, part);
    return part;
}

/* So many Seqs or Choices, one in the other, at the left or at the right; the search for left recursion goes on to both sides. */
static uint32_t spine(int kind, int times, int at_left) {
    uint32_t deep = node(STR, 4, 0, 0, 0);
    while (times-- > 0) {
        uint32_t side = node(STR, 4, 0, 0, 0);
        deep = at_left ? node(kind, 4, deep, side, 0) : node(kind, 4, side, deep, 0);
    }
    return deep;
}

/* So many rules, each over the name of the next, with a node of this kind around the name (0: none); the last is a Str. */
static void chain(int count, int kind) {
    char name[3] = "aa";
    int i;
    for (i = 0; i < count; i++) {
        uint32_t root;
        name[0] = (char)('a' + i / 16), name[1] = (char)('a' + i % 16);
        /* the name of rule i + 1 will stand at 2 (i + 1) of the text */
        root = i + 1 < count ? node(IDENT, 0, 2 * (uint32_t)(i + 1), 2, 0) : node(STR, 0, 0, 0, 0);
        rule(name, kind == 0 ? root : over(kind, root));
    }
}

static const char *const kinds[] = {
    "", "Str", "Insens", "Range", "Ident", "PeekSlice", "PosPred", "NegPred", "Seq", "Choice", "Opt", "Rep", "RepOnce", "RepExact", "RepMin",
    "RepMax", "RepMinMax", "Push", "PushLiteral", "NodeTag"
};

/* The kinds that have one part. */
static const int around[] = {6, 7, 10, 11, 12, 13, 14, 15, 16, 17, 19};

static void open_nodes(void) {
    char name[80];
    size_t i;
    int at_left, kind;

    printf("256 open nodes: the stack pass and the left-recursion search\n");
    for (i = 0; i < sizeof around / sizeof around[0]; i++) {
        begin();
        rule("a", nest(around[i], 255, node(STR, 0, 0, 0, 0)));
        finish();
        sprintf(name, "255 nested %s over a Str", kinds[around[i]]);
        measure(name, 0);
    }
    for (i = 0; i < sizeof around / sizeof around[0]; i++) {
        begin();
        rule("a", over(REP, nest(around[i], 254, node(STR, 0, 0, 0, 0))));
        finish();
        sprintf(name, "Rep over 254 nested %s over a Str", kinds[around[i]]);
        measure(name, 0);
    }
    for (kind = SEQ; kind <= CHOICE; kind++)
        for (at_left = 1; at_left >= 0; at_left--) {
            begin();
            rule("a", spine(kind, 255, at_left));
            finish();
            sprintf(name, "255 nested %s at the %s, bit 4 set", kinds[kind], at_left ? "left" : "right");
            measure(name, 0);
        }
    begin();
    chain(256, 0);
    finish();
    measure("256 rules, each the name of the next", 0);
    begin();
    chain(128, REPONCE);
    finish();
    measure("128 rules, each a RepOnce over the name of the next", 0);
    begin();
    rule("a", nest(POSPRED, 256, node(STR, 0, 0, 0, 0)));
    finish();
    measure("256 nested PosPred over a Str: a 257th open node", THATCHNIP_OPEN_OVER);
    begin();
    rule("a", over(REP, nest(REPONCE, 255, node(STR, 0, 0, 0, 0))));
    finish();
    measure("Rep over 255 nested RepOnce over a Str: a 257th open node", THATCHNIP_OPEN_OVER);
    /* skips that change the stack turn the stack pass off */
    begin();
    rule("WHITESPACE", over(PUSH, node(STR, 0, 0, 0, 0)));
    rule("a", spine(SEQ, 256, 1));
    finish();
    measure("256 nested Seq at the left, no stack pass: a 257th open node", THATCHNIP_OPEN_OVER);
}

static void all_nodes(void) {
    printf("2,048 nodes: the passes without a limit on depth\n");
    begin();
    rule("a", nest(OPT, 2047, node(STR, 0, 0, 0, 0)));
    finish();
    measure("2,047 nested Opt over a Str, to the refusal by the stack pass", THATCHNIP_OPEN_OVER);
    begin();
    rule("a", nest(POSPRED, 2047, node(STR, 0, 0, 0, 0)));
    finish();
    measure("2,047 nested PosPred over a Str, to the refusal by the stack pass", THATCHNIP_OPEN_OVER);

    /* a report that finds no place ends the check before the stack pass */
    begin();
    rule("a", nest(OPT, 2046, over(REP, node(STR, 3, 0, 0, 0))));
    finish();
    report_length = 0;
    measure("2,046 nested Opt over a Rep, reasons 1 and 2 alone", THATCHNIP_REPORTS_FULL);
    /* skips that change the stack turn the stack pass off, and a choice that finds no place ends the check before the left search */
    begin();
    rule("WHITESPACE", nest(TAG, 2043, over(PUSH, node(STR, 0, 0, 0, 0))));
    rule("a", node(CHOICE, 0, node(STR, 3, 0, 0, 0), node(STR, 0, 0, 0, 0), 0));
    finish();
    report_length = 0;
    measure("WHITESPACE of 2,043 nested NodeTag over a Push, rule_modifies_stack alone", THATCHNIP_REPORTS_FULL);
    begin();
    rule("WHITESPACE", over(PUSH, node(STR, 0, 0, 0, 0)));
    rule("a", nest(OPT, 2043, node(CHOICE, 0, node(STR, 3, 0, 0, 0), node(STR, 0, 0, 0, 0), 0)));
    finish();
    report_length = 0;
    measure("2,043 nested Opt over a Choice, reason 4 alone", THATCHNIP_REPORTS_FULL);
}

static int by_size(const void *a, const void *b) {
    size_t x = *(const size_t *)a, y = *(const size_t *)b;
    return (x > y) - (x < y);
}

/* Every recorded case: the middle and the most. */
static void corpus(const char *path) {
    static struct corpus_case c;
    static size_t sizes[65536];
    uint32_t cases, i, done = 0;
    size_t whole;
    FILE *file = fopen(path, "rb");
    if (file == NULL) {
        perror(path);
        exit(3);
    }
    cases = corpus_u32(file);
    for (i = 0; i < cases && done < sizeof sizes / sizeof sizes[0]; i++) {
        corpus_next(file, &c);
        if (c.length > sizeof image || c.outcomes > PLACES || c.walked > PLACES || c.reports > THATCHNIP_REPORTS_MOST)
            continue;
        memcpy(image, c.image, c.length);
        image_length = c.length;
        outcome_length = c.outcomes * THATCHNIP_OUTCOME_PLACE;
        walked_length = c.walked * THATCHNIP_WALKED_PLACE;
        report_length = c.reports * THATCHNIP_REPORT_PLACE;
        sizes[done++] = used(&whole);
        if (thatchnip_refusal(result) != c.refusal)
            wrong = 1;
    }
    fclose(file);
    outcome_length = sizeof outcomes;
    walked_length = sizeof walked;
    if (done == 0)
        return;
    qsort(sizes, done, sizeof sizes[0], by_size);
    printf("%u of %u recorded cases\n", (unsigned)done, (unsigned)cases);
    printf("%8lu      half of them take no more\n%8lu      nine of ten take no more\n%8lu      the most\n", (unsigned long)sizes[done / 2],
           (unsigned long)sizes[done / 10 * 9], (unsigned long)sizes[done - 1]);
}

/* The image files named; none of them is refused. */
static void files(int count, char **names) {
    FILE *file;
    printf("image files\n");
    while (count-- > 0) {
        file = fopen(*names, "rb");
        if (file == NULL) {
            perror(*names);
            exit(3);
        }
        image_length = fread(image, 1, sizeof image, file);
        report_length = sizeof reports;
        fclose(file);
        measure(*names++, 0);
    }
}

int main(int argc, char **argv) {
    uint8_t *base;
    if (argc < 2) {
        fprintf(stderr, "usage: stack CORPUS IMAGE..\n");
        return 3;
    }
    /* a page below the area that may not be touched: a call that takes more than the area is killed */
    base = (uint8_t *)mmap(NULL, PAGE + AREA, PROT_READ | PROT_WRITE, MAP_PRIVATE | MAP_ANONYMOUS, -1, 0);
    if (base == MAP_FAILED || mprotect(base, PAGE, PROT_NONE) != 0) {
        perror("mmap");
        return 3;
    }
    area = base + PAGE;
    memset(area, PAINT, AREA);
    printf("bytes of stack, refusal, image\n");
    files(argc - 2, argv + 2);
    corpus(argv[1]);
    open_nodes();
    all_nodes();
    printf("%8lu      the most of the images made here and the files\n", (unsigned long)most);
    return wrong;
}
