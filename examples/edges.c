/* edges.c: calls the entry at the edges of what thatchnip.h allows, over bytes fenced by pages that may not be touched; ends with 1 on a fault.
 * edges IMAGE [CORPUS]: IMAGE has one report; CORPUS is the recorded corpus, replayed with tables of exactly the recorded places. */
#define _DEFAULT_SOURCE
#include <stdio.h>
#include <stdlib.h>
#include <string.h>
#include <sys/mman.h>

#include "corpus.h"
#include "thatchnip.h"

enum { PAGE = 4096, WORK_MOST = 131072 };

static unsigned long calls, faults;

static void expect(int holds, const char *what) {
    if (!holds && faults++ < 20)
        printf("NOT SO: %s\n", what);
}

/* Room for a slice between two pages that may not be touched. */
struct fenced {
    uint8_t *room;
    size_t size;
};

static struct fenced fence(size_t most) {
    struct fenced f;
    uint8_t *base;
    f.size = (most + PAGE - 1) / PAGE * PAGE + PAGE;
    base = (uint8_t *)mmap(NULL, f.size + 2 * PAGE, PROT_READ | PROT_WRITE, MAP_PRIVATE | MAP_ANONYMOUS, -1, 0);
    if (base == MAP_FAILED || mprotect(base, PAGE, PROT_NONE) != 0 || mprotect(base + PAGE + f.size, PAGE, PROT_NONE) != 0) {
        perror("mmap");
        exit(3);
    }
    f.room = base + PAGE;
    return f;
}

/* A slice of so many bytes at the end of the room, or at its start. */
static uint8_t *slice(struct fenced f, size_t length, int at_end) {
    return at_end ? f.room + f.size - length : f.room;
}

/* Every byte is this one. */
static int all(const uint8_t *p, size_t length, uint8_t byte) {
    return length == 0 || (p[0] == byte && memcmp(p, p + 1, length - 1) == 0);
}

/* Every byte of the room beside a slice is this one. */
static int beside(struct fenced f, const uint8_t *p, size_t length, uint8_t byte) {
    size_t before = (size_t)(p - f.room);
    return all(f.room, before, byte) && all(p + length, f.size - before - length, byte);
}

static struct fenced image_room, outcomes_room, walked_room, reports_room;
static uint8_t *reports;

/* One call on an image and tables of these lengths, filled with a byte before; holds what thatchnip.h says of every return. */
static uint64_t check(const uint8_t *image, size_t length, size_t o, size_t w, size_t r, int at_end, uint8_t fill) {
    uint8_t *im = slice(image_room, length, at_end), *out = slice(outcomes_room, o, at_end), *walk = slice(walked_room, w, at_end);
    uint64_t result;
    size_t count;
    reports = slice(reports_room, r, at_end);
    memset(outcomes_room.room, fill, outcomes_room.size);
    memset(walked_room.room, fill, walked_room.size);
    memset(reports_room.room, fill, reports_room.size);
    if (length != 0)
        memcpy(im, image, length);
    if (mprotect(image_room.room, image_room.size, PROT_READ) != 0)
        abort();
    result = thatchnip_check(im, length, out, o, walk, w, reports, r);
    if (mprotect(image_room.room, image_room.size, PROT_READ | PROT_WRITE) != 0)
        abort();
    calls++;
    count = thatchnip_count(result);
    expect(thatchnip_refusal(result) <= THATCHNIP_SEARCH_OVER, "the refusal is 0 to 13");
    expect(thatchnip_refusal(result) == 0 || count == 0, "a refusal has count 0");
    expect(count <= r / THATCHNIP_REPORT_PLACE, "the count is within the places");
    expect(all(out, o, 0) && all(walk, w, 0), "both work tables are zero");
    expect(all(reports + count * THATCHNIP_REPORT_PLACE, r - count * THATCHNIP_REPORT_PLACE, 0), "report bytes past the count are zero");
    expect(beside(outcomes_room, out, o, fill) && beside(walked_room, walk, w, fill) && beside(reports_room, reports, r, fill),
           "nothing is written beside the tables");
    return result;
}

/* Slices of length 0: NULL, a pointer that leads nowhere, the end of a table. */
static void empty_slices(void) {
    static const uint8_t bare[24] = {24, 0, 0, 0, 0, 0, 0, 0, 24, 0, 0, 0, 0, 0, 0, 0, 24, 0, 0, 0, 0, 0, 0, 0};
    uint8_t *nowhere = (uint8_t *)(uintptr_t)1, *end = reports_room.room + reports_room.size;
    uint64_t one = (uint64_t)1 << 32;
    expect(thatchnip_check(NULL, 0, NULL, 0, NULL, 0, NULL, 0) == one, "no bytes at all, NULL: refusal 1");
    expect(thatchnip_check(nowhere, 0, nowhere, 0, nowhere, 0, nowhere, 0) == one, "no bytes at all, at 1: refusal 1");
    expect(thatchnip_check(end, 0, end, 0, end, 0, end, 0) == one, "no bytes at all, at a fence: refusal 1");
    expect(thatchnip_check(bare, 23, NULL, 0, NULL, 0, NULL, 0) == one, "23 bytes: refusal 1");
    expect(thatchnip_check(bare, 24, NULL, 0, NULL, 0, NULL, 0) == 0, "24 bytes, counts 0, tables NULL: done, no report");
    expect(thatchnip_check(bare, 24, nowhere, 0, end, 0, nowhere, 0) == 0, "24 bytes, counts 0, empty tables anywhere: done, no report");
    calls += 6;
}

/* Lengths that are no multiple of a place: the answer is that of the whole places. */
static void odd_lengths(const uint8_t *image, size_t length) {
    uint64_t report;
    size_t o, w, r;
    check(image, length, 4096, 4096, 64, 1, 0);
    report = thatchnip_report(reports, 0);
    expect(thatchnip_report_reason(report) == THATCHNIP_STACK_LOOP, "the sample's report has reason 3");
    for (o = 0; o < 64; o++)
        for (w = 0; w < 40; w++)
            for (r = 0; r < 24; r++) {
                uint64_t whole = check(image, length, o / 8 * 8, w / 4 * 4, r / 8 * 8, 1, 0xff);
                expect(check(image, length, o, w, r, 1, 0xff) == whole, "bytes left over are no place");
                expect(check(image, length, o, w, r, 0, 0x5a) == whole, "the answer does not depend on what the tables held");
                if (whole == 1)
                    expect(thatchnip_report(reports, 0) == report, "the report is the same in small tables");
            }
}

/* Cut short, and every byte changed in turn. */
static void damaged(const uint8_t *image, size_t length) {
    uint8_t other[4096];
    size_t i;
    int bit;
    for (i = 0; i < length; i++)
        expect(thatchnip_refusal(check(image, i, 4096, 4096, 64, 1, 0xff)) != 0, "an image cut short is refused");
    for (i = 0; i < length; i++)
        for (bit = 0; bit < 8; bit++) {
            memcpy(other, image, length);
            other[i] = (uint8_t)(other[i] ^ 1 << bit);
            check(other, length, 4096, 4096, 64, 1, 0xff);
            check(other, length, 40, 20, 8, 0, 0xff);
        }
}

/* Every recorded case through the C boundary, with tables of exactly its places and some bytes left over. */
static void corpus(const char *path) {
    static struct corpus_case c;
    FILE *file = fopen(path, "rb");
    uint32_t cases, i, k;
    if (file == NULL) {
        perror(path);
        exit(3);
    }
    image_room = fence(sizeof c.image);
    outcomes_room = fence(WORK_MOST * THATCHNIP_OUTCOME_PLACE + 7);
    walked_room = fence(WORK_MOST * THATCHNIP_WALKED_PLACE + 3);
    reports_room = fence(THATCHNIP_REPORTS_MOST * THATCHNIP_REPORT_PLACE + 7);
    cases = corpus_u32(file);
    for (i = 0; i < cases; i++) {
        uint64_t result;
        corpus_next(file, &c);
        if (c.outcomes > WORK_MOST || c.walked > WORK_MOST || c.reports > THATCHNIP_REPORTS_MOST) {
            expect(0, "the tables of a recorded case fit the room of this test");
            continue;
        }
        result = check(c.image, c.length, c.outcomes * 8 + i % 8, c.walked * 4 + i % 4, c.reports * 8 + i / 8 % 8, (int)(i % 2), 0xff);
        expect(thatchnip_refusal(result) == c.refusal && thatchnip_count(result) == c.count, "refusal and count are the recorded ones");
        for (k = 0; k < c.count && k < thatchnip_count(result); k++)
            expect(thatchnip_report(reports, k) == c.found[k], "a report is the recorded one");
    }
    fclose(file);
    printf("%u recorded cases\n", (unsigned)cases);
}

int main(int argc, char **argv) {
    static uint8_t image[4096];
    size_t length;
    FILE *file = argc == 2 || argc == 3 ? fopen(argv[1], "rb") : NULL;
    if (file == NULL) {
        fprintf(stderr, "usage: edges IMAGE [CORPUS]\n");
        return 3;
    }
    length = fread(image, 1, sizeof image, file);
    fclose(file);
    image_room = fence(sizeof image);
    outcomes_room = walked_room = reports_room = fence(0);
    empty_slices();
    outcomes_room = fence(4096);
    walked_room = fence(4096);
    reports_room = fence(4096);
    odd_lengths(image, length);
    damaged(image, length);
    if (argc == 3)
        corpus(argv[2]);
    printf("%lu calls, %lu faults\n", calls, faults);
    return faults != 0;
}
