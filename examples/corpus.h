/* corpus.h: reads the recorded corpus (oracle/corpus/corpus.bin; its form is told in oracle/README.md) case by case. */
#ifndef CORPUS_H
#define CORPUS_H

#include <stdint.h>
#include <stdio.h>
#include <stdlib.h>

#include "thatchnip.h"

/* One case: an image, the places of the three tables, and the answer. */
struct corpus_case {
    uint8_t image[65536];
    uint32_t length, outcomes, walked, reports, refusal, count;
    uint64_t found[THATCHNIP_REPORTS_MOST];
};

static uint32_t corpus_u32(FILE *file) {
    uint8_t b[4];
    if (fread(b, 1, 4, file) != 4) {
        fprintf(stderr, "the corpus breaks off\n");
        exit(3);
    }
    return b[0] | (uint32_t)b[1] << 8 | (uint32_t)b[2] << 16 | (uint32_t)b[3] << 24;
}

static void corpus_next(FILE *file, struct corpus_case *c) {
    uint32_t i;
    c->length = corpus_u32(file);
    if (c->length > sizeof c->image || fread(c->image, 1, c->length, file) != c->length) {
        fprintf(stderr, "an image of the corpus is too long or breaks off\n");
        exit(3);
    }
    c->outcomes = corpus_u32(file);
    c->walked = corpus_u32(file);
    c->reports = corpus_u32(file);
    c->refusal = corpus_u32(file);
    c->count = corpus_u32(file);
    if (c->count > THATCHNIP_REPORTS_MOST) {
        fprintf(stderr, "a case of the corpus has too many reports\n");
        exit(3);
    }
    for (i = 0; i < c->count; i++) {
        c->found[i] = corpus_u32(file);
        c->found[i] |= (uint64_t)corpus_u32(file) << 32;
    }
}

#endif
