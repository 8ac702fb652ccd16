/* host.c: a C host. Checks the image in the file named and prints its reports; ends with 0 none, 1 some, 2 refused, 3 not run. */
#include <stdio.h>

#include "thatchnip.h"

/* More than any image of the recorded corpus takes; refusal 8 or 9 says that an image needs more. */
enum { WORK_PLACES = 131072 };

/* One byte more than any image has: a longer file is cut there and refused just the same. */
static uint8_t image[THATCHNIP_IMAGE_MOST + 1];
static uint8_t outcomes[WORK_PLACES * THATCHNIP_OUTCOME_PLACE];
static uint8_t walked[WORK_PLACES * THATCHNIP_WALKED_PLACE];
static uint8_t reports[THATCHNIP_REPORTS_MOST * THATCHNIP_REPORT_PLACE];

static const char *const refusals[] = {
#include "refusals.inc"
};

static const char *const reasons[] = {
#include "reasons.inc"
};

static const char *const bases[] = {"empty", "blank", "any", "no base"};

static void print_report(uint64_t report) {
    uint32_t state = thatchnip_report_state(report);
    printf("node %u: %s", (unsigned)thatchnip_report_node(report), reasons[thatchnip_report_reason(report)]);
    if (thatchnip_report_reason(report) == THATCHNIP_STACK_LOOP)
        printf(", state %u (base %s, length %u, blank %u, %s)", (unsigned)state, bases[thatchnip_state_base(state)],
               (unsigned)thatchnip_state_length(state), (unsigned)thatchnip_state_blank(state),
               thatchnip_state_intact(state) ? "intact" : "not intact");
    printf("\n");
}

int main(int argc, char **argv) {
    FILE *file;
    size_t length, i;
    uint64_t result;

    if (argc != 2) {
        fprintf(stderr, "usage: host IMAGE\n");
        return 3;
    }
    file = fopen(argv[1], "rb");
    if (file == NULL) {
        perror(argv[1]);
        return 3;
    }
    length = fread(image, 1, sizeof image, file);
    if (ferror(file)) {
        perror(argv[1]);
        fclose(file);
        return 3;
    }
    fclose(file);

    result = thatchnip_check(image, length, outcomes, sizeof outcomes, walked, sizeof walked, reports, sizeof reports);
    if (thatchnip_refusal(result) != THATCHNIP_DONE) {
        printf("refused %u: %s\n", (unsigned)thatchnip_refusal(result), refusals[thatchnip_refusal(result)]);
        return 2;
    }
    for (i = 0; i < thatchnip_count(result); i++)
        print_report(thatchnip_report(reports, i));
    return thatchnip_count(result) != 0;
}
