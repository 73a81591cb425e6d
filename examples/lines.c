/* Job lines of both forms: an old one, the longer one that says the same, and one with pilots and
 * a code number. Prints of each what it asks for, and what comes of it moved to either form: a
 * line, or the number of the check that refuses it.
 *     cc -Iinclude examples/lines.c build/libsccc.a -o build/lines && build/lines */
#include "sccc.h"

#include <inttypes.h>
#include <stdio.h>
#include <stdlib.h>
#include <string.h>

static const char *const lines[] = {"13,0\n", "13,0,0,-\n", "37,2,1,262142\n"};
static uint8_t longer[SCCC_LONGEST_LINE], old[SCCC_LONGEST_OLD_LINE];

static void pass(const char *call, uint64_t number)
{
    if (number != SCCC_PASSED) {
        fprintf(stderr, "%s: check %" PRIu64 " failed\n", call, number);
        exit(EXIT_FAILURE);
    }
}

/* without the line feed, with which a line ends */
static void print_moved(const char *name, sccc_line_answer moved, const uint8_t *line)
{
    if (moved.number == SCCC_PASSED)
        printf("; %s %.*s", name, (int)moved.length - 1, (const char *)line);
    else
        printf("; %s refused,%" PRIu64, name, moved.number);
}

int main(void)
{
    for (size_t j = 0; j < sizeof lines / sizeof *lines; j++) {
        const uint8_t *line = (const uint8_t *)lines[j];
        const size_t length = strlen(lines[j]);
        const sccc_job_answer job = sccc_job(line, length);
        pass("job", job.number);
        const sccc_line_answer there = sccc_job_lengthen(line, length, longer, sizeof longer);
        const sccc_line_answer back = sccc_job_shorten(line, length, old, sizeof old);

        printf("%.*s: format %" PRIu64 ", pattern %" PRIu64 ", pilots %" PRIu64,
               (int)length - 1, lines[j], job.format, job.pattern, job.pilots);
        if (job.code == SCCC_UNSCRAMBLED)
            printf(", unscrambled");
        else
            printf(", code %" PRIu64, job.code);
        print_moved("lengthened", there, longer);
        print_moved("shortened", back, old);
        printf("\n");
    }
    return EXIT_SUCCESS;
}
