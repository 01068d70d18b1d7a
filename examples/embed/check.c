/* A host program: checks the plan in the file that is named, or plan A, and prints what the check program prints. A refusal
 * it prints from the number and the places that it is told. */
#include <stdio.h>

#include "coater.h"

static const char plan_a[] =
    "slots=8\njobs=2\n"
    "level=HI\nrelease=0\ndeadline=8\nlo=2\nhi=4\n"
    "level=LO\nrelease=0\ndeadline=4\nlo=2\nhi=2\n"
    "slot=2\nslot=1\nslot=2\nslot=1\nslot=0\nslot=0\nslot=0\nslot=0\n";

/* A plan's text has at most 6805 bytes; a longer text is refused by what stands in its first 65536. */
static uint8_t text[65536];
static uint8_t out[COATER_CHECK_ROOM];

static size_t read_file(const char *name) {
    FILE *file = fopen(name, "rb");
    if (file == NULL) {
        return 0;
    }
    size_t length = fread(text, 1, sizeof text, file);
    fclose(file);
    return length;
}

int main(int argc, char **argv) {
    const uint8_t *plan = (const uint8_t *)plan_a;
    size_t length = sizeof plan_a - 1;
    if (argc > 1) {
        plan = text;
        length = read_file(argv[1]);
    }
    size_t places[2];
    unsigned refusal = embed_analyse(plan, length, places);
    if (refusal == 8) {
        printf("refused=8,%zu,%zu\n", places[0], places[1]);
    } else if (refusal != 0) {
        printf("refused=%u,%zu\n", refusal, places[0]);
    } else {
        fwrite(out, 1, embed_check(plan, length, out, sizeof out), stdout);
    }
    return refusal == 0 ? 0 : 1;
}
