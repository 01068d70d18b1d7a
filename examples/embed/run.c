/* A host program: runs the text in the file that is named, a plan and its report lines, and prints what the run program prints. */
#include <stdio.h>

#include "coater.h"

/* A run's text has fewer bytes; what a longer one holds past them is not looked at. */
static uint8_t text[65536];
static uint8_t out[COATER_RUN_ROOM];

int main(int argc, char **argv) {
    FILE *file = argc > 1 ? fopen(argv[1], "rb") : NULL;
    if (file == NULL) {
        fprintf(stderr, "run FILE: a plan's text and its report lines\n");
        return 2;
    }
    size_t length = fread(text, 1, sizeof text, file);
    fclose(file);
    size_t printed = embed_run(text, length, out, sizeof out);
    fwrite(out, 1, printed, stdout);
    return 0;
}
