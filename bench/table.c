/* table FILE PATTERNS: the C twin of `dachsmond table FILE -f PATTERNS`. For each line of PATTERNS it prints how often
   the pattern is seen, is unknown and is not seen, and the pattern, with tabs between. The texts are read by the
   library; all else is the twin's. */
#include "measure.h"
#include <stdio.h>
#include <string.h>

int main(int argc, char **argv)
{
    static uint8_t file[4 << 20];
    char text[4200];
    if (argc < 3) return fprintf(stderr, "usage: table FILE PATTERNS\n"), 2;
    FILE *in = fopen(argv[1], "rb"), *patterns = fopen(argv[2], "r");
    if (!in || !patterns) return perror(in ? argv[2] : argv[1]), 1;
    twin_read(file, fread(file, 1, sizeof file, in));
    while (fgets(text, sizeof text, patterns)) {
        text[strcspn(text, "\n")] = 0;
        library_tree(text, &twin_trace, &twin);
        if (!twin_rewrite(&twin, twin_trace.names)) return fprintf(stderr, "not accepted: %s\n", text), 1;
        Counts c = twin_totals(twin_trace.rows);
        printf("%u\t%u\t%u\t%s\n", c.yes, c.unknown, c.no, text);
    }
}
