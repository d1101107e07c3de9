/* Reads a stream from a file and prints its shortlist: a start for programs of your own.
 *
 *     cc harbour.c $(pkg-config --cflags --libs shortlist) && ./a.out harbour.bin
 */
#include <shortlist.h>

#include <stdio.h>

int main(int argc, char **argv) {
    static uint8_t stream[SHORTLIST_MAX_STREAM_BYTES + 1];
    uint8_t marks[SHORTLIST_MAX_RUNS];
    FILE *file = argc == 2 ? fopen(argv[1], "rb") : NULL;
    if (!file) {
        fprintf(stderr, "usage: harbour FILE\n");
        return 2;
    }
    /* One byte more than the longest stream: with it a file that is too long is refused, and not taken for its beginning. */
    size_t length = fread(stream, 1, sizeof stream, file);
    fclose(file);

    int32_t best = shortlist_window(stream, length, marks, sizeof marks, 64);
    if (best < 0) {
        printf("refused: number %d\n", (int)-best);
        return 1;
    }
    printf("%d on the shortlist, rows", (int)best);
    for (int row = 0; best > 0; row++) {
        if (marks[row] == 1) {
            printf(" %d", row);
            best--;
        }
    }
    printf("\n");
    return 0;
}
