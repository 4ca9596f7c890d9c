/* `example PLAN LAKE` subtracts one area file from another and prints the quadkeys that are left, one a line, in list order.
 * An area file has a quadkey on each line, in any order; `-` is the root's. */
#include "noripliers.h"
#include <stdio.h>
#include <stdlib.h>

static void accept(uint8_t refusal, const char *path, int line)
{
    if (refusal == 0) return;
    fprintf(stderr, "%s:%d: refused %u\n", path, line, refusal);
    exit(1);
}

/* A key is read byte by byte and not kept. A tile more of an area is kept than there may be, for the library to refuse. */
static uint64_t read_area(const char *path, uint64_t *area)
{
    static uint64_t tiles[NORI_MAX_ENTRIES + 1];
    uint64_t n = 0, count;
    int c = 0, line = 0;
    FILE *file = fopen(path, "r");
    for (; file && c != EOF && n <= NORI_MAX_ENTRIES; line++) {
        uint32_t x = 0, y = 0, tx, ty;
        uint8_t length = 0, bad = 0, last = 0, tz;
        while ((c = getc(file)) != EOF && c != '\n') {
            last = (uint8_t)c;
            accept(nori_key_feed(last, &x, &y, &length, &bad), path, line + 1);
        }
        if (length == 0) continue;
        if (length == 1 && last == '-') length = bad = 0; /* the reader of no bytes, which are the root's key */
        accept(nori_key_tile(x, y, length, bad, &tx, &ty, &tz), path, line + 1);
        accept(nori_entry(tx, ty, tz, &tiles[n++]), path, line + 1);
    }
    if (!file || ferror(file)) exit((perror(path), 1));
    fclose(file);
    accept(nori_simplify(tiles, n, 0, area, NORI_MAX_ENTRIES, &count), path, line);
    return count;
}

int main(int argc, char **argv)
{
    static uint64_t plan[NORI_MAX_ENTRIES], lake[NORI_MAX_ENTRIES], left[1 << 20];
    uint64_t count, length;
    uint8_t key[NORI_MAX_ZOOM], z;
    uint32_t x, y;
    if (argc != 3) return fputs("usage: example PLAN LAKE\n", stderr), 2;
    uint64_t plans = read_area(argv[1], plan), lakes = read_area(argv[2], lake);
    accept(nori_difference(plan, plans, lake, lakes, left, 1 << 20, &count), argv[2], 0);
    for (uint64_t i = 0; i < count; i++) {
        accept(nori_entry_tile(left[i], &x, &y, &z), argv[1], 0);
        accept(nori_xyz2quadkey(x, y, z, key, sizeof key, &length), argv[1], 0);
        printf("%.*s\n", z ? z : 1, z ? (char *)key : "-");
    }
    return fflush(stdout) ? 1 : 0;
}
