/* The first use that the front page shows. */
#include "noripliers.h"
#include <stdio.h>

int main(void)
{
    uint64_t list[4], area[4], count;
    for (uint32_t i = 0; i < 4; i++)
        if (nori_entry(i % 2, i / 2, 1, &list[i])) return 1; /* the four tiles of zoom 1 .. */
    if (nori_simplify(list, 4, 0, area, 4, &count)) return 1;
    printf("%u\n", (unsigned)count); /* .. settle to one, the root: prints 1 */

    /* Off the map: refused, and the value is 0, which is also the root's. Only the result tells them apart. */
    uint8_t refused = nori_entry(2, 0, 1, &list[0]);
    printf("%u\n", refused); /* prints 2 */
    return 0;
}
