/* Calls functions of every shape from C: values, keys, readers, lists, two lists, lent memory, boxes of degrees, cursors and chunks. */
#include "noripliers.h"
#include <stdio.h>
#include <string.h>

static int failures = 0;

static void expect(int holds, const char *what)
{
    if (!holds) {
        fprintf(stderr, "not so: %s\n", what);
        failures++;
    }
}

#define EXPECT(condition) expect(condition, #condition)

static void tiles(void)
{
    uint32_t version = 9;
    uint8_t order = 9;
    EXPECT(nori_version(&version) == 0 && version == NORI_VERSION);
    EXPECT(nori_check(8, 0, 3) == NORI_OFF_MAP);
    EXPECT(nori_cmp(3, 5, 3, 3, 6, 3, &order) == 0 && order == 0);
}

/* The digits fill their room: zeros stand after them, and everywhere where the call is refused. */
static void parents(void)
{
    static const uint8_t steps[NORI_MAX_DIGITS] = {'1', '3'}, zeros[NORI_MAX_DIGITS];
    uint8_t digits[NORI_MAX_DIGITS], z = 9, count = 9;
    uint32_t x = 9, y = 9;
    memset(digits, 0xff, sizeof digits);
    EXPECT(nori_parent(3, 5, 3, 1, &x, &y, &z, digits, &count) == 0 && x == 0 && y == 1 && z == 1);
    EXPECT(count == 2 && memcmp(digits, steps, sizeof digits) == 0);
    memset(digits, 0xff, sizeof digits);
    EXPECT(nori_parent(3, 5, 3, 3, &x, &y, &z, digits, &count) == NORI_NO_RELATIVE && x == 0 && y == 0 && z == 0);
    EXPECT(count == 0 && memcmp(digits, zeros, sizeof digits) == 0);
}

static void keys(void)
{
    static const uint8_t key[] = {'2', '1', '3'}, none[1];
    uint8_t out[5] = {9, 9, 9, 9, 9};
    uint64_t count = 9;
    uint32_t x = 9, y = 9;
    uint8_t z = 9;
    EXPECT(nori_quadkey2xyz(key, 3, &x, &y, &z) == 0 && x == 3 && y == 5 && z == 3);
    EXPECT(nori_quadkey2xyz(none, 0, &x, &y, &z) == 0 && x == 0 && y == 0 && z == 0);
    EXPECT(nori_xyz2quadkey(3, 5, 3, out, 2, &count) == NORI_MEMORY && count == 0 && out[0] == 9);
    EXPECT(nori_xyz2quadkey(3, 5, 3, out, 5, &count) == 0 && count == 3 && memcmp(out, key, 3) == 0 && out[3] == 9);
    EXPECT(nori_ancestor_key(key, 3, 2, &count) == 0 && count == 2);
}

/* A reader takes in its values and gives them where they were; what no bytes leave stays as it was. */
static void readers(void)
{
    static const char key[] = "213";
    uint32_t x = 0, y = 0, tx = 9, ty = 9;
    uint8_t count = 0, bad = 0, tz = 9;
    EXPECT(nori_key_tile(x, y, count, bad, &tx, &ty, &tz) == 0 && tx == 0 && ty == 0 && tz == 0);
    for (size_t i = 0; key[i]; i++) EXPECT(nori_key_feed((uint8_t)key[i], &x, &y, &count, &bad) == 0);
    EXPECT(x == 3 && y == 5 && count == 3 && bad == 0);
    EXPECT(nori_key_tile(x, y, count, bad, &tx, &ty, &tz) == 0 && tx == 3 && ty == 5 && tz == 3);
    EXPECT(nori_key_feed('4', &x, &y, &count, &bad) == 0 && x == 0 && y == 0 && count == 4 && bad == 1);
    EXPECT(nori_key_tile(x, y, count, bad, &tx, &ty, &tz) == NORI_KEY_BYTE && tx == 0 && ty == 0 && tz == 0);
    for (int i = 0; i < 600; i++) EXPECT(nori_key_feed('0', &x, &y, &count, &bad) == 0);
    EXPECT(x == 0 && y == 0 && count == NORI_MAX_DIGITS + 1 && bad == 0);
    tx = ty = tz = 9;
    EXPECT(nori_key_tile(x, y, count, bad, &tx, &ty, &tz) == NORI_KEY_LENGTH && tx == 0 && ty == 0 && tz == 0);
    x = 8, y = 7, count = 3;
    EXPECT(nori_key_feed('0', &x, &y, &count, &bad) == NORI_NO_STATE && x == 8 && y == 7 && count == 3 && bad == 0);
    /* What is refused is not written at all, so that it may lie where nothing can be. */
    static const uint32_t column = 8, row = 7;
    static const uint8_t digits = 3, good = 0;
    EXPECT(nori_key_feed('0', (uint32_t *)&column, (uint32_t *)&row, (uint8_t *)&digits, (uint8_t *)&good) == NORI_NO_STATE);
    x = 7, bad = 2;
    EXPECT(nori_key_feed('0', &x, &y, &count, &bad) == NORI_NO_STATE && x == 7 && y == 7 && count == 3 && bad == 2);
    tx = ty = tz = 9;
    EXPECT(nori_key_tile(x, y, count, bad, &tx, &ty, &tz) == NORI_NO_STATE && tx == 0 && ty == 0 && tz == 0);
}

/* The last tile of the deepest zoom, its key and its numbers, and one past each. */
static void deepest(void)
{
    const uint8_t zoom = NORI_MAX_ZOOM;
    const uint32_t side = (uint32_t)1 << zoom, last = side - 1;
    const uint64_t tiles = (((uint64_t)1 << (2 * zoom + 2)) - 1) / 3;
    uint8_t key[NORI_MAX_DIGITS + 1], digits[NORI_MAX_DIGITS], z = 9, steps = 9;
    uint64_t number = 9, count = 9;
    uint32_t x = 9, y = 9;
    EXPECT(nori_check(last, last, zoom) == 0 && nori_check(last, last, zoom + 1) == NORI_ZOOM);
    EXPECT(nori_check(side, last, zoom) == NORI_OFF_MAP && nori_check(last, side, zoom) == NORI_OFF_MAP);
    EXPECT(nori_entry(last, last, zoom, &number) == 0 && number == tiles - 1);
    EXPECT(nori_xyz2rmid(last, last, zoom, &number) == 0 && number == tiles - 1);
    EXPECT(nori_entry_tile(tiles - 1, &x, &y, &z) == 0 && x == last && y == last && z == zoom);
    EXPECT(nori_entry_tile(tiles, &x, &y, &z) == NORI_NO_TILE && nori_rmid2xyz(tiles, &x, &y, &z) == NORI_NO_TILE);
    EXPECT(nori_to_id(0, 0, NORI_MAX_ID_ZOOM, &number) == 0 && nori_to_id(0, 0, NORI_MAX_ID_ZOOM + 1, &number) == NORI_ZOOM);
    EXPECT(nori_from_id(NORI_MAX_ID_ZOOM, &x, &y, &z) == 0 && nori_from_id(NORI_MAX_ID_ZOOM + 1, &x, &y, &z) == NORI_NO_TILE);
    memset(key, '3', sizeof key);
    EXPECT(nori_quadkey2xyz(key, zoom, &x, &y, &z) == 0 && x == last && y == last && z == zoom);
    EXPECT(nori_quadkey2xyz(key, sizeof key, &x, &y, &z) == NORI_KEY_LENGTH);
    EXPECT(nori_xyz2quadkey(last, last, zoom, key, sizeof key, &count) == 0 && count == zoom);
    memset(digits, 0xff, sizeof digits);
    EXPECT(nori_parent(last, last, zoom, zoom - 1, &x, &y, &z, digits, &steps) == 0 && x == 0 && y == 0 && z == 0);
    EXPECT(steps == NORI_MAX_DIGITS && memcmp(digits, key, sizeof digits) == 0);
}

static void lists(void)
{
    uint64_t four[4], out[6] = {9, 9, 9, 9, 9, 9}, root[1], count = 9;
    uint8_t changed = 9, settled = 9;
    EXPECT(nori_entry(0, 0, 0, root) == 0);
    EXPECT(nori_children(0, 0, 0, 1, four, 4, &count) == 0 && count == 4);
    EXPECT(nori_merge(four, 4, 0, out, 6, &count, &changed) == 0 && count == 1 && changed == 1);
    EXPECT(out[0] == root[0] && out[1] == 0 && out[3] == 0 && out[4] == 9);
    EXPECT(nori_is_settled(four, 4, &settled) == 0 && settled == 0);
    EXPECT(nori_difference(root, 1, four, 1, out, 6, &count) == 0 && count == 3);
    EXPECT(nori_union(root, 1, four, 4, out, 6, &count) == NORI_NOT_SETTLED && count == 0);
}

static void boxes_and_zooms(void)
{
    uint64_t length = 9, after = 9;
    uint32_t zset = 9, x = 9, y = 9;
    uint8_t zooms[] = {0, 1, 2, 4}, lows[2], highs[2], count = 9, z = 9, told = 9;
    uint64_t ranges = 9;
    EXPECT(nori_zbox_length(16, 0, 65535, 0, 65535, &length) == 0 && length == 4294967296u);
    EXPECT(nori_zbox_next(3, 1, 3, 5, 6, 5, &count, &x, &y, &z, &after) == 0 && count == 1 && x == 3 && y == 6 && after == 6);
    EXPECT(nori_zbox_next(3, 1, 3, 5, 6, 7, &count, &x, &y, &z, &after) == NORI_NO_BOX && count == 0);
    const uint32_t boxes[] = {3, 1, 3, 5, 6, 0, 0, 0, 0, 0};
    EXPECT(nori_zboxes_next(boxes, 10, 6, &count, &x, &y, &z, &after) == 0 && count == 1 && x == 0 && z == 0 && after == 7);
    EXPECT(nori_zboxes_next(boxes, 10, 8, &count, &x, &y, &z, &after) == NORI_NO_BOX && count == 0 && after == 0);
    EXPECT(nori_zbox_size_hint(3, 1, 3, 5, 6, 5, &length) == 0 && length == 6);
    EXPECT(nori_zvec2zset(zooms, 4, &zset) == 0 && zset == 23);
    EXPECT(nori_zoom_ranges(zset, lows, 2, highs, 2, &ranges) == 0 && ranges == 2);
    EXPECT(lows[0] == 0 && highs[0] == 2 && lows[1] == 4 && highs[1] == 4);
    EXPECT(nori_bbox_contains_lnglat(170.0, -5.0, -170.0, 5.0, 175.0, 0.0, &told) == 0 && told == 1);
}

static void lines(void)
{
    static const char text[] = "(tiles 00 01 02 03)\n(tiles 4";
    uint8_t line[NORI_KEPT], out[32 * NORI_FORM_PLACES];
    uint64_t next = 9, kept = 9, filled = 9, count = 9;
    EXPECT(nori_form_feed((const uint8_t *)text, sizeof text - 1, line, 0, out, sizeof out, &next, &kept, &filled) == 0);
    EXPECT(next == sizeof text - 1 && kept == 8 && filled == 6 && memcmp(out, "(1 0)\n", 6) == 0);
    EXPECT(nori_form_finish(line, kept, out, sizeof out, &count) == 0 && count == 13 && memcmp(out, "(refused 15)\n", 13) == 0);
}

int main(void)
{
    tiles();
    parents();
    keys();
    readers();
    deepest();
    lists();
    boxes_and_zooms();
    lines();
    return failures == 0 ? 0 : 1;
}
