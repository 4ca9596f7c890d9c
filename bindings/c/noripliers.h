/* Noripliers for C and Rust: the integer arithmetic of map tiles, quadkeys and tile areas. Each
 * function is proved to be the library's call, for every input. The names are those of the Rust
 * crate utiles-core, which is called the Rust below.
 *
 * A call returns 0 where it is accepted, and otherwise the number of its refusal: of several
 * that apply, the one that its comment names first. Each value comes back through a pointer.
 * Where the call is refused it is 0, and lent memory is as it was before, as is a reader of
 * keys, which nori_key_feed changes in its place.
 *
 * So look at every result. 0 is a value like others: for a tile, an entry and a key's length it
 * is the root, and a list with a refusal that went unseen covers the whole map. Each call is
 * marked NORI_NODISCARD: a compiler of C23, of C++17, gcc and clang warn of a result that is not
 * used.
 *
 * A list is a pointer and a count of entries, lent memory a pointer and a count of places; a
 * key, a line and a chunk are bytes and a length. An answer goes to the front of the lent
 * memory, which needs a place for each of its entries, and its count of entries comes back; the
 * places behind it stay as they were. Where a call needs or sets more, its comment says so. A
 * list of tiles holds the numbers of nori_entry. Yes is 1 and no is 0.
 *
 * No pointer may be null, also that of an empty list. What a call writes may overlap nothing
 * else that it is handed. Nothing is kept between calls and nothing is allocated: any thread may
 * call. A call on lists of more than 4,096 entries needs up to 1.6 MB of stack, any other at
 * most 256 KB.
 *
 * Written by tools/bindings from the sources of the crate noripliers. */

#ifndef NORIPLIERS_H
#define NORIPLIERS_H

#include <stddef.h>
#include <stdint.h>

#ifdef __cplusplus
extern "C" {
#endif

#if defined(__cplusplus) && __cplusplus >= 201703L
#define NORI_NODISCARD [[nodiscard]]
#elif defined(__STDC_VERSION__) && __STDC_VERSION__ >= 202311L
#define NORI_NODISCARD [[nodiscard]]
#elif defined(__GNUC__)
#define NORI_NODISCARD __attribute__((warn_unused_result))
#else
#define NORI_NODISCARD
#endif

/* The version: 10,000 for each major number, 100 for each minor one, 1 for each patch. */
#define NORI_VERSION 600

/* The deepest zoom. */
#define NORI_MAX_ZOOM 30

/* The room for the longest key: a digit for each zoom. */
#define NORI_MAX_DIGITS NORI_MAX_ZOOM

/* The deepest zoom of the numbers of `to_id`: those of deeper ones would not fit 64 bits. */
#define NORI_MAX_ID_ZOOM 29

/* The most entries of a list, of tiles or of zooms. */
#define NORI_MAX_ENTRIES 65536

/* The most boxes that are summed. */
#define NORI_MAX_BOXES 8

/* The most bytes of a line, without its newline. */
#define NORI_MAX_LINE 4096

/* The most brackets that may be open in a line. */
#define NORI_MAX_OPEN 16

/* The places of each list of a form. */
#define NORI_FORM_PLACES 256

/* How many bytes of a line are kept: one more than a line may have. */
#define NORI_KEPT (NORI_MAX_LINE + 1)

/* Why a call is refused. */
enum nori_refusal {
    /* a zoom above the deepest one. */
    NORI_ZOOM = 1,
    /* x or y off the map. */
    NORI_OFF_MAP = 2,
    /* no such ancestor or sibling. */
    NORI_NO_RELATIVE = 3,
    /* a key longer than the deepest zoom. */
    NORI_KEY_LENGTH = 4,
    /* a byte that is no quadkey digit. */
    NORI_KEY_BYTE = 5,
    /* too many entries, or too many boxes. */
    NORI_TOO_MANY = 6,
    /* a number that is no tile's. */
    NORI_NO_TILE = 7,
    /* no tile to make a box of. */
    NORI_EMPTY_LIST = 8,
    /* tiles of mixed zooms in one box. */
    NORI_MIXED_ZOOMS = 9,
    /* a box upside down or off the map, or a cursor past its end. */
    NORI_NO_BOX = 10,
    /* a list that is not settled. */
    NORI_NOT_SETTLED = 11,
    /* lent memory that is too short. */
    NORI_MEMORY = 12,
    /* a line that is too long. */
    NORI_LINE_LENGTH = 13,
    /* too many open brackets. */
    NORI_BRACKETS = 14,
    /* a line that is no form. */
    NORI_NO_FORM = 15,
    /* a state that no calls leave. */
    NORI_NO_STATE = 16
};

/* ---------------------------------------------------------------------------------------------- */

/* The version of the library. */

/* The version of the archive, which is that of this header where the two belong together: 10,000
 * for each major number, 100 for each minor one, 1 for each patch.
 * Never refused. */
NORI_NODISCARD uint8_t nori_version(uint32_t *version);

/* ---------------------------------------------------------------------------------------------- */

/* Tiles by column x, row y and zoom z, x growing east and y south: the calls of tile.rs. */

/* The tile itself, where x, y and z name one of the map.
 * Refused: 1, 2. */
NORI_NODISCARD uint8_t nori_try_new(uint32_t x, uint32_t y, uint8_t z, uint32_t *tx, uint32_t *ty,
                                    uint8_t *tz);

/* Whether x, y and z name a tile of the map: nothing but the number comes back.
 * Refused: 1, 2. */
NORI_NODISCARD uint8_t nori_check(uint32_t x, uint32_t y, uint8_t z);

/* The tile with its row counted from the other side of the map.
 * Refused: 1, 2. */
NORI_NODISCARD uint8_t nori_flip(uint32_t x, uint32_t y, uint8_t z, uint32_t *tx, uint32_t *ty,
                                 uint8_t *tz);

/* The order of lists of tiles, by zoom, then column, then row: 0 for less, 1 for equal, 2 for
 * greater. Any numbers are compared, on the map or not.
 * Never refused. */
NORI_NODISCARD uint8_t nori_cmp(uint32_t ax, uint32_t ay, uint8_t az, uint32_t bx, uint32_t by,
                                uint8_t bz, uint8_t *order);

/* The tile at (x + 1, y), where that is on the map; the name is the Rust's.
 * Refused: 1, 2. */
NORI_NODISCARD uint8_t nori_up(uint32_t x, uint32_t y, uint8_t z, uint32_t *tx, uint32_t *ty,
                               uint8_t *tz);

/* The tile at (x - 1, y), where that is on the map; the name is the Rust's.
 * Refused: 1, 2. */
NORI_NODISCARD uint8_t nori_down(uint32_t x, uint32_t y, uint8_t z, uint32_t *tx, uint32_t *ty,
                                 uint8_t *tz);

/* The tile at (x, y - 1), where that is on the map; the name is the Rust's.
 * Refused: 1, 2. */
NORI_NODISCARD uint8_t nori_left(uint32_t x, uint32_t y, uint8_t z, uint32_t *tx, uint32_t *ty,
                                 uint8_t *tz);

/* The tile at (x, y + 1), where that is on the map; the name is the Rust's.
 * Refused: 1, 2. */
NORI_NODISCARD uint8_t nori_right(uint32_t x, uint32_t y, uint8_t z, uint32_t *tx, uint32_t *ty,
                                  uint8_t *tz);

/* The tile at (x + 1, y - 1), where that is on the map; the name is the Rust's.
 * Refused: 1, 2. */
NORI_NODISCARD uint8_t nori_up_left(uint32_t x, uint32_t y, uint8_t z, uint32_t *tx, uint32_t *ty,
                                    uint8_t *tz);

/* The tile at (x + 1, y + 1), where that is on the map; the name is the Rust's.
 * Refused: 1, 2. */
NORI_NODISCARD uint8_t nori_up_right(uint32_t x, uint32_t y, uint8_t z, uint32_t *tx, uint32_t *ty,
                                     uint8_t *tz);

/* The tile at (x - 1, y - 1), where that is on the map; the name is the Rust's.
 * Refused: 1, 2. */
NORI_NODISCARD uint8_t nori_down_left(uint32_t x, uint32_t y, uint8_t z, uint32_t *tx, uint32_t *ty,
                                      uint8_t *tz);

/* The tile at (x - 1, y + 1), where that is on the map; the name is the Rust's.
 * Refused: 1, 2. */
NORI_NODISCARD uint8_t nori_down_right(uint32_t x, uint32_t y, uint8_t z, uint32_t *tx,
                                       uint32_t *ty, uint8_t *tz);

/* ---------------------------------------------------------------------------------------------- */

/* Quadkeys: the calls of quadkey.rs. A key is a byte '0' to '3' for each zoom from 1 on; the
 * root's key is empty. */

/* The key of a tile; count is its length, the zoom.
 * Refused: 1, 2, 12. */
NORI_NODISCARD uint8_t nori_xyz2quadkey(uint32_t x, uint32_t y, uint8_t z, uint8_t *out,
                                        size_t out_places, uint64_t *count);

/* The digits of a tile's key as the numbers 0 to 3.
 * Refused: 1, 2, 12. */
NORI_NODISCARD uint8_t nori_xyz2quadkey_vec(uint32_t x, uint32_t y, uint8_t z, uint8_t *out,
                                            size_t out_places, uint64_t *count);

/* The tile of a key.
 * Refused: 4, 5. */
NORI_NODISCARD uint8_t nori_quadkey2xyz(const uint8_t *key, size_t key_length, uint32_t *tx,
                                        uint32_t *ty, uint8_t *tz);

/* One byte more for a reader of keys, which x, y, count and bad are: before the first byte all
 * zeros, afterwards as the last feed left them. It keeps no byte and takes any number of them,
 * and nori_key_tile tells at any time what they are. A reader that no bytes leave is refused,
 * and stays as it was.
 * Refused: 16. */
NORI_NODISCARD uint8_t nori_key_feed(uint8_t byte, uint32_t *x, uint32_t *y, uint8_t *count,
                                     uint8_t *bad);

/* What the bytes that a reader was fed are as a whole key: its tile or its refusal, just as
 * nori_quadkey2xyz answers for all of them. After more bytes than a key has it is 4, however
 * many follow.
 * Refused: 16, 4, 5. */
NORI_NODISCARD uint8_t nori_key_tile(uint32_t x, uint32_t y, uint8_t count, uint8_t bad,
                                     uint32_t *tx, uint32_t *ty, uint8_t *tz);

/* Whether the bytes are a key: nothing but the number comes back.
 * Refused: 4, 5. */
NORI_NODISCARD uint8_t nori_quadkey_check(const uint8_t *key, size_t key_length);

/* Whether the bytes are a key, told as yes or no.
 * Never refused. */
NORI_NODISCARD uint8_t nori_is_quadkey(const uint8_t *key, size_t key_length, uint8_t *told);

/* Whether a byte is a digit of a key.
 * Never refused. */
NORI_NODISCARD uint8_t nori_is_quadkey_byte(uint8_t b, uint8_t *told);

/* The key of the tile whose row is counted from the other side of the map: 0 and 2 change
 * places, 1 and 3.
 * Refused: 4, 5, 12. */
NORI_NODISCARD uint8_t nori_quadkey_flipy(const uint8_t *key, size_t key_length, uint8_t *out,
                                          size_t out_places, uint64_t *count);

/* The key of the ancestor at zoom n is the first n bytes of the caller's own key: length is n.
 * Refused: 3, 4, 5. */
NORI_NODISCARD uint8_t nori_ancestor_key(const uint8_t *key, size_t key_length, size_t n,
                                         uint64_t *length);

/* The key of the deepest ancestor that two keys share is the first length bytes of a.
 * Refused: 4, 5. */
NORI_NODISCARD uint8_t nori_shared_key(const uint8_t *a, size_t a_length, const uint8_t *b,
                                       size_t b_length, uint64_t *length);

/* ---------------------------------------------------------------------------------------------- */

/* The tiles around a tile, and the numbers that stand for tiles: the calls of fns.rs. */

/* The first and the last column, and row, of a zoom: 0 and 2^zoom - 1.
 * Refused: 1. */
NORI_NODISCARD uint8_t nori_minmax(uint8_t zoom, uint32_t *min, uint32_t *max);

/* Whether x, y and z name a tile of the map, told as yes or no.
 * Never refused. */
NORI_NODISCARD uint8_t nori_valid(uint32_t x, uint32_t y, uint8_t z, uint8_t *told);

/* The row counted from the other side of the map: 2^z - 1 - y.
 * Refused: 1, 2. */
NORI_NODISCARD uint8_t nori_flipy(uint32_t y, uint8_t z, uint32_t *row);

/* The same as nori_flipy.
 * Refused: 1, 2. */
NORI_NODISCARD uint8_t nori_yflip(uint32_t y, uint8_t z, uint32_t *row);

/* The ancestor at zoom z - 1 - n, and by which quadkey digit each step to it was left. n counts
 * the steps beyond the parent; the Rust's None is 0. digits holds count digits, 1 + n, as bytes
 * 48 to 51, the deepest step's last, and zeros after them; where the call is refused it holds
 * zeros only. The ancestor's key followed by the digits is the key of the tile asked about.
 * Refused: 1, 2, 3. */
NORI_NODISCARD uint8_t nori_parent(uint32_t x, uint32_t y, uint8_t z, uint8_t n, uint32_t *tx,
                                   uint32_t *ty, uint8_t *tz,
                                   uint8_t *digits /* NORI_MAX_DIGITS places */, uint8_t *count);

/* The tiles of the target zoom inside a tile, each family clockwise by digits 0, 1, 3, 2. A
 * target of z or less gives the tile itself; the Rust's None is z + 1.
 * Refused: 1, 2, 12. */
NORI_NODISCARD uint8_t nori_children(uint32_t x, uint32_t y, uint8_t z, uint8_t zoom, uint64_t *out,
                                     size_t out_places, uint64_t *count);

/* The same, each family by digits 0, 1, 2, 3; the Rust's None is z + 1.
 * Refused: 1, 2, 12. */
NORI_NODISCARD uint8_t nori_children_zorder(uint32_t x, uint32_t y, uint8_t z, uint8_t zoom,
                                            uint64_t *out, size_t out_places, uint64_t *count);

/* The four children of a tile, by digits 0, 1, 2, 3.
 * Refused: 1, 2, 12. */
NORI_NODISCARD uint8_t nori_children1_zorder(uint32_t x, uint32_t y, uint8_t z, uint64_t *out,
                                             size_t out_places, uint64_t *count);

/* The other three children of the tile's parent: beside it, above or below it, and across.
 * Refused: 1, 2, 3, 12. */
NORI_NODISCARD uint8_t nori_siblings(uint32_t x, uint32_t y, uint8_t z, uint64_t *out,
                                     size_t out_places, uint64_t *count);

/* The tiles of the map around a tile, in the Rust's order: none at zoom 0, the siblings at zoom
 * 1.
 * Refused: 1, 2, 12. */
NORI_NODISCARD uint8_t nori_neighbors(uint32_t x, uint32_t y, uint8_t z, uint64_t *out,
                                      size_t out_places, uint64_t *count);

/* The same from zoom 2 on where the last column stands beside the first, in the Rust's order for
 * that.
 * Refused: 1, 2, 12. */
NORI_NODISCARD uint8_t nori_neighbors_wrap_x(uint32_t x, uint32_t y, uint8_t z, uint64_t *out,
                                             size_t out_places, uint64_t *count);

/* The first bit from the top, counted from 0, where west and east or south and north differ, at
 * most 28.
 * Never refused. */
NORI_NODISCARD uint8_t nori_bbox2zoom(uint32_t west, uint32_t south, uint32_t east, uint32_t north,
                                      uint8_t *zoom);

/* The number (2^(z + 1) * y + x) * 32 + z of a tile. A zoom above NORI_MAX_ID_ZOOM is refused by
 * 1: its numbers would not fit 64 bits.
 * Refused: 1, 2. */
NORI_NODISCARD uint8_t nori_to_id(uint32_t x, uint32_t y, uint8_t z, uint64_t *id);

/* The tile of a number of nori_to_id: none has a zoom above NORI_MAX_ID_ZOOM.
 * Refused: 7. */
NORI_NODISCARD uint8_t nori_from_id(uint64_t id, uint32_t *tx, uint32_t *ty, uint8_t *tz);

/* The number that stands for a tile in every list of tiles: that of nori_xyz2rmid. Up to version
 * 0.3.0 it was that of nori_to_id, so stored entries of that time have to be turned over, by
 * nori_from_id and this call.
 * Refused: 1, 2. */
NORI_NODISCARD uint8_t nori_entry(uint32_t x, uint32_t y, uint8_t z, uint64_t *entry);

/* The tile that a number in a list stands for.
 * Refused: 7. */
NORI_NODISCARD uint8_t nori_entry_tile(uint64_t entry, uint32_t *tx, uint32_t *ty, uint8_t *tz);

/* The number of a tile counted row by row, from the root on: (4^z - 1) / 3 + x + y * 2^z.
 * Refused: 1, 2. */
NORI_NODISCARD uint8_t nori_xyz2rmid(uint32_t x, uint32_t y, uint8_t z, uint64_t *rmid);

/* The tile of a number of nori_xyz2rmid.
 * Refused: 7. */
NORI_NODISCARD uint8_t nori_rmid2xyz(uint64_t rmid, uint32_t *tx, uint32_t *ty, uint8_t *tz);

/* The zoom of a number of nori_xyz2rmid, and its place among the tiles of that zoom, from 0 on.
 * Refused: 7. */
NORI_NODISCARD uint8_t nori_int_2_offset_zoom(uint64_t rmid, uint64_t *offset, uint8_t *zoom);

/* ---------------------------------------------------------------------------------------------- */

/* The ancestors of a tile, nearest first: the calls of parent.rs. A cursor is the count 1 and
 * the tile that comes next, or the count 0 and zeros at its end. */

/* The cursor that starts at the parent of a tile; at its end for the root.
 * Refused: 1, 2. */
NORI_NODISCARD uint8_t nori_iter_parents(uint32_t x, uint32_t y, uint8_t z, uint8_t *count,
                                         uint32_t *tx, uint32_t *ty, uint8_t *tz);

/* What a cursor gives, the count 1 and a tile or the count 0 and zeros, and the cursor after it
 * in rest, rx, ry and rz. held is the cursor's count: any number but 0 is 1.
 * Refused: 1, 2. */
NORI_NODISCARD uint8_t nori_parents_next(uint8_t held, uint32_t x, uint32_t y, uint8_t z,
                                         uint8_t *count, uint32_t *tx, uint32_t *ty, uint8_t *tz,
                                         uint8_t *rest, uint32_t *rx, uint32_t *ry, uint8_t *rz);

/* ---------------------------------------------------------------------------------------------- */

/* Which child of its parent a tile is: the call of sibling_relationship.rs. */

/* Of any column and row: upper left 0, upper right 1, lower left 2, lower right 3.
 * Never refused. */
NORI_NODISCARD uint8_t nori_sibling_relationship(uint32_t x, uint32_t y, uint8_t *relation);

/* ---------------------------------------------------------------------------------------------- */

/* Boxes of tiles: the calls of tile_zbox.rs. A box is a zoom and the least and the greatest x
 * and y, both included. */

/* The box itself, where it is one of the map: no min above its max, and no max off the map.
 * Refused: 1, 10. */
NORI_NODISCARD uint8_t nori_zbox_new(uint32_t minx, uint32_t maxx, uint32_t miny, uint32_t maxy,
                                     uint8_t zoom, uint8_t *bz, uint32_t *left, uint32_t *right,
                                     uint32_t *top, uint32_t *bottom);

/* Whether it is a box of the map: nothing but the number comes back.
 * Refused: 1, 10. */
NORI_NODISCARD uint8_t nori_zbox_check(uint8_t zoom, uint32_t minx, uint32_t maxx, uint32_t miny,
                                       uint32_t maxy);

/* The box of one tile.
 * Refused: 1, 2. */
NORI_NODISCARD uint8_t nori_zbox_from_tile(uint32_t x, uint32_t y, uint8_t z, uint8_t *bz,
                                           uint32_t *left, uint32_t *right, uint32_t *top,
                                           uint32_t *bottom);

/* The smallest box around the listed tiles, which are of one zoom.
 * Refused: 6, 7, 8, 9. */
NORI_NODISCARD uint8_t nori_zbox_from_tiles(const uint64_t *list, size_t list_count, uint8_t *bz,
                                            uint32_t *left, uint32_t *right, uint32_t *top,
                                            uint32_t *bottom);

/* Whether a tile lies in a box; one of another zoom does not.
 * Refused: 1, 2, 10. */
NORI_NODISCARD uint8_t nori_zbox_contains_tile(uint8_t zoom, uint32_t minx, uint32_t maxx,
                                               uint32_t miny, uint32_t maxy, uint32_t x, uint32_t y,
                                               uint8_t z, uint8_t *told);

/* The box with its rows counted from the other side of the map.
 * Refused: 1, 10. */
NORI_NODISCARD uint8_t nori_zbox_flipy(uint8_t zoom, uint32_t minx, uint32_t maxx, uint32_t miny,
                                       uint32_t maxy, uint8_t *bz, uint32_t *left, uint32_t *right,
                                       uint32_t *top, uint32_t *bottom);

/* The box of its tiles' children.
 * Refused: 1, 10. */
NORI_NODISCARD uint8_t nori_zbox_zoom_in(uint8_t zoom, uint32_t minx, uint32_t maxx, uint32_t miny,
                                         uint32_t maxy, uint8_t *bz, uint32_t *left,
                                         uint32_t *right, uint32_t *top, uint32_t *bottom);

/* The box of its tiles' descendants depth zooms down, for 0 the box itself.
 * Refused: 1, 10. */
NORI_NODISCARD uint8_t nori_zbox_zoom_depth(uint8_t zoom, uint32_t minx, uint32_t maxx,
                                            uint32_t miny, uint32_t maxy, uint8_t depth,
                                            uint8_t *bz, uint32_t *left, uint32_t *right,
                                            uint32_t *top, uint32_t *bottom);

/* How many tiles a box has.
 * Refused: 1, 10. */
NORI_NODISCARD uint8_t nori_zbox_length(uint8_t zoom, uint32_t minx, uint32_t maxx, uint32_t miny,
                                        uint32_t maxy, uint64_t *length);

/* The same as nori_zbox_length.
 * Refused: 1, 10. */
NORI_NODISCARD uint8_t nori_zbox_size(uint8_t zoom, uint32_t minx, uint32_t maxx, uint32_t miny,
                                      uint32_t maxy, uint64_t *length);

/* The greatest x less the least: one less than the columns.
 * Refused: 1, 10. */
NORI_NODISCARD uint8_t nori_zbox_dx(uint8_t zoom, uint32_t minx, uint32_t maxx, uint32_t miny,
                                    uint32_t maxy, uint32_t *across);

/* The greatest y less the least: one less than the rows.
 * Refused: 1, 10. */
NORI_NODISCARD uint8_t nori_zbox_dy(uint8_t zoom, uint32_t minx, uint32_t maxx, uint32_t miny,
                                    uint32_t maxy, uint32_t *down);

/* The same as nori_zbox_dx.
 * Refused: 1, 10. */
NORI_NODISCARD uint8_t nori_zbox_width(uint8_t zoom, uint32_t minx, uint32_t maxx, uint32_t miny,
                                       uint32_t maxy, uint32_t *across);

/* The same as nori_zbox_dy.
 * Refused: 1, 10. */
NORI_NODISCARD uint8_t nori_zbox_height(uint8_t zoom, uint32_t minx, uint32_t maxx, uint32_t miny,
                                        uint32_t maxy, uint32_t *down);

/* Both nori_zbox_dx and nori_zbox_dy.
 * Refused: 1, 10. */
NORI_NODISCARD uint8_t nori_zbox_dxdy(uint8_t zoom, uint32_t minx, uint32_t maxx, uint32_t miny,
                                      uint32_t maxy, uint32_t *across, uint32_t *down);

/* How many columns and how many rows a box has.
 * Refused: 1, 10. */
NORI_NODISCARD uint8_t nori_zbox_dimensions(uint8_t zoom, uint32_t minx, uint32_t maxx,
                                            uint32_t miny, uint32_t maxy, uint32_t *across,
                                            uint32_t *down);

/* The box's tile behind the first before ones, x first, then y, with the count 1; after is
 * before + 1. Behind the last tile the count is 0 and after is before.
 * Refused: 1, 10. */
NORI_NODISCARD uint8_t nori_zbox_next(uint8_t zoom, uint32_t minx, uint32_t maxx, uint32_t miny,
                                      uint32_t maxy, uint64_t before, uint8_t *count, uint32_t *tx,
                                      uint32_t *ty, uint8_t *tz, uint64_t *after);

/* How many tiles the Rust's iterator says are left of a box: all of them, also behind the first
 * before ones.
 * Refused: 1, 10. */
NORI_NODISCARD uint8_t nori_zbox_size_hint(uint8_t zoom, uint32_t minx, uint32_t maxx,
                                           uint32_t miny, uint32_t maxy, uint64_t before,
                                           uint64_t *length);

/* How many tiles several boxes have together, overlaps counted twice. Five numbers a box: zoom,
 * least x, greatest x, least y, greatest y.
 * Refused: 1, 6, 10. */
NORI_NODISCARD uint8_t nori_zboxes_length(const uint32_t *boxes, size_t boxes_count,
                                          uint64_t *length);

/* Several boxes with their rows counted from the other side of the map. Five numbers a box, as
 * for nori_zboxes_length; count counts the numbers.
 * Refused: 1, 6, 10, 12. */
NORI_NODISCARD uint8_t nori_zboxes_flipy(const uint32_t *boxes, size_t boxes_count, uint32_t *out,
                                         size_t out_places, uint64_t *count);

/* The tile of several boxes behind the first before ones, box by box, with the count 1; after is
 * before + 1. Each box's tiles come as nori_zbox_next gives them. Behind the last tile of all
 * the count is 0 and after is before. Five numbers a box, as for nori_zboxes_length.
 * Refused: 1, 6, 10. */
NORI_NODISCARD uint8_t nori_zboxes_next(const uint32_t *boxes, size_t boxes_count, uint64_t before,
                                        uint8_t *count, uint32_t *tx, uint32_t *ty, uint8_t *tz,
                                        uint64_t *after);

/* ---------------------------------------------------------------------------------------------- */

/* Zooms, sets of them and ranges: the calls of zoom.rs. A set is a number whose bit i is zoom i;
 * its zooms, and those of lists and ranges, go to 30. */

/* The last column, and the last row, of a zoom: 2^zoom - 1.
 * Refused: 1. */
NORI_NODISCARD uint8_t nori_zoom_max_xy(uint8_t zoom, uint32_t *max);

/* The zooms of a set, rising. A set with bit 31 is read the other way round: zoom i is bit 30 -
 * i.
 * Refused: 12. */
NORI_NODISCARD uint8_t nori_zset2zvec(uint32_t zset, uint8_t *out, size_t out_places,
                                      uint64_t *count);

/* The zooms of a set that is read the other way round whatever its bit 31 is, rising.
 * Refused: 12. */
NORI_NODISCARD uint8_t nori_zset2zvec_rev(uint32_t zset, uint8_t *out, size_t out_places,
                                          uint64_t *count);

/* The set of the listed zooms.
 * Refused: 1, 6. */
NORI_NODISCARD uint8_t nori_zvec2zset(const uint8_t *zvec, size_t zvec_length, uint32_t *zset);

/* The number of the listed zooms whose bit 31 - i is zoom i.
 * Refused: 1, 6. */
NORI_NODISCARD uint8_t nori_zvec2zset_rev(const uint8_t *zvec, size_t zvec_length, uint32_t *zset);

/* The maximal runs of the zooms 0 to 30 of a set, rising, at most 16: the lowest zoom of each
 * run in lows, the highest in highs. Bit 31 of the set is no zoom, and turns nothing round here.
 * Refused: 12. */
NORI_NODISCARD uint8_t nori_zoom_ranges(uint32_t zset, uint8_t *lows, size_t lows_places,
                                        uint8_t *highs, size_t highs_places, uint64_t *count);

/* The set of all zooms, 0 to 30.
 * Never refused. */
NORI_NODISCARD uint8_t nori_zset_all(uint32_t *zset);

/* The same as nori_zvec2zset.
 * Refused: 1, 6. */
NORI_NODISCARD uint8_t nori_zset_from_zooms(const uint8_t *zooms, size_t zooms_length,
                                            uint32_t *zset);

/* The same as nori_zset2zvec.
 * Refused: 12. */
NORI_NODISCARD uint8_t nori_zset_to_zooms(uint32_t zset, uint8_t *out, size_t out_places,
                                          uint64_t *count);

/* The same as nori_zoom_ranges.
 * Refused: 12. */
NORI_NODISCARD uint8_t nori_zset_zoom_ranges(uint32_t zset, uint8_t *lows, size_t lows_places,
                                             uint8_t *highs, size_t highs_places, uint64_t *count);

/* The bits that both sets have.
 * Never refused. */
NORI_NODISCARD uint8_t nori_zset_and(uint32_t a, uint32_t b, uint32_t *zset);

/* The bits that a set and a number both have.
 * Never refused. */
NORI_NODISCARD uint8_t nori_zset_and_bits(uint32_t a, uint32_t bits, uint32_t *zset);

/* What a set has of the bit that nori_zoom_bit_rev gives, as in the Rust.
 * Refused: 1. */
NORI_NODISCARD uint8_t nori_zset_and_zoom(uint32_t a, uint8_t zoom, uint32_t *zset);

/* The set of one zoom.
 * Refused: 1. */
NORI_NODISCARD uint8_t nori_zset_from_zoom(uint8_t zoom, uint32_t *zset);

/* The set of all zooms of a range: empty where min is above max.
 * Refused: 1. */
NORI_NODISCARD uint8_t nori_zoom_set(uint8_t min, uint8_t max, uint32_t *zset);

/* The bit of one zoom in numbers of nori_zvec2zset_rev: 2^(31 - zoom).
 * Refused: 1. */
NORI_NODISCARD uint8_t nori_zoom_bit_rev(uint8_t zoom, uint32_t *bit);

/* The range from 0 to max.
 * Never refused. */
NORI_NODISCARD uint8_t nori_zoom_range_from_max(uint8_t max, uint8_t *low, uint8_t *high);

/* The range from min to 30.
 * Never refused. */
NORI_NODISCARD uint8_t nori_zoom_range_from_min(uint8_t min, uint8_t *low, uint8_t *high);

/* The range from 0 to 30.
 * Never refused. */
NORI_NODISCARD uint8_t nori_zoom_range_default(uint8_t *low, uint8_t *high);

/* ---------------------------------------------------------------------------------------------- */

/* Boxes of degrees: the calls of bbox.rs. A box is west, south, east, north; a comparison with
 * NaN is false. */

/* Whether a box goes over the antimeridian: its west is above its east.
 * Never refused. */
NORI_NODISCARD uint8_t nori_bbox_crosses_antimeridian(double west, double south, double east,
                                                      double north, uint8_t *told);

/* The same as nori_bbox_crosses_antimeridian.
 * Never refused. */
NORI_NODISCARD uint8_t nori_bbox_is_antimeridian(double west, double south, double east,
                                                 double north, uint8_t *told);

/* Whether a point lies in a box or on its edge; in one that crosses the antimeridian, from west
 * on or up to east.
 * Never refused. */
NORI_NODISCARD uint8_t nori_bbox_contains_lnglat(double west, double south, double east,
                                                 double north, double lng, double lat,
                                                 uint8_t *told);

/* Whether the second box's edges lie inside the first's; where only the first crosses the
 * antimeridian, from its west on or up to its east.
 * Never refused. */
NORI_NODISCARD uint8_t nori_bbox_contains_bbox(double west, double south, double east, double north,
                                               double western, double southern, double eastern,
                                               double northern, uint8_t *told);

/* Whether the first box's edges lie inside the second's, with no notice of the antimeridian.
 * Never refused. */
NORI_NODISCARD uint8_t nori_bbox_is_within(double west, double south, double east, double north,
                                           double western, double southern, double eastern,
                                           double northern, uint8_t *told);

/* Whether two boxes meet, if only at an edge, with no notice of the antimeridian.
 * Never refused. */
NORI_NODISCARD uint8_t nori_bbox_intersects(double west, double south, double east, double north,
                                            double western, double southern, double eastern,
                                            double northern, uint8_t *told);

/* The box itself with the count 1 and a second box of zeros; where it crosses the antimeridian,
 * the part up to there and the part from there on with the count 2.
 * Never refused. */
NORI_NODISCARD uint8_t nori_bbox_bboxes(double west, double south, double east, double north,
                                        uint8_t *count, double *w1, double *s1, double *e1,
                                        double *n1, double *w2, double *s2, double *e2, double *n2);

/* ---------------------------------------------------------------------------------------------- */

/* Lists of tiles in any order, repeats read as one: the calls of merge.rs. The answer is in the
 * order of nori_cmp. out needs a place for each entry of the list; those that the answer leaves
 * are set to 0. The minimum zoom is any byte, the Rust's None is 0. */

/* One pass: each four siblings of a zoom above minzoom become their parent. changed says whether
 * any did.
 * Refused: 6, 7, 12. */
NORI_NODISCARD uint8_t nori_merge(const uint64_t *list, size_t list_count, uint8_t minzoom,
                                  uint64_t *out, size_t out_places, uint64_t *count,
                                  uint8_t *changed);

/* Drops each tile of a zoom z above minzoom that has a listed ancestor of zoom 0 to z - 1 -
 * minzoom, then merges by nori_merge until nothing changes.
 * Refused: 6, 7, 12. */
NORI_NODISCARD uint8_t nori_simplify_v1(const uint64_t *list, size_t list_count, uint8_t minzoom,
                                        uint64_t *out, size_t out_places, uint64_t *count);

/* Drops each tile that has a listed ancestor, then merges four siblings wherever their parent's
 * zoom is at least minzoom. At 0 the answer is settled. Where every tile listed has zoom minzoom
 * or more, equal ground gives equal lists, and no list of tiles of zoom minzoom or more that
 * covers just that ground is shorter.
 * Refused: 6, 7, 12. */
NORI_NODISCARD uint8_t nori_simplify(const uint64_t *list, size_t list_count, uint8_t minzoom,
                                     uint64_t *out, size_t out_places, uint64_t *count);

/* ---------------------------------------------------------------------------------------------- */

/* Areas, which the Rust does not have: the calls on settled lists. Settled means in the order of
 * nori_cmp, each tile once, no tile beside its own ancestor, no four siblings together: no
 * shorter list covers the same ground, and no other settled one. */

/* The settled list of the ground in either list. out needs a place for each entry of both; those
 * that the answer leaves are set to 0.
 * Refused: 6, 7, 11, 12. */
NORI_NODISCARD uint8_t nori_union(const uint64_t *a, size_t a_count, const uint64_t *b,
                                  size_t b_count, uint64_t *out, size_t out_places,
                                  uint64_t *count);

/* The settled list of the ground in both lists. out needs a place for each entry of both; those
 * that the answer leaves are set to 0.
 * Refused: 6, 7, 11, 12. */
NORI_NODISCARD uint8_t nori_common_part(const uint64_t *a, size_t a_count, const uint64_t *b,
                                        size_t b_count, uint64_t *out, size_t out_places,
                                        uint64_t *count);

/* The settled list of the ground in a and not in b, which may have more entries than both lists
 * together: at most one for each of a, and 3 * NORI_MAX_ZOOM for each of b. With so many places
 * it is made a little faster.
 * Refused: 6, 7, 11, 12. */
NORI_NODISCARD uint8_t nori_difference(const uint64_t *a, size_t a_count, const uint64_t *b,
                                       size_t b_count, uint64_t *out, size_t out_places,
                                       uint64_t *count);

/* Whether a list is settled.
 * Refused: 6, 7. */
NORI_NODISCARD uint8_t nori_is_settled(const uint64_t *list, size_t list_count, uint8_t *settled);

/* ---------------------------------------------------------------------------------------------- */

/* Form lines, which the Rust does not have: what the program areas reads and prints. A form is
 * (tiles K K ..), which settles the tiles of keys, - for the root's, or (plus F F), (both F F)
 * or (minus F F) of two forms. A line is without its newline. */

/* Whether a line is refused before any key is read: nothing but the number comes back.
 * Refused: 13, 14, 15. */
NORI_NODISCARD uint8_t nori_form_check(const uint8_t *line, size_t line_length);

/* The settled list of a line's form. Each list on the way has NORI_FORM_PLACES places, and out
 * may have any number. Of 4, 5 and 12 the first from the left is given.
 * Refused: 13, 14, 15, 4, 5, 12. */
NORI_NODISCARD uint8_t nori_form_area(const uint8_t *line, size_t line_length, uint64_t *out,
                                      size_t out_places, uint64_t *count);

/* What is printed for a line, without a newline: the count and the keys of its area, as (2 3
 * 01), or its refusal, as (refused 15).
 * Refused: 12. */
NORI_NODISCARD uint8_t nori_form_answer(const uint8_t *line, size_t line_length, uint8_t *out,
                                        size_t out_places, uint64_t *count);

/* Takes in a chunk of the input behind a line of which line holds len bytes, 0 at first, and
 * writes the answers of the lines that end in it, each with its newline. next bytes of the chunk
 * are taken in, line holds kept bytes of the line so far, and filled bytes are written. It stops
 * before the first newline whose answer has no room, but takes in some of the chunk where out
 * has 32 * NORI_FORM_PLACES places.
 * Never refused. */
NORI_NODISCARD uint8_t nori_form_feed(const uint8_t *chunk, size_t chunk_length,
                                      uint8_t *line /* NORI_KEPT places */, size_t len,
                                      uint8_t *out, size_t out_places, uint64_t *next,
                                      uint64_t *kept, uint64_t *filled);

/* The end of the input: the answer of a last line without newline, of which line holds len
 * bytes. Where len is 0 there is none.
 * Refused: 12. */
NORI_NODISCARD uint8_t nori_form_finish(const uint8_t *line /* NORI_KEPT places */, size_t len,
                                        uint8_t *out, size_t out_places, uint64_t *count);

#ifdef __cplusplus
}
#endif

#endif
