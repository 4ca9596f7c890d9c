//! The functions of the archive, as bindings/c/noripliers.h declares them. Written by tools/bindings.

/// The version: 10,000 for each major number, 100 for each minor one, 1 for each patch.
pub const VERSION: u32 = 600;

/// The deepest zoom.
pub const MAX_ZOOM: u8 = 30;

/// The room for the longest key: a digit for each zoom.
pub const MAX_DIGITS: usize = MAX_ZOOM as usize;

/// The deepest zoom of the numbers of `to_id`: those of deeper ones would not fit 64 bits.
pub const MAX_ID_ZOOM: u8 = 29;

/// The most entries of a list, of tiles or of zooms.
pub const MAX_ENTRIES: usize = 65536;

/// The most boxes that are summed.
pub const MAX_BOXES: usize = 8;

/// The most bytes of a line, without its newline.
pub const MAX_LINE: usize = 4096;

/// The most brackets that may be open in a line.
pub const MAX_OPEN: usize = 16;

/// The places of each list of a form.
pub const FORM_PLACES: usize = 256;

/// How many bytes of a line are kept: one more than a line may have.
pub const KEPT: usize = MAX_LINE + 1;

unsafe extern "C" {
    /// The version of the archive, which is that of this header where the two belong together: 10,000 for each major number, 100 for each minor one, 1 for each patch.
    pub safe fn nori_version(version: &mut u32) -> u8;
    /// The tile itself, where x, y and z name one of the map.
    pub safe fn nori_try_new(x: u32, y: u32, z: u8, tx: &mut u32, ty: &mut u32, tz: &mut u8) -> u8;
    /// Whether x, y and z name a tile of the map: nothing but the number comes back.
    pub safe fn nori_check(x: u32, y: u32, z: u8) -> u8;
    /// The tile with its row counted from the other side of the map.
    pub safe fn nori_flip(x: u32, y: u32, z: u8, tx: &mut u32, ty: &mut u32, tz: &mut u8) -> u8;
    /// The order of lists of tiles, by zoom, then column, then row: 0 for less, 1 for equal, 2 for greater.
    pub safe fn nori_cmp(ax: u32, ay: u32, az: u8, bx: u32, by: u32, bz: u8, order: &mut u8) -> u8;
    /// The tile at (x + 1, y), where that is on the map; the name is the Rust's.
    pub safe fn nori_up(x: u32, y: u32, z: u8, tx: &mut u32, ty: &mut u32, tz: &mut u8) -> u8;
    /// The tile at (x - 1, y), where that is on the map; the name is the Rust's.
    pub safe fn nori_down(x: u32, y: u32, z: u8, tx: &mut u32, ty: &mut u32, tz: &mut u8) -> u8;
    /// The tile at (x, y - 1), where that is on the map; the name is the Rust's.
    pub safe fn nori_left(x: u32, y: u32, z: u8, tx: &mut u32, ty: &mut u32, tz: &mut u8) -> u8;
    /// The tile at (x, y + 1), where that is on the map; the name is the Rust's.
    pub safe fn nori_right(x: u32, y: u32, z: u8, tx: &mut u32, ty: &mut u32, tz: &mut u8) -> u8;
    /// The tile at (x + 1, y - 1), where that is on the map; the name is the Rust's.
    pub safe fn nori_up_left(x: u32, y: u32, z: u8, tx: &mut u32, ty: &mut u32, tz: &mut u8) -> u8;
    /// The tile at (x + 1, y + 1), where that is on the map; the name is the Rust's.
    pub safe fn nori_up_right(x: u32, y: u32, z: u8, tx: &mut u32, ty: &mut u32, tz: &mut u8)
    -> u8;
    /// The tile at (x - 1, y - 1), where that is on the map; the name is the Rust's.
    pub safe fn nori_down_left(
        x: u32,
        y: u32,
        z: u8,
        tx: &mut u32,
        ty: &mut u32,
        tz: &mut u8,
    ) -> u8;
    /// The tile at (x - 1, y + 1), where that is on the map; the name is the Rust's.
    pub safe fn nori_down_right(
        x: u32,
        y: u32,
        z: u8,
        tx: &mut u32,
        ty: &mut u32,
        tz: &mut u8,
    ) -> u8;
    /// The key of a tile; count is its length, the zoom.
    pub unsafe fn nori_xyz2quadkey(
        x: u32,
        y: u32,
        z: u8,
        out: *mut u8,
        out_places: usize,
        count: &mut u64,
    ) -> u8;
    /// The digits of a tile's key as the numbers 0 to 3.
    pub unsafe fn nori_xyz2quadkey_vec(
        x: u32,
        y: u32,
        z: u8,
        out: *mut u8,
        out_places: usize,
        count: &mut u64,
    ) -> u8;
    /// The tile of a key.
    pub unsafe fn nori_quadkey2xyz(
        key: *const u8,
        key_length: usize,
        tx: &mut u32,
        ty: &mut u32,
        tz: &mut u8,
    ) -> u8;
    /// One byte more for a reader of keys, which x, y, count and bad are: before the first byte all zeros, afterwards as the last feed left them.
    pub safe fn nori_key_feed(
        byte: u8,
        x: &mut u32,
        y: &mut u32,
        count: &mut u8,
        bad: &mut u8,
    ) -> u8;
    /// What the bytes that a reader was fed are as a whole key: its tile or its refusal, just as nori_quadkey2xyz answers for all of them.
    pub safe fn nori_key_tile(
        x: u32,
        y: u32,
        count: u8,
        bad: u8,
        tx: &mut u32,
        ty: &mut u32,
        tz: &mut u8,
    ) -> u8;
    /// Whether the bytes are a key: nothing but the number comes back.
    pub unsafe fn nori_quadkey_check(key: *const u8, key_length: usize) -> u8;
    /// Whether the bytes are a key, told as yes or no.
    pub unsafe fn nori_is_quadkey(key: *const u8, key_length: usize, told: &mut u8) -> u8;
    /// Whether a byte is a digit of a key.
    pub safe fn nori_is_quadkey_byte(b: u8, told: &mut u8) -> u8;
    /// The key of the tile whose row is counted from the other side of the map: 0 and 2 change places, 1 and 3.
    pub unsafe fn nori_quadkey_flipy(
        key: *const u8,
        key_length: usize,
        out: *mut u8,
        out_places: usize,
        count: &mut u64,
    ) -> u8;
    /// The key of the ancestor at zoom n is the first n bytes of the caller's own key: length is n.
    pub unsafe fn nori_ancestor_key(
        key: *const u8,
        key_length: usize,
        n: usize,
        length: &mut u64,
    ) -> u8;
    /// The key of the deepest ancestor that two keys share is the first length bytes of a.
    pub unsafe fn nori_shared_key(
        a: *const u8,
        a_length: usize,
        b: *const u8,
        b_length: usize,
        length: &mut u64,
    ) -> u8;
    /// The first and the last column, and row, of a zoom: 0 and 2^zoom - 1.
    pub safe fn nori_minmax(zoom: u8, min: &mut u32, max: &mut u32) -> u8;
    /// Whether x, y and z name a tile of the map, told as yes or no.
    pub safe fn nori_valid(x: u32, y: u32, z: u8, told: &mut u8) -> u8;
    /// The row counted from the other side of the map: 2^z - 1 - y.
    pub safe fn nori_flipy(y: u32, z: u8, row: &mut u32) -> u8;
    /// The same as nori_flipy.
    pub safe fn nori_yflip(y: u32, z: u8, row: &mut u32) -> u8;
    /// The ancestor at zoom z - 1 - n, and by which quadkey digit each step to it was left.
    pub safe fn nori_parent(
        x: u32,
        y: u32,
        z: u8,
        n: u8,
        tx: &mut u32,
        ty: &mut u32,
        tz: &mut u8,
        digits: &mut [u8; MAX_DIGITS],
        count: &mut u8,
    ) -> u8;
    /// The tiles of the target zoom inside a tile, each family clockwise by digits 0, 1, 3, 2.
    pub unsafe fn nori_children(
        x: u32,
        y: u32,
        z: u8,
        zoom: u8,
        out: *mut u64,
        out_places: usize,
        count: &mut u64,
    ) -> u8;
    /// The same, each family by digits 0, 1, 2, 3; the Rust's None is z + 1.
    pub unsafe fn nori_children_zorder(
        x: u32,
        y: u32,
        z: u8,
        zoom: u8,
        out: *mut u64,
        out_places: usize,
        count: &mut u64,
    ) -> u8;
    /// The four children of a tile, by digits 0, 1, 2, 3.
    pub unsafe fn nori_children1_zorder(
        x: u32,
        y: u32,
        z: u8,
        out: *mut u64,
        out_places: usize,
        count: &mut u64,
    ) -> u8;
    /// The other three children of the tile's parent: beside it, above or below it, and across.
    pub unsafe fn nori_siblings(
        x: u32,
        y: u32,
        z: u8,
        out: *mut u64,
        out_places: usize,
        count: &mut u64,
    ) -> u8;
    /// The tiles of the map around a tile, in the Rust's order: none at zoom 0, the siblings at zoom 1.
    pub unsafe fn nori_neighbors(
        x: u32,
        y: u32,
        z: u8,
        out: *mut u64,
        out_places: usize,
        count: &mut u64,
    ) -> u8;
    /// The same from zoom 2 on where the last column stands beside the first, in the Rust's order for that.
    pub unsafe fn nori_neighbors_wrap_x(
        x: u32,
        y: u32,
        z: u8,
        out: *mut u64,
        out_places: usize,
        count: &mut u64,
    ) -> u8;
    /// The first bit from the top, counted from 0, where west and east or south and north differ, at most 28.
    pub safe fn nori_bbox2zoom(west: u32, south: u32, east: u32, north: u32, zoom: &mut u8) -> u8;
    /// The number (2^(z + 1) * y + x) * 32 + z of a tile.
    pub safe fn nori_to_id(x: u32, y: u32, z: u8, id: &mut u64) -> u8;
    /// The tile of a number of nori_to_id: none has a zoom above NORI_MAX_ID_ZOOM.
    pub safe fn nori_from_id(id: u64, tx: &mut u32, ty: &mut u32, tz: &mut u8) -> u8;
    /// The number that stands for a tile in every list of tiles: that of nori_xyz2rmid.
    pub safe fn nori_entry(x: u32, y: u32, z: u8, entry: &mut u64) -> u8;
    /// The tile that a number in a list stands for.
    pub safe fn nori_entry_tile(entry: u64, tx: &mut u32, ty: &mut u32, tz: &mut u8) -> u8;
    /// The number of a tile counted row by row, from the root on: (4^z - 1) / 3 + x + y * 2^z.
    pub safe fn nori_xyz2rmid(x: u32, y: u32, z: u8, rmid: &mut u64) -> u8;
    /// The tile of a number of nori_xyz2rmid.
    pub safe fn nori_rmid2xyz(rmid: u64, tx: &mut u32, ty: &mut u32, tz: &mut u8) -> u8;
    /// The zoom of a number of nori_xyz2rmid, and its place among the tiles of that zoom, from 0 on.
    pub safe fn nori_int_2_offset_zoom(rmid: u64, offset: &mut u64, zoom: &mut u8) -> u8;
    /// The cursor that starts at the parent of a tile; at its end for the root.
    pub safe fn nori_iter_parents(
        x: u32,
        y: u32,
        z: u8,
        count: &mut u8,
        tx: &mut u32,
        ty: &mut u32,
        tz: &mut u8,
    ) -> u8;
    /// What a cursor gives, the count 1 and a tile or the count 0 and zeros, and the cursor after it in rest, rx, ry and rz.
    pub safe fn nori_parents_next(
        held: u8,
        x: u32,
        y: u32,
        z: u8,
        count: &mut u8,
        tx: &mut u32,
        ty: &mut u32,
        tz: &mut u8,
        rest: &mut u8,
        rx: &mut u32,
        ry: &mut u32,
        rz: &mut u8,
    ) -> u8;
    /// Of any column and row: upper left 0, upper right 1, lower left 2, lower right 3.
    pub safe fn nori_sibling_relationship(x: u32, y: u32, relation: &mut u8) -> u8;
    /// The box itself, where it is one of the map: no min above its max, and no max off the map.
    pub safe fn nori_zbox_new(
        minx: u32,
        maxx: u32,
        miny: u32,
        maxy: u32,
        zoom: u8,
        bz: &mut u8,
        left: &mut u32,
        right: &mut u32,
        top: &mut u32,
        bottom: &mut u32,
    ) -> u8;
    /// Whether it is a box of the map: nothing but the number comes back.
    pub safe fn nori_zbox_check(zoom: u8, minx: u32, maxx: u32, miny: u32, maxy: u32) -> u8;
    /// The box of one tile.
    pub safe fn nori_zbox_from_tile(
        x: u32,
        y: u32,
        z: u8,
        bz: &mut u8,
        left: &mut u32,
        right: &mut u32,
        top: &mut u32,
        bottom: &mut u32,
    ) -> u8;
    /// The smallest box around the listed tiles, which are of one zoom.
    pub unsafe fn nori_zbox_from_tiles(
        list: *const u64,
        list_count: usize,
        bz: &mut u8,
        left: &mut u32,
        right: &mut u32,
        top: &mut u32,
        bottom: &mut u32,
    ) -> u8;
    /// Whether a tile lies in a box; one of another zoom does not.
    pub safe fn nori_zbox_contains_tile(
        zoom: u8,
        minx: u32,
        maxx: u32,
        miny: u32,
        maxy: u32,
        x: u32,
        y: u32,
        z: u8,
        told: &mut u8,
    ) -> u8;
    /// The box with its rows counted from the other side of the map.
    pub safe fn nori_zbox_flipy(
        zoom: u8,
        minx: u32,
        maxx: u32,
        miny: u32,
        maxy: u32,
        bz: &mut u8,
        left: &mut u32,
        right: &mut u32,
        top: &mut u32,
        bottom: &mut u32,
    ) -> u8;
    /// The box of its tiles' children.
    pub safe fn nori_zbox_zoom_in(
        zoom: u8,
        minx: u32,
        maxx: u32,
        miny: u32,
        maxy: u32,
        bz: &mut u8,
        left: &mut u32,
        right: &mut u32,
        top: &mut u32,
        bottom: &mut u32,
    ) -> u8;
    /// The box of its tiles' descendants depth zooms down, for 0 the box itself.
    pub safe fn nori_zbox_zoom_depth(
        zoom: u8,
        minx: u32,
        maxx: u32,
        miny: u32,
        maxy: u32,
        depth: u8,
        bz: &mut u8,
        left: &mut u32,
        right: &mut u32,
        top: &mut u32,
        bottom: &mut u32,
    ) -> u8;
    /// How many tiles a box has.
    pub safe fn nori_zbox_length(
        zoom: u8,
        minx: u32,
        maxx: u32,
        miny: u32,
        maxy: u32,
        length: &mut u64,
    ) -> u8;
    /// The same as nori_zbox_length.
    pub safe fn nori_zbox_size(
        zoom: u8,
        minx: u32,
        maxx: u32,
        miny: u32,
        maxy: u32,
        length: &mut u64,
    ) -> u8;
    /// The greatest x less the least: one less than the columns.
    pub safe fn nori_zbox_dx(
        zoom: u8,
        minx: u32,
        maxx: u32,
        miny: u32,
        maxy: u32,
        across: &mut u32,
    ) -> u8;
    /// The greatest y less the least: one less than the rows.
    pub safe fn nori_zbox_dy(
        zoom: u8,
        minx: u32,
        maxx: u32,
        miny: u32,
        maxy: u32,
        down: &mut u32,
    ) -> u8;
    /// The same as nori_zbox_dx.
    pub safe fn nori_zbox_width(
        zoom: u8,
        minx: u32,
        maxx: u32,
        miny: u32,
        maxy: u32,
        across: &mut u32,
    ) -> u8;
    /// The same as nori_zbox_dy.
    pub safe fn nori_zbox_height(
        zoom: u8,
        minx: u32,
        maxx: u32,
        miny: u32,
        maxy: u32,
        down: &mut u32,
    ) -> u8;
    /// Both nori_zbox_dx and nori_zbox_dy.
    pub safe fn nori_zbox_dxdy(
        zoom: u8,
        minx: u32,
        maxx: u32,
        miny: u32,
        maxy: u32,
        across: &mut u32,
        down: &mut u32,
    ) -> u8;
    /// How many columns and how many rows a box has.
    pub safe fn nori_zbox_dimensions(
        zoom: u8,
        minx: u32,
        maxx: u32,
        miny: u32,
        maxy: u32,
        across: &mut u32,
        down: &mut u32,
    ) -> u8;
    /// The box's tile behind the first before ones, x first, then y, with the count 1; after is before + 1.
    pub safe fn nori_zbox_next(
        zoom: u8,
        minx: u32,
        maxx: u32,
        miny: u32,
        maxy: u32,
        before: u64,
        count: &mut u8,
        tx: &mut u32,
        ty: &mut u32,
        tz: &mut u8,
        after: &mut u64,
    ) -> u8;
    /// How many tiles the Rust's iterator says are left of a box: all of them, also behind the first before ones.
    pub safe fn nori_zbox_size_hint(
        zoom: u8,
        minx: u32,
        maxx: u32,
        miny: u32,
        maxy: u32,
        before: u64,
        length: &mut u64,
    ) -> u8;
    /// How many tiles several boxes have together, overlaps counted twice.
    pub unsafe fn nori_zboxes_length(boxes: *const u32, boxes_count: usize, length: &mut u64)
    -> u8;
    /// Several boxes with their rows counted from the other side of the map.
    pub unsafe fn nori_zboxes_flipy(
        boxes: *const u32,
        boxes_count: usize,
        out: *mut u32,
        out_places: usize,
        count: &mut u64,
    ) -> u8;
    /// The tile of several boxes behind the first before ones, box by box, with the count 1; after is before + 1.
    pub unsafe fn nori_zboxes_next(
        boxes: *const u32,
        boxes_count: usize,
        before: u64,
        count: &mut u8,
        tx: &mut u32,
        ty: &mut u32,
        tz: &mut u8,
        after: &mut u64,
    ) -> u8;
    /// The last column, and the last row, of a zoom: 2^zoom - 1.
    pub safe fn nori_zoom_max_xy(zoom: u8, max: &mut u32) -> u8;
    /// The zooms of a set, rising.
    pub unsafe fn nori_zset2zvec(zset: u32, out: *mut u8, out_places: usize, count: &mut u64)
    -> u8;
    /// The zooms of a set that is read the other way round whatever its bit 31 is, rising.
    pub unsafe fn nori_zset2zvec_rev(
        zset: u32,
        out: *mut u8,
        out_places: usize,
        count: &mut u64,
    ) -> u8;
    /// The set of the listed zooms.
    pub unsafe fn nori_zvec2zset(zvec: *const u8, zvec_length: usize, zset: &mut u32) -> u8;
    /// The number of the listed zooms whose bit 31 - i is zoom i.
    pub unsafe fn nori_zvec2zset_rev(zvec: *const u8, zvec_length: usize, zset: &mut u32) -> u8;
    /// The maximal runs of the zooms 0 to 30 of a set, rising, at most 16: the lowest zoom of each run in lows, the highest in highs.
    pub unsafe fn nori_zoom_ranges(
        zset: u32,
        lows: *mut u8,
        lows_places: usize,
        highs: *mut u8,
        highs_places: usize,
        count: &mut u64,
    ) -> u8;
    /// The set of all zooms, 0 to 30.
    pub safe fn nori_zset_all(zset: &mut u32) -> u8;
    /// The same as nori_zvec2zset.
    pub unsafe fn nori_zset_from_zooms(zooms: *const u8, zooms_length: usize, zset: &mut u32)
    -> u8;
    /// The same as nori_zset2zvec.
    pub unsafe fn nori_zset_to_zooms(
        zset: u32,
        out: *mut u8,
        out_places: usize,
        count: &mut u64,
    ) -> u8;
    /// The same as nori_zoom_ranges.
    pub unsafe fn nori_zset_zoom_ranges(
        zset: u32,
        lows: *mut u8,
        lows_places: usize,
        highs: *mut u8,
        highs_places: usize,
        count: &mut u64,
    ) -> u8;
    /// The bits that both sets have.
    pub safe fn nori_zset_and(a: u32, b: u32, zset: &mut u32) -> u8;
    /// The bits that a set and a number both have.
    pub safe fn nori_zset_and_bits(a: u32, bits: u32, zset: &mut u32) -> u8;
    /// What a set has of the bit that nori_zoom_bit_rev gives, as in the Rust.
    pub safe fn nori_zset_and_zoom(a: u32, zoom: u8, zset: &mut u32) -> u8;
    /// The set of one zoom.
    pub safe fn nori_zset_from_zoom(zoom: u8, zset: &mut u32) -> u8;
    /// The set of all zooms of a range: empty where min is above max.
    pub safe fn nori_zoom_set(min: u8, max: u8, zset: &mut u32) -> u8;
    /// The bit of one zoom in numbers of nori_zvec2zset_rev: 2^(31 - zoom).
    pub safe fn nori_zoom_bit_rev(zoom: u8, bit: &mut u32) -> u8;
    /// The range from 0 to max.
    pub safe fn nori_zoom_range_from_max(max: u8, low: &mut u8, high: &mut u8) -> u8;
    /// The range from min to 30.
    pub safe fn nori_zoom_range_from_min(min: u8, low: &mut u8, high: &mut u8) -> u8;
    /// The range from 0 to 30.
    pub safe fn nori_zoom_range_default(low: &mut u8, high: &mut u8) -> u8;
    /// Whether a box goes over the antimeridian: its west is above its east.
    pub safe fn nori_bbox_crosses_antimeridian(
        west: f64,
        south: f64,
        east: f64,
        north: f64,
        told: &mut u8,
    ) -> u8;
    /// The same as nori_bbox_crosses_antimeridian.
    pub safe fn nori_bbox_is_antimeridian(
        west: f64,
        south: f64,
        east: f64,
        north: f64,
        told: &mut u8,
    ) -> u8;
    /// Whether a point lies in a box or on its edge; in one that crosses the antimeridian, from west on or up to east.
    pub safe fn nori_bbox_contains_lnglat(
        west: f64,
        south: f64,
        east: f64,
        north: f64,
        lng: f64,
        lat: f64,
        told: &mut u8,
    ) -> u8;
    /// Whether the second box's edges lie inside the first's; where only the first crosses the antimeridian, from its west on or up to its east.
    pub safe fn nori_bbox_contains_bbox(
        west: f64,
        south: f64,
        east: f64,
        north: f64,
        western: f64,
        southern: f64,
        eastern: f64,
        northern: f64,
        told: &mut u8,
    ) -> u8;
    /// Whether the first box's edges lie inside the second's, with no notice of the antimeridian.
    pub safe fn nori_bbox_is_within(
        west: f64,
        south: f64,
        east: f64,
        north: f64,
        western: f64,
        southern: f64,
        eastern: f64,
        northern: f64,
        told: &mut u8,
    ) -> u8;
    /// Whether two boxes meet, if only at an edge, with no notice of the antimeridian.
    pub safe fn nori_bbox_intersects(
        west: f64,
        south: f64,
        east: f64,
        north: f64,
        western: f64,
        southern: f64,
        eastern: f64,
        northern: f64,
        told: &mut u8,
    ) -> u8;
    /// The box itself with the count 1 and a second box of zeros; where it crosses the antimeridian, the part up to there and the part from there on with the count 2.
    pub safe fn nori_bbox_bboxes(
        west: f64,
        south: f64,
        east: f64,
        north: f64,
        count: &mut u8,
        w1: &mut f64,
        s1: &mut f64,
        e1: &mut f64,
        n1: &mut f64,
        w2: &mut f64,
        s2: &mut f64,
        e2: &mut f64,
        n2: &mut f64,
    ) -> u8;
    /// One pass: each four siblings of a zoom above minzoom become their parent.
    pub unsafe fn nori_merge(
        list: *const u64,
        list_count: usize,
        minzoom: u8,
        out: *mut u64,
        out_places: usize,
        count: &mut u64,
        changed: &mut u8,
    ) -> u8;
    /// Drops each tile of a zoom z above minzoom that has a listed ancestor of zoom 0 to z - 1 - minzoom, then merges by nori_merge until nothing changes.
    pub unsafe fn nori_simplify_v1(
        list: *const u64,
        list_count: usize,
        minzoom: u8,
        out: *mut u64,
        out_places: usize,
        count: &mut u64,
    ) -> u8;
    /// Drops each tile that has a listed ancestor, then merges four siblings wherever their parent's zoom is at least minzoom.
    pub unsafe fn nori_simplify(
        list: *const u64,
        list_count: usize,
        minzoom: u8,
        out: *mut u64,
        out_places: usize,
        count: &mut u64,
    ) -> u8;
    /// The settled list of the ground in either list.
    pub unsafe fn nori_union(
        a: *const u64,
        a_count: usize,
        b: *const u64,
        b_count: usize,
        out: *mut u64,
        out_places: usize,
        count: &mut u64,
    ) -> u8;
    /// The settled list of the ground in both lists.
    pub unsafe fn nori_common_part(
        a: *const u64,
        a_count: usize,
        b: *const u64,
        b_count: usize,
        out: *mut u64,
        out_places: usize,
        count: &mut u64,
    ) -> u8;
    /// The settled list of the ground in a and not in b, which may have more entries than both lists together: at most one for each of a, and 3 * NORI_MAX_ZOOM for each of b.
    pub unsafe fn nori_difference(
        a: *const u64,
        a_count: usize,
        b: *const u64,
        b_count: usize,
        out: *mut u64,
        out_places: usize,
        count: &mut u64,
    ) -> u8;
    /// Whether a list is settled.
    pub unsafe fn nori_is_settled(list: *const u64, list_count: usize, settled: &mut u8) -> u8;
    /// Whether a line is refused before any key is read: nothing but the number comes back.
    pub unsafe fn nori_form_check(line: *const u8, line_length: usize) -> u8;
    /// The settled list of a line's form.
    pub unsafe fn nori_form_area(
        line: *const u8,
        line_length: usize,
        out: *mut u64,
        out_places: usize,
        count: &mut u64,
    ) -> u8;
    /// What is printed for a line, without a newline: the count and the keys of its area, as (2 3 01), or its refusal, as (refused 15).
    pub unsafe fn nori_form_answer(
        line: *const u8,
        line_length: usize,
        out: *mut u8,
        out_places: usize,
        count: &mut u64,
    ) -> u8;
    /// Takes in a chunk of the input behind a line of which line holds len bytes, 0 at first, and writes the answers of the lines that end in it, each with its newline.
    pub unsafe fn nori_form_feed(
        chunk: *const u8,
        chunk_length: usize,
        line: &mut [u8; KEPT],
        len: usize,
        out: *mut u8,
        out_places: usize,
        next: &mut u64,
        kept: &mut u64,
        filled: &mut u64,
    ) -> u8;
    /// The end of the input: the answer of a last line without newline, of which line holds len bytes.
    pub unsafe fn nori_form_finish(
        line: &[u8; KEPT],
        len: usize,
        out: *mut u8,
        out_places: usize,
        count: &mut u64,
    ) -> u8;
}

/// The numbers by which each function can be refused.
pub const REFUSALS: &[(&str, &[u8])] = &[
    ("nori_version", &[]),
    ("nori_try_new", &[1, 2]),
    ("nori_check", &[1, 2]),
    ("nori_flip", &[1, 2]),
    ("nori_cmp", &[]),
    ("nori_up", &[1, 2]),
    ("nori_down", &[1, 2]),
    ("nori_left", &[1, 2]),
    ("nori_right", &[1, 2]),
    ("nori_up_left", &[1, 2]),
    ("nori_up_right", &[1, 2]),
    ("nori_down_left", &[1, 2]),
    ("nori_down_right", &[1, 2]),
    ("nori_xyz2quadkey", &[1, 2, 12]),
    ("nori_xyz2quadkey_vec", &[1, 2, 12]),
    ("nori_quadkey2xyz", &[4, 5]),
    ("nori_key_feed", &[16]),
    ("nori_key_tile", &[16, 4, 5]),
    ("nori_quadkey_check", &[4, 5]),
    ("nori_is_quadkey", &[]),
    ("nori_is_quadkey_byte", &[]),
    ("nori_quadkey_flipy", &[4, 5, 12]),
    ("nori_ancestor_key", &[3, 4, 5]),
    ("nori_shared_key", &[4, 5]),
    ("nori_minmax", &[1]),
    ("nori_valid", &[]),
    ("nori_flipy", &[1, 2]),
    ("nori_yflip", &[1, 2]),
    ("nori_parent", &[1, 2, 3]),
    ("nori_children", &[1, 2, 12]),
    ("nori_children_zorder", &[1, 2, 12]),
    ("nori_children1_zorder", &[1, 2, 12]),
    ("nori_siblings", &[1, 2, 3, 12]),
    ("nori_neighbors", &[1, 2, 12]),
    ("nori_neighbors_wrap_x", &[1, 2, 12]),
    ("nori_bbox2zoom", &[]),
    ("nori_to_id", &[1, 2]),
    ("nori_from_id", &[7]),
    ("nori_entry", &[1, 2]),
    ("nori_entry_tile", &[7]),
    ("nori_xyz2rmid", &[1, 2]),
    ("nori_rmid2xyz", &[7]),
    ("nori_int_2_offset_zoom", &[7]),
    ("nori_iter_parents", &[1, 2]),
    ("nori_parents_next", &[1, 2]),
    ("nori_sibling_relationship", &[]),
    ("nori_zbox_new", &[1, 10]),
    ("nori_zbox_check", &[1, 10]),
    ("nori_zbox_from_tile", &[1, 2]),
    ("nori_zbox_from_tiles", &[6, 7, 8, 9]),
    ("nori_zbox_contains_tile", &[1, 2, 10]),
    ("nori_zbox_flipy", &[1, 10]),
    ("nori_zbox_zoom_in", &[1, 10]),
    ("nori_zbox_zoom_depth", &[1, 10]),
    ("nori_zbox_length", &[1, 10]),
    ("nori_zbox_size", &[1, 10]),
    ("nori_zbox_dx", &[1, 10]),
    ("nori_zbox_dy", &[1, 10]),
    ("nori_zbox_width", &[1, 10]),
    ("nori_zbox_height", &[1, 10]),
    ("nori_zbox_dxdy", &[1, 10]),
    ("nori_zbox_dimensions", &[1, 10]),
    ("nori_zbox_next", &[1, 10]),
    ("nori_zbox_size_hint", &[1, 10]),
    ("nori_zboxes_length", &[1, 6, 10]),
    ("nori_zboxes_flipy", &[1, 6, 10, 12]),
    ("nori_zboxes_next", &[1, 6, 10]),
    ("nori_zoom_max_xy", &[1]),
    ("nori_zset2zvec", &[12]),
    ("nori_zset2zvec_rev", &[12]),
    ("nori_zvec2zset", &[1, 6]),
    ("nori_zvec2zset_rev", &[1, 6]),
    ("nori_zoom_ranges", &[12]),
    ("nori_zset_all", &[]),
    ("nori_zset_from_zooms", &[1, 6]),
    ("nori_zset_to_zooms", &[12]),
    ("nori_zset_zoom_ranges", &[12]),
    ("nori_zset_and", &[]),
    ("nori_zset_and_bits", &[]),
    ("nori_zset_and_zoom", &[1]),
    ("nori_zset_from_zoom", &[1]),
    ("nori_zoom_set", &[1]),
    ("nori_zoom_bit_rev", &[1]),
    ("nori_zoom_range_from_max", &[]),
    ("nori_zoom_range_from_min", &[]),
    ("nori_zoom_range_default", &[]),
    ("nori_bbox_crosses_antimeridian", &[]),
    ("nori_bbox_is_antimeridian", &[]),
    ("nori_bbox_contains_lnglat", &[]),
    ("nori_bbox_contains_bbox", &[]),
    ("nori_bbox_is_within", &[]),
    ("nori_bbox_intersects", &[]),
    ("nori_bbox_bboxes", &[]),
    ("nori_merge", &[6, 7, 12]),
    ("nori_simplify_v1", &[6, 7, 12]),
    ("nori_simplify", &[6, 7, 12]),
    ("nori_union", &[6, 7, 11, 12]),
    ("nori_common_part", &[6, 7, 11, 12]),
    ("nori_difference", &[6, 7, 11, 12]),
    ("nori_is_settled", &[6, 7]),
    ("nori_form_check", &[13, 14, 15]),
    ("nori_form_area", &[13, 14, 15, 4, 5, 12]),
    ("nori_form_answer", &[12]),
    ("nori_form_feed", &[]),
    ("nori_form_finish", &[12]),
];
