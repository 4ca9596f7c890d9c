//! Builds: calls whose lists are the caller's own or answers of earlier calls. The Rust is not run for them: each answer
//! is read off a bitmap of the deepest tiles of a small window of the map.
use crate::lists::level;
use crate::paper::{self, DEEPEST, RMID_END, entry};
use crate::record::{List, counted};
use crate::sample::{Random, Xyz};
use crate::window::{CHILDREN, Set, Window, ground, settled};

const BUILDS: usize = 460;
const MOST_DEPTH: u8 = 6;
// How many entries a list that is handed in has at most, so that lines are short.
const LONGEST: usize = 40;

pub fn write(list: &mut List) {
    let mut random = Random::new();
    for _ in 0..BUILDS {
        let window = window(&mut random);
        build(list, &mut random, &window);
    }
    for depth in 1..=MOST_DEPTH {
        less_one(list, &mut random, depth);
    }
    for z in 0..DEEPEST {
        let top = random.tile(z);
        let down = if z % 2 == 0 { DEEPEST - z } else { 1 + random.below(u64::from(DEEPEST - z)) as u8 };
        let deep = (random.within(top.0, down), random.within(top.1, down), z + down);
        along_a_chain(list, top, deep);
    }
    for _ in 0..BUILDS / 4 {
        let window = window(&mut random);
        let random = &mut random;
        for kind in [settled_list, broken, loose, spoilt] {
            asked(list, &kind(random, &window));
        }
    }
    let family = level((0, 0, 0), 1);
    for entries in [vec![], vec![0], vec![0, 0], vec![0, 1], family[1..].to_vec(), vec![1, 2, 3], family] {
        asked(list, &entries);
    }
    for entries in [vec![RMID_END - 1], vec![RMID_END], vec![0, RMID_END]] {
        asked(list, &entries);
    }
}

// Whether a list is settled.
fn asked(list: &mut List, entries: &[u64]) {
    if paper::entries(entries) == 0 {
        list.rule("is_settled", &counted(entries), &[paper::settled(entries).into()]);
    } else {
        list.refuse("is_settled", &counted(entries), paper::entries(entries), 1);
    }
}

fn window(random: &mut Random) -> Window {
    let depth = random.pick(&[1, 2, 3, 3, 3, 4, 4, 5, 5, MOST_DEPTH]);
    let lowest = DEEPEST - depth;
    let z = if random.below(2) == 0 { lowest } else { random.below(u64::from(lowest) + 1) as u8 };
    Window::placed(random, z, depth)
}

#[derive(Clone, Copy, PartialEq)]
enum Work {
    Simplify,
    Union,
    CommonPart,
    Difference,
}

impl Work {
    fn name(self) -> &'static str {
        match self {
            Work::Simplify => "simplify",
            Work::Union => "union",
            Work::CommonPart => "common_part",
            Work::Difference => "difference",
        }
    }

    fn of(self, a: bool, b: bool) -> bool {
        match self {
            Work::Simplify => a,
            Work::Union => a || b,
            Work::CommonPart => a && b,
            Work::Difference => a && !b,
        }
    }

    // How many places the call asks for, if its result has so many entries.
    fn asks(self, operands: &[Operand], result: usize) -> usize {
        if self == Work::Difference { result } else { operands.iter().map(|operand| operand.entries.len()).sum() }
    }

    fn refusal(self, operands: &[Operand], result: usize, places: usize) -> u64 {
        if no_tile(operands) != 0 {
            return no_tile(operands);
        }
        let unsettled = self != Work::Simplify && operands.iter().any(|operand| !paper::settled(&operand.entries));
        let short = places < self.asks(operands, result);
        paper::lowest(&[if unsettled { 11 } else { 0 }, if short { 12 } else { 0 }])
    }
}

// A list that is handed in, as it is written, and its entries.
#[derive(Clone)]
struct Operand {
    text: Vec<u64>,
    entries: Vec<u64>,
}

fn own(entries: Vec<u64>) -> Operand {
    Operand { text: [vec![0], counted(&entries)].concat(), entries }
}

fn earlier(call: usize, entries: &[u64]) -> Operand {
    Operand { text: vec![1, call as u64], entries: entries.to_vec() }
}

fn no_tile(operands: &[Operand]) -> u64 {
    paper::lowest(&operands.iter().map(|operand| paper::entries(&operand.entries)).collect::<Vec<u64>>())
}

fn build(list: &mut List, random: &mut Random, window: &Window) {
    list.begin();
    // The sets of the calls so far; None of a refused one.
    let mut kept: Vec<Option<Set>> = Vec::new();
    for _ in 0..3 + random.below(10) {
        let work = random.pick(&[
            Work::Simplify,
            Work::Union,
            Work::Union,
            Work::CommonPart,
            Work::Difference,
            Work::Difference,
        ]);
        let [first, second] = pair(random, window, &kept, work);
        let operands = if work == Work::Simplify { vec![first] } else { vec![first, second] };
        kept.push(call(list, random, window, work, &operands));
    }
}

// Two lists; now and then the same one twice, or one refused with 11 and one with 7.
fn pair(random: &mut Random, window: &Window, kept: &[Option<Set>], work: Work) -> [Operand; 2] {
    let first = operand(random, window, kept, work);
    let second = operand(random, window, kept, work);
    match random.below(80) {
        0 => [own(broken(random, window)), own(spoilt(random, window))],
        1 => [own(spoilt(random, window)), own(broken(random, window))],
        2..=9 => [first.clone(), first],
        _ if first.text == second.text => [first, own(list_of(random, window, None, work))],
        _ => [first, second],
    }
}

// Writes a call. Gives the set that it answers, if it is not refused.
fn call(list: &mut List, random: &mut Random, window: &Window, work: Work, operands: &[Operand]) -> Option<Set> {
    let named = no_tile(operands) == 0;
    let set_of = |operand: &Operand| ground(window, if named { &operand.entries } else { &[] });
    let (first, last) = (set_of(&operands[0]), set_of(&operands[operands.len() - 1]));
    let set: Set = first.iter().zip(&last).map(|(&a, &b)| work.of(a, b)).collect();
    let result = settled(window, &set);
    let places = places(random, work.asks(operands, result.len()), result.len());
    made(list, work, places, operands, &result).then_some(set)
}

// Writes a call with its result, and says whether it is not refused.
fn made(list: &mut List, work: Work, places: usize, operands: &[Operand], result: &[u64]) -> bool {
    let texts: Vec<u64> = operands.iter().flat_map(|operand| operand.text.clone()).collect();
    let refusal = work.refusal(operands, result.len(), places);
    let values = if refusal == 0 { counted(result) } else { vec![0] };
    list.play(work.name(), &[vec![places as u64], texts].concat(), refusal, &values);
    if !paper::settled(result) {
        list.surprises.push(format!("the result is not settled: {result:?}"));
    }
    refusal == 0
}

// Just enough, more, one too few, none, and as many as the result has, which may be too few.
fn places(random: &mut Random, asks: usize, result: usize) -> usize {
    match random.below(16) {
        0 => asks.saturating_sub(1),
        1 => random.pick(&[0, result]),
        2..=8 => asks,
        9..=13 => asks + 1 + random.below(4) as usize,
        _ => asks + 20 + random.below(40) as usize,
    }
}

// The answer of an earlier call, or a list of the caller's own. Of two answers the longer one is taken: many are empty.
fn operand(random: &mut Random, window: &Window, kept: &[Option<Set>], work: Work) -> Operand {
    let answers: Vec<usize> = (0..kept.len()).filter(|&i| kept[i].is_some()).collect();
    let Some(&last) = answers.last() else { return own(list_of(random, window, None, work)) };
    let answer = |call: usize| earlier(call, &settled(window, kept[call].as_ref().unwrap()));
    let late = &answers[answers.len().saturating_sub(3)..];
    let longer = [random.pick(late), random.pick(late)].map(answer).into_iter().max_by_key(|a| a.entries.len());
    match longer {
        Some(answer) if random.below(8) < 5 && answer.entries.len() <= LONGEST => answer,
        _ => own(list_of(random, window, kept[last].as_ref(), work)),
    }
}

fn list_of(random: &mut Random, window: &Window, late: Option<&Set>, work: Work) -> Vec<u64> {
    match random.below(40) {
        0 => vec![],
        1 => settled(window, &window.all(true)),
        2 => broken(random, window),
        3..=4 => spoilt(random, window),
        5..=12 => beside(random, window, late),
        _ if work == Work::Simplify || random.below(30) == 0 => loose(random, window),
        _ => settled_list(random, window),
    }
}

// A settled list.
fn settled_list(random: &mut Random, window: &Window) -> Vec<u64> {
    settled(window, &set(random, window))
}

// A few tiles of the window, less a few others; or nearly all of it. Its settled list is not long.
fn set(random: &mut Random, window: &Window) -> Set {
    loop {
        let (more, less) = (tiles(random, window, 6), tiles(random, window, 3));
        let given = if random.below(5) == 0 { window.all(true) } else { ground(window, &more) };
        let taken = ground(window, &less);
        let set: Set = given.iter().zip(&taken).map(|(&a, &b)| a && !b).collect();
        if settled(window, &set).len() <= LONGEST {
            return set;
        }
    }
}

// What an answer lacks, so that a union is the whole window, or nearly.
fn beside(random: &mut Random, window: &Window, late: Option<&Set>) -> Vec<u64> {
    let Some(late) = late else { return settled_list(random, window) };
    let mut rest: Set = late.iter().map(|here| !here).collect();
    if random.below(3) == 0 {
        let place = random.below(rest.len() as u64) as usize;
        rest[place] = !rest[place];
    }
    let entries = settled(window, &rest);
    if entries.len() <= LONGEST { entries } else { vec![] }
}

// Up to so many tiles of any zoom, fewer of the large ones; some in each other, some twice, in any order.
fn tiles(random: &mut Random, window: &Window, most: u64) -> Vec<u64> {
    let mut entries = Vec::new();
    for _ in 0..1 + random.below(most) {
        let down = 1 + random.below(window.depth.into()).max(random.below(window.depth.into())) as u8;
        let (i, j) = (random.coordinate(down) as usize, random.coordinate(down) as usize);
        match random.below(4) {
            0 => entries
                .extend(CHILDREN.map(|(a, b)| window.entry(down, i / 2 * 2 + a as usize, j / 2 * 2 + b as usize))),
            1 => entries.extend([window.entry(down, i, j); 2]),
            _ => entries.push(window.entry(down, i, j)),
        }
    }
    entries
}

// A list in any order.
fn loose(random: &mut Random, window: &Window) -> Vec<u64> {
    let mut entries = tiles(random, window, 7);
    for i in (1..entries.len()).rev() {
        entries.swap(i, random.below(i as u64 + 1) as usize);
    }
    entries
}

// A settled list with one fault: four children in a tile's place, a descendant beside a tile, an entry twice; or, if it has
// more than one entry, out of order.
fn broken(random: &mut Random, window: &Window) -> Vec<u64> {
    let mut entries = settled_list(random, window);
    if entries.is_empty() {
        return vec![window.entry(0, 0, 0); 2];
    }
    let place = random.below(entries.len() as u64) as usize;
    let (x, y, z) = paper::tile_of(entries[place]);
    let below = window.top.2 + window.depth - z;
    match random.below(4) {
        0 if below > 0 => {
            entries.remove(place);
            entries.extend(level((x, y, z), 1));
            entries.sort_by_key(|&entry| paper::place(entry));
        }
        1 if below > 0 => {
            let down = 1 + random.below(below.into()) as u8;
            entries.push(entry((random.within(x, down), random.within(y, down), z + down)));
            entries.sort_by_key(|&entry| paper::place(entry));
        }
        2 => entries.insert(place, entries[place]),
        _ => entries.rotate_left(1),
    }
    entries
}

// A list, settled or not, with a number in it that is no tile's.
fn spoilt(random: &mut Random, window: &Window) -> Vec<u64> {
    let mut entries = if random.below(2) == 0 { loose(random, window) } else { settled_list(random, window) };
    // The first number past the last tile's, the next one, any of zoom 31, and the last of all.
    let deeper = RMID_END + random.below(1 << 62);
    let bad = random.pick(&[RMID_END, RMID_END + 1, deeper, u64::MAX]);
    entries.insert(random.below(entries.len() as u64 + 1) as usize, bad);
    entries
}

// The whole window less one deepest tile: three tiles of each zoom, more than both lists have together.
fn less_one(list: &mut List, random: &mut Random, depth: u8) {
    for z in [0, random.below(u64::from(DEEPEST - depth)) as u8, DEEPEST - depth] {
        let window = Window { top: random.tile(z), depth };
        let place = |random: &mut Random| random.coordinate(depth) as usize;
        let one = vec![window.entry(depth, place(random), place(random))];
        let whole = window.entry(0, 0, 0);
        let set: Set = ground(&window, &one).iter().map(|here| !here).collect();
        let result = settled(&window, &set);
        list.begin();
        for places in [result.len() - 1, result.len(), result.len() + 5, 2] {
            made(list, Work::Difference, places, &[own(vec![whole]), own(one.clone())], &result);
        }
        let rest = earlier(1, &result);
        made(list, Work::Union, result.len() + 1, &[rest.clone(), own(one.clone())], &[whole]);
        made(list, Work::Difference, 1, &[own(vec![whole]), rest.clone()], &one);
        made(list, Work::CommonPart, result.len() + 1, &[own(one), rest], &[]);
    }
}

// A tile less one far below it, too deep for a bitmap: on each zoom between, the three tiles beside the way down are left.
fn along_a_chain(list: &mut List, top: Xyz, deep: Xyz) {
    let mut rest = Vec::new();
    for z in top.2 + 1..=deep.2 {
        let (x, y) = (deep.0 >> (deep.2 - z), deep.1 >> (deep.2 - z));
        let family = CHILDREN.map(|(i, j)| (x / 2 * 2 + i, y / 2 * 2 + j));
        rest.extend(family.iter().filter(|&&t| t != (x, y)).map(|&(x, y)| entry((x, y, z))));
    }
    let [top, deep] = [top, deep].map(entry);
    for entries in [vec![top, deep], rest.clone(), [&[top][..], &rest].concat()] {
        asked(list, &entries);
    }
    list.begin();
    let both = [own(vec![top]), own(vec![deep])];
    made(list, Work::Difference, rest.len(), &both, &rest);
    made(list, Work::Difference, rest.len() - 1, &both, &rest);
    let left = earlier(0, &rest);
    made(list, Work::Union, rest.len() + 1, &[own(vec![deep]), left.clone()], &[top]);
    made(list, Work::CommonPart, rest.len() + 1, &[earlier(2, &[top]), left.clone()], &rest);
    made(list, Work::Difference, 3, &[earlier(2, &[top]), earlier(3, &rest)], &[deep]);
    made(list, Work::CommonPart, rest.len() + 4, &[left, earlier(4, &[deep])], &[]);
}
