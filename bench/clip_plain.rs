// Cuts and clips as the crates `edge_cut` and `clip_core` do, as a plain program in Rust: `bench/clip` takes its time
// beside theirs, and compares what both make. The algorithm is much like theirs: meetings by a sort of boxes in columns,
// cheap exact tests, later passes only with a new edge, bundles, chains; but midpoints stand by height alone, with boxes
// round 16 and 256 of them, where theirs stand by strips.
//
//   clip_plain make MOST           prints the inputs that are timed, of 100 edges up to MOST
//   clip_plain random COUNT SEED   prints so many small inputs that are drawn
//   clip_plain fast | slow         clips the inputs of the file `cases`: by the algorithm, or with every pair tried
//
// Inputs are a line with their number, and a line for each: a name, the operation, how often it's done, its edges, the
// loops of the first and of the second operand, and for each loop its points: their number, and x and y of each. A
// result is a line on standard output; one on standard error has the nanoseconds of all that was timed, and the number
// of points or pieces that were made.
use std::hint::black_box;
use std::ops::{Add, Mul, Sub};

#[derive(Clone, Copy, PartialEq, Eq, PartialOrd, Ord)]
struct Pt {
    x: i32,
    y: i32,
}

#[derive(Clone, Copy, PartialEq)]
struct Edge {
    from: Pt,
    to: Pt,
    second: bool,
}

type Loops = Vec<Vec<Pt>>;

/// The number of edges of a list that has too many.
struct Tangled(usize);

const MOST_EDGES: usize = 100_000;

// --- Products of steps: in 64 bits where all coordinates are small, else in 128.

trait Number: Copy + Ord + Add<Output = Self> + Sub<Output = Self> + Mul<Output = Self> {
    const ZERO: Self;
    fn of(n: i64) -> Self;
    fn size(self) -> i128;
}

impl Number for i64 {
    const ZERO: i64 = 0;
    fn of(n: i64) -> i64 {
        n
    }
    fn size(self) -> i128 {
        self.unsigned_abs() as i128
    }
}

impl Number for i128 {
    const ZERO: i128 = 0;
    fn of(n: i64) -> i128 {
        n as i128
    }
    fn size(self) -> i128 {
        self.abs()
    }
}

const SMALL: u32 = 1 << 29;

fn step<N: Number>(from: i32, to: i32) -> N {
    N::of(to as i64 - from as i64)
}

fn cross<N: Number>(a: Pt, b: Pt, c: Pt, d: Pt) -> N {
    step::<N>(a.x, b.x) * step(c.y, d.y) - step::<N>(a.y, b.y) * step(c.x, d.x)
}

fn dot<N: Number>(a: Pt, b: Pt, c: Pt, d: Pt) -> N {
    step::<N>(a.x, b.x) * step(c.x, d.x) + step::<N>(a.y, b.y) * step(c.y, d.y)
}

fn is_one_side<N: Number>(s: N, t: N) -> bool {
    (s > N::ZERO && t > N::ZERO) || (s < N::ZERO && t < N::ZERO)
}

/// A quotient rounded to nearest, half away from zero.
fn rounded(n: i128, d: i128) -> i128 {
    let (q, r) = (n.abs() / d, n.abs() % d);
    (if r >= d - r { q + 1 } else { q }) * n.signum()
}

fn point_at(e: Edge, part: i128, whole: i128) -> Pt {
    let at = |a: i32, b: i32| rounded(a as i128 * (whole - part) + b as i128 * part, whole) as i32;
    Pt { x: at(e.from.x, e.to.x), y: at(e.from.y, e.to.y) }
}

fn is_beside(e: Edge, p: Pt) -> bool {
    let between = |a: i32, x: i32, b: i32| a.min(b) <= x && x <= a.max(b);
    between(e.from.x, p.x, e.to.x) && between(e.from.y, p.y, e.to.y)
}

// --- Cutting.

/// An edge's box in one of the columns that it touches: its low and high end along the columns, with the column in
/// front, and its left and right end across them.
struct Filed {
    low: u64,
    high: u64,
    left: i32,
    right: i32,
    place: u32,
    begins: bool,
    new: bool,
}

fn above_least(n: i32) -> u32 {
    n as u32 ^ 1 << 31
}

fn wide(e: &Edge) -> (i32, i32) {
    (e.from.x.min(e.to.x), e.from.x.max(e.to.x))
}

fn high(e: &Edge) -> (i32, i32) {
    (e.from.y.min(e.to.y), e.from.y.max(e.to.y))
}

/// The least end of spans, how far they reach from there, and their lengths in all.
struct Cover {
    least: i32,
    range: u64,
    all: u64,
}

fn cover_of(list: &[Edge], span: impl Fn(&Edge) -> (i32, i32)) -> Cover {
    let (mut least, mut most, mut all) = (i32::MAX, i32::MIN, 0);
    for e in list {
        let (low, high) = span(e);
        least = least.min(low);
        most = most.max(high);
        all += high.abs_diff(low) as u64;
    }
    Cover { least, range: most.abs_diff(least) as u64, all }
}

fn file(
    list: &[Edge],
    new: &[bool],
    width: u32,
    least: i32,
    along: impl Fn(&Edge) -> (i32, i32),
    across: impl Fn(&Edge) -> (i32, i32),
) -> Vec<Filed> {
    let mut files = Vec::with_capacity(list.len() * 2);
    for (place, e) in list.iter().enumerate() {
        let ((low, high), (left, right)) = (along(e), across(e));
        let (first, last) = (left.abs_diff(least) / width, right.abs_diff(least) / width);
        for column in first..=last {
            let key = |at: i32| (column as u64) << 32 | above_least(at) as u64;
            let (place, begins, new) = (place as u32, column == first, new[place]);
            files.push(Filed { low: key(low), high: key(high), left, right, place, begins, new });
        }
    }
    files.sort_unstable_by_key(|f| f.low);
    files
}

/// Columns go along the axis on which edges overlap less. There is one, unless more than sixteen overlap there: then
/// they are four edges wide.
fn files_of(list: &[Edge], new: &[bool]) -> Vec<Filed> {
    let (x, y) = (cover_of(list, wide), cover_of(list, high));
    let lies = x.all as u128 * y.range as u128 <= y.all as u128 * x.range as u128;
    let (along, across) = if lies { (&x, &y) } else { (&y, &x) };
    let four = (across.all / list.len().max(1) as u64 * 4).clamp(1, u32::MAX as u64) as u32;
    let width = if along.all / 16 > along.range { four } else { u32::MAX };
    if lies {
        file(list, new, width, across.least, wide, high)
    } else {
        file(list, new, width, across.least, high, wide)
    }
}

/// A point on an edge between its ends, and how far along it stands.
#[derive(Clone, Copy, PartialEq, Eq, PartialOrd, Ord)]
struct Stop<N> {
    place: u32,
    along: N,
    at: Pt,
}

fn push_stop<N: Number>(stops: &mut Vec<Stop<N>>, list: &[Edge], place: u32, at: Pt) {
    let e = list[place as usize];
    if at != e.from && at != e.to {
        stops.push(Stop { place, along: dot(e.from, at, e.from, e.to), at });
    }
}

/// Where two edges meet elsewhere than at ends: most pairs are told by the sides of their ends, and by shared ones.
fn push_meeting<N: Number>(stops: &mut Vec<Stop<N>>, list: &[Edge], i: u32, j: u32) {
    let (e, f) = (list[i as usize], list[j as usize]);
    let s: N = cross(e.from, e.to, e.from, f.from);
    let t: N = cross(e.from, e.to, e.from, f.to);
    if is_one_side(s, t) {
        return;
    }
    if s == N::ZERO && t == N::ZERO {
        for (on, place, p) in [(e, i, f.from), (e, i, f.to), (f, j, e.from), (f, j, e.to)] {
            if is_beside(on, p) {
                push_stop(stops, list, place, p);
            }
        }
        return;
    }
    if f.from == e.from || f.from == e.to || f.to == e.from || f.to == e.to {
        return;
    }
    let u: N = cross(f.from, f.to, f.from, e.from);
    let v: N = cross(f.from, f.to, f.from, e.to);
    if is_one_side(u, v) {
        return;
    }
    let p = point_at(e, u.size(), (u - v).size());
    push_stop(stops, list, i, p);
    push_stop(stops, list, j, p);
}

/// All stops between ends, by edges and along each. Two edges that a pass left whole have none of each other.
fn stops_of<N: Number>(list: &[Edge], new: &[bool]) -> Vec<Stop<N>> {
    let files = files_of(list, new);
    let mut stops = Vec::new();
    let mut near = vec![0; files.len()];
    for (k, f) in files.iter().enumerate() {
        let mut count = 0;
        for g in &files[k + 1..] {
            if g.low > f.high {
                break;
            }
            near[count] = g.place;
            let touches = (g.left <= f.right) & (f.left <= g.right);
            count += (touches & (f.new | g.new) & (f.begins | g.begins)) as usize;
        }
        for &j in &near[..count] {
            push_meeting(&mut stops, list, f.place, j);
        }
    }
    stops.sort_unstable();
    stops.dedup();
    stops
}

fn cut<N: Number>(edges: &[Edge]) -> Result<Vec<Edge>, Tangled> {
    let mut list: Vec<Edge> = edges.iter().copied().filter(|e| e.from != e.to).collect();
    let mut new = vec![true; list.len()];
    if list.len() > MOST_EDGES {
        return Err(Tangled(list.len()));
    }
    for _ in 0..4 {
        let stops = stops_of::<N>(&list, &new);
        let count = list.len() + stops.len();
        if count > MOST_EDGES {
            return Err(Tangled(count));
        }
        if stops.is_empty() {
            break;
        }
        let mut pieces = Vec::with_capacity(count);
        new.clear();
        let mut k = 0;
        for (place, &e) in list.iter().enumerate() {
            let mut from = e.from;
            let begin = k;
            while k < stops.len() && stops[k].place as usize == place {
                pieces.push(Edge { from, to: stops[k].at, ..e });
                from = stops[k].at;
                k += 1;
            }
            pieces.push(Edge { from, ..e });
            new.resize(pieces.len(), k > begin);
        }
        list = pieces;
    }
    Ok(list)
}

// --- Keeping: bundles, their net counts, and the winding sums at their midpoints.

#[derive(Clone, Copy, PartialEq)]
enum Operation {
    Cut,
    NonZero,
    Positive,
    Unite,
    Subtract,
    Meet,
}

use Operation::*;

const OPERATIONS: [Operation; 6] = [Cut, NonZero, Positive, Unite, Subtract, Meet];

fn is_inside(operation: Operation, n: [i32; 2]) -> bool {
    match operation {
        Cut | NonZero => n[0] != 0,
        Positive => n[0] > 0,
        Unite => n[0] != 0 || n[1] != 0,
        Subtract => n[0] != 0 && n[1] == 0,
        Meet => n[0] != 0 && n[1] != 0,
    }
}

/// A point as a number that orders by y, then by x.
fn packed(p: Pt) -> u64 {
    (above_least(p.y) as u64) << 32 | above_least(p.x) as u64
}

fn unpacked(n: u64) -> Pt {
    Pt { x: (n as u32 ^ 1 << 31) as i32, y: ((n >> 32) as u32 ^ 1 << 31) as i32 }
}

/// Edges with the same two ends; `place` is that of the first one.
struct Bundle {
    low: Pt,
    high: Pt,
    net: [i32; 2],
    place: u32,
}

/// Those whose edges don't cancel out.
fn bundles_of(all: &[Edge]) -> Vec<Bundle> {
    let mut keys: Vec<(u64, u64, u32)> = Vec::with_capacity(all.len());
    for (place, e) in all.iter().enumerate() {
        let (p, q) = (packed(e.from), packed(e.to));
        keys.push((p.min(q), p.max(q), place as u32));
    }
    keys.sort_unstable();
    let mut bundles = Vec::with_capacity(all.len());
    for group in keys.chunk_by(|a, b| (a.0, a.1) == (b.0, b.1)) {
        let (low, high, place) = group[0];
        let mut net = [0; 2];
        for &(_, _, place) in group {
            let e = all[place as usize];
            net[e.second as usize] += if packed(e.from) == low { 1 } else { -1 };
        }
        if net != [0, 0] {
            bundles.push(Bundle { low: unpacked(low), high: unpacked(high), net, place });
        }
    }
    bundles
}

/// A bundle's midpoint, doubled, and its winding sum.
struct Ray {
    height: i64,
    across: i64,
    sum: [i32; 2],
    bundle: u32,
}

/// A box round neighbouring midpoints.
struct Hull {
    high: i64,
    left: i64,
    right: i64,
}

fn hulls_of(rays: &[Ray], width: usize) -> Vec<Hull> {
    let across = |part: &[Ray]| (part.iter().map(|r| r.across).min(), part.iter().map(|r| r.across).max());
    let hull = |part: &[Ray]| match (part.last(), across(part)) {
        (Some(r), (Some(left), Some(right))) => Hull { high: r.height, left, right },
        _ => Hull { high: 0, left: 0, right: 0 },
    };
    rays.chunks(width).map(hull).collect()
}

/// Adds each bundle's net counts to the midpoints that it reaches and stands right of: to whole boxes by a list that
/// says at each place by how much the sums from there on are greater.
fn add_sums<N: Number>(bundles: &[Bundle], rays: &mut [Ray]) {
    let count = rays.len();
    let (narrow, wide) = (hulls_of(rays, 16), hulls_of(rays, 256));
    let mut raises = vec![[0; 2]; count + 1];
    for b in bundles.iter().filter(|b| b.low.y != b.high.y) {
        let (low, high) = (2 * b.low.y as i64, 2 * b.high.y as i64);
        let (begin, end) = (2 * b.low.x as i64, 2 * b.high.x as i64);
        let (left, right) = (begin.min(end), begin.max(end));
        let (dx, dy): (N, N) = (step(b.low.x, b.high.x), step(b.low.y, b.high.y));
        let mut i = rays.partition_point(|r| r.height < low);
        let mut pass = |hull: &Hull, i: usize, to: usize| {
            if hull.left >= right {
                return true;
            }
            let is_taken = hull.right < left && hull.high < high;
            if is_taken {
                for w in 0..2 {
                    raises[i][w] += b.net[w];
                    raises[to][w] -= b.net[w];
                }
            }
            is_taken
        };
        while i < count && rays[i].height < high {
            if i % 256 == 0 {
                let to = count.min(i + 256);
                if pass(&wide[i / 256], i, to) {
                    i = to;
                    continue;
                }
            }
            let to = count.min(i / 16 * 16 + 16);
            if i % 16 == 0 && pass(&narrow[i / 16], i, to) {
                i = to;
                continue;
            }
            for r in &mut rays[i..to] {
                let turn = dx * N::of(r.height - low) - dy * N::of(r.across - begin);
                let adds = ((turn > N::ZERO) & (r.height < high)) as i32;
                r.sum[0] += adds * b.net[0];
                r.sum[1] += adds * b.net[1];
            }
            i = to;
        }
    }
    let mut by = [0; 2];
    for (r, raise) in rays.iter_mut().zip(&raises) {
        for w in 0..2 {
            by[w] += raise[w];
            r.sum[w] += by[w];
        }
    }
}

fn kept_edge(operation: Operation, low: Pt, high: Pt, net: [i32; 2], sum: [i32; 2]) -> Option<(Pt, Pt)> {
    let (left, right) = match low.y == high.y {
        true => (sum, [sum[0] - net[0], sum[1] - net[1]]),
        false => ([sum[0] + net[0], sum[1] + net[1]], sum),
    };
    match (is_inside(operation, left), is_inside(operation, right)) {
        (true, false) => Some((low, high)),
        (false, true) => Some((high, low)),
        _ => None,
    }
}

fn kept_of<N: Number>(operation: Operation, all: &[Edge]) -> Vec<(Pt, Pt)> {
    let bundles = bundles_of(all);
    let mut rays = Vec::with_capacity(bundles.len());
    for (k, b) in bundles.iter().enumerate() {
        let height = b.low.y as i64 + b.high.y as i64;
        rays.push(Ray { height, across: b.low.x as i64 + b.high.x as i64, sum: [0; 2], bundle: k as u32 });
    }
    rays.sort_unstable_by_key(|r| (r.height, r.across));
    add_sums::<N>(&bundles, &mut rays);
    let mut places = vec![None; all.len()];
    for r in &rays {
        let b = &bundles[r.bundle as usize];
        places[b.place as usize] = kept_edge(operation, b.low, b.high, b.net, r.sum);
    }
    places.into_iter().flatten().collect()
}

// --- Linking and tidying.

/// The closed chains and the loose ones: each goes on with the first unused edge at its end.
fn link(edges: &[(Pt, Pt)]) -> (Loops, Loops) {
    let count = edges.len();
    let by = |end: fn(&(Pt, Pt)) -> Pt| {
        let mut ends: Vec<(u64, u32)> = edges.iter().enumerate().map(|(i, e)| (packed(end(e)), i as u32)).collect();
        ends.sort_unstable();
        ends
    };
    // the edges by their starts; those at one point are a group, with the name of its first place
    let starts = by(|e| e.0);
    let (mut own, mut next) = (vec![0; count], vec![count; count]);
    let mut group = 0;
    for k in 0..count {
        if starts[k].0 != starts[group].0 {
            group = k;
        }
        own[starts[k].1 as usize] = group;
    }
    let mut k = 0;
    for (end, i) in by(|e| e.1) {
        while k < count && starts[k].0 < end {
            k += 1;
        }
        if k < count && starts[k].0 == end {
            next[i as usize] = k;
        }
    }
    // in each group how far its edges are used: always the first one is
    let mut heads: Vec<usize> = (0..count).collect();
    let mut used = vec![false; count];
    let (mut closed, mut loose) = (Vec::new(), Vec::new());
    for first in 0..count {
        if used[first] {
            continue;
        }
        let mut points = Vec::new();
        let mut i = first;
        loop {
            used[i] = true;
            heads[own[i]] += 1;
            points.push(edges[i].0);
            if edges[i].1 == edges[first].0 {
                closed.push(points);
                break;
            }
            let head = if next[i] < count { heads[next[i]] } else { count };
            if head < count && starts[head].0 == starts[next[i]].0 {
                i = starts[head].1 as usize;
            } else {
                points.push(edges[i].1);
                loose.push(points);
                break;
            }
        }
    }
    (closed, loose)
}

/// Behind the closed loops the loose ones of three points or more; without those of no area, and without points where
/// a loop goes straight on.
fn tidied<N: Number>(closed: Loops, loose: Loops) -> Loops {
    let mut loops = closed;
    loops.extend(loose.into_iter().filter(|l| l.len() >= 3));
    let wedge = |p: Pt, q: Pt| p.x as i128 * q.y as i128 - p.y as i128 * q.x as i128;
    loops.retain(|l| (0..l.len()).map(|i| wedge(l[i], l[(i + 1) % l.len()])).sum::<i128>() != 0);
    for l in &mut loops {
        let turns = |i: usize| {
            let (a, p, c) =
                (l[(if i == 0 { l.len() } else { i }) - 1], l[i], l[if i + 1 == l.len() { 0 } else { i + 1 }]);
            cross::<N>(a, p, p, c) != N::ZERO || dot::<N>(a, p, p, c) <= N::ZERO
        };
        let corners = (0..l.len()).filter(|&i| turns(i)).map(|i| l[i]).collect();
        *l = corners;
    }
    loops
}

// --- The whole, fast and slow.

enum Made {
    Pieces(Vec<Edge>),
    Region(Loops),
    Tangled(usize),
}

fn clip<N: Number>(operation: Operation, edges: &[Edge]) -> Made {
    match cut::<N>(edges) {
        Err(Tangled(count)) => Made::Tangled(count),
        Ok(list) if operation == Cut => Made::Pieces(list),
        Ok(list) => {
            let (closed, loose) = link(&kept_of::<N>(operation, &list));
            Made::Region(tidied::<N>(closed, loose))
        }
    }
}

fn clip_fast(operation: Operation, edges: &[Edge]) -> Made {
    let is_small = |p: Pt| p.x.unsigned_abs() <= SMALL && p.y.unsigned_abs() <= SMALL;
    if edges.iter().all(|e| is_small(e.from) && is_small(e.to)) {
        clip::<i64>(operation, edges)
    } else {
        clip::<i128>(operation, edges)
    }
}

/// Where e meets f, as the definition has it.
fn meeting(e: Edge, f: Edge) -> [Option<Pt>; 2] {
    let whole: i128 = cross(e.from, e.to, f.from, f.to);
    let is_part = |part: i128| (0 <= part && part <= whole) || (whole <= part && part <= 0);
    if whole != 0 {
        let on = cross(e.from, f.from, f.from, f.to);
        let across = cross(e.from, f.from, e.from, e.to);
        return [(is_part(on) && is_part(across)).then(|| point_at(e, on.abs(), whole.abs())), None];
    }
    let is_one_line = cross::<i128>(e.from, e.to, e.from, f.from) == 0;
    [f.from, f.to].map(|p| (is_one_line && is_beside(e, p)).then_some(p))
}

fn cut_slowly(edges: &[Edge]) -> Result<Vec<Edge>, Tangled> {
    let mut list: Vec<Edge> = edges.iter().copied().filter(|e| e.from != e.to).collect();
    if list.len() > MOST_EDGES {
        return Err(Tangled(list.len()));
    }
    for _ in 0..4 {
        let mut pieces = Vec::new();
        for &e in &list {
            let mut stops: Vec<Pt> = list.iter().flat_map(|&f| meeting(e, f)).flatten().collect();
            stops.extend([e.from, e.to]);
            stops.sort_by_key(|&p| (dot::<i128>(e.from, p, e.from, e.to), p.x, p.y));
            stops.dedup();
            pieces.extend(stops.windows(2).map(|s| Edge { from: s[0], to: s[1], ..e }));
        }
        if pieces.len() > MOST_EDGES {
            return Err(Tangled(pieces.len()));
        }
        if pieces == list {
            break;
        }
        list = pieces;
    }
    Ok(list)
}

fn ends_of(e: Edge) -> (Pt, Pt, i32) {
    let is_lower = e.from.y < e.to.y || (e.from.y == e.to.y && e.from.x < e.to.x);
    if is_lower {
        (e.from, e.to, 1)
    } else {
        (e.to, e.from, -1)
    }
}

fn kept_slowly(operation: Operation, all: &[Edge]) -> Vec<(Pt, Pt)> {
    let mut bundles: Vec<(Pt, Pt)> = Vec::new();
    for &e in all {
        let (low, high, _) = ends_of(e);
        if !bundles.contains(&(low, high)) {
            bundles.push((low, high));
        }
    }
    let mut kept = Vec::new();
    for (low, high) in bundles {
        let (mut net, mut sum) = ([0; 2], [0; 2]);
        let height = low.y as i64 + high.y as i64;
        for &f in all {
            let (a, b, share) = ends_of(f);
            let w = f.second as usize;
            if (a, b) == (low, high) {
                net[w] += share;
            }
            let reaches = 2 * a.y as i64 <= height && height < 2 * b.y as i64;
            if reaches && cross::<i128>(a, b, a, low) + cross::<i128>(a, b, a, high) > 0 {
                sum[w] += share;
            }
        }
        kept.extend(kept_edge(operation, low, high, net, sum));
    }
    kept
}

fn link_slowly(edges: &[(Pt, Pt)]) -> (Loops, Loops) {
    let mut unused = edges.to_vec();
    let (mut closed, mut loose) = (Vec::new(), Vec::new());
    while !unused.is_empty() {
        let (start, mut at) = unused.remove(0);
        let mut points = vec![start];
        while at != start {
            points.push(at);
            match unused.iter().position(|e| e.0 == at) {
                Some(i) => at = unused.remove(i).1,
                None => break,
            }
        }
        if at == start {
            closed.push(points)
        } else {
            loose.push(points)
        }
    }
    (closed, loose)
}

fn clip_slowly(operation: Operation, edges: &[Edge]) -> Made {
    match cut_slowly(edges) {
        Err(Tangled(count)) => Made::Tangled(count),
        Ok(list) if operation == Cut => Made::Pieces(list),
        Ok(list) => {
            let (closed, loose) = link_slowly(&kept_slowly(operation, &list));
            Made::Region(tidied::<i128>(closed, loose))
        }
    }
}

// --- Inputs that are timed.

struct Case {
    name: String,
    operation: Operation,
    times: usize,
    a: Loops,
    b: Loops,
}

fn pt(x: i64, y: i64) -> Pt {
    Pt { x: x as i32, y: y as i32 }
}

/// A linear congruence: the upper bits of each number are drawn.
struct Draw(u64);

impl Draw {
    fn below(&mut self, n: u64) -> i64 {
        self.0 = self.0.wrapping_mul(6_364_136_223_846_793_005).wrapping_add(1_442_695_040_888_963_407);
        ((self.0 >> 33) % n.max(1)) as i64
    }
    fn within(&mut self, n: i64) -> i64 {
        self.below(2 * n as u64 + 1) - n
    }
}

/// Teeth in a row on a bar, each as high as it says.
fn comb(edges: i64, mut height: impl FnMut() -> i64) -> Loops {
    let mut l: Vec<Pt> =
        (0..edges - 2).map(|i| pt(20_000_000 - i * 100, if i % 2 == 0 { 0 } else { height() })).collect();
    l.extend([pt(0, -1000), pt(20_000_000, -1000)]);
    vec![l]
}

/// A circle by quarters; no angle is needed.
fn circle(edges: i64, radius: i64) -> Loops {
    let m = (edges / 4).max(1);
    let mut l = Vec::new();
    for turn in 0..4 {
        for k in 0..m {
            let (x, y) = (radius * (m * m - k * k) / (m * m + k * k), radius * 2 * m * k / (m * m + k * k));
            l.push([pt(x, y), pt(-y, x), pt(-x, -y), pt(y, -x)][turn]);
        }
    }
    vec![l]
}

fn squares(edges: i64) -> Loops {
    let side = (1..).find(|s| s * s >= edges / 4).unwrap_or(1);
    let square = |i: i64| {
        let (x, y) = (i % side * 3000, i / side * 3000);
        vec![pt(x, y), pt(x + 2000, y), pt(x + 2000, y + 2000), pt(x, y + 2000)]
    };
    (0..edges / 4).map(square).collect()
}

/// Small triangles at places that are drawn, so that many cross.
fn tangle(edges: i64) -> Loops {
    let mut draw = Draw(7);
    let span = (2..).find(|s| s * s >= edges / 3).unwrap_or(2) as u64 * 1400;
    let mut triangle = || {
        let (x, y) = (draw.below(span), draw.below(span));
        (0..3).map(|_| pt(x + draw.below(2000), y + draw.below(2000))).collect()
    };
    (0..edges / 3).map(|_| triangle()).collect()
}

fn root(n: i128) -> i128 {
    let mut r = (n as f64).sqrt() as i128;
    while r * r > n {
        r -= 1;
    }
    while (r + 1) * (r + 1) <= n {
        r += 1;
    }
    if n - r * r > r {
        r + 1
    } else {
        r
    }
}

/// The raw loop of an offset inward: at each corner the end of one moved edge, the corner, and the start of the next.
fn moved_inward(outline: &[Pt], by: i64) -> Loops {
    let normal = |p: Pt, q: Pt| {
        let (dx, dy) = (q.x as i128 - p.x as i128, q.y as i128 - p.y as i128);
        let nanometres = root((dx * dx + dy * dy) * 1_000_000).max(1);
        let part = |step: i128| rounded(step * by as i128 * 1000, nanometres) as i64;
        (part(dy), part(-dx))
    };
    let shifted = |p: Pt, n: (i64, i64)| pt(p.x as i64 - n.0, p.y as i64 - n.1);
    let count = outline.len();
    let mut l = Vec::new();
    for i in 0..count {
        let (a, p, q) = (outline[(i + count - 1) % count], outline[i], outline[(i + 1) % count]);
        l.extend([shifted(p, normal(a, p)), p, shifted(p, normal(p, q))]);
    }
    vec![l]
}

fn made_cases(most: i64) -> Vec<Case> {
    let mut cases = Vec::new();
    // the smallest come twice: the first time they warm up
    for edges in [100, 100, 1000, 10_000, 99_000].into_iter().filter(|&n| n <= most) {
        let times = (20_000 / edges + 1) as usize;
        let mut draw = Draw(7);
        let offset = moved_inward(&circle(edges / 3, 50_000_000)[0], 400_000);
        let shapes = [
            ("comb", comb(edges, || 900), NonZero),
            ("uneven-comb", comb(edges, || 500 + draw.below(1000)), NonZero),
            ("circle", circle(edges, 50_000_000), NonZero),
            ("squares", squares(edges), NonZero),
            ("tangle", tangle(edges), NonZero),
            ("offset", offset, Positive),
        ];
        for (name, a, rule) in shapes {
            for operation in [Cut, rule] {
                cases.push(Case { name: name.to_string(), operation, times, a: a.clone(), b: vec![] });
            }
        }
        let (a, b) = (circle(edges / 2, 50_000_000), circle(edges / 2, 49_990_000));
        cases.push(Case { name: "circles".to_string(), operation: Unite, times, a, b });
    }
    cases
}

// --- Small inputs that are drawn.

/// How far coordinates reach, on either side of 0.
const REACHES: [i64; 7] = [2, 6, 20, 300, 50_000, 1 << 29, i32::MAX as i64];

fn drawn_loop(draw: &mut Draw, kind: u64, reach: i64, points: i64) -> Vec<Pt> {
    let any = |draw: &mut Draw| pt(draw.within(reach), draw.within(reach));
    match kind {
        // a polygon that may cross itself
        0 => (0..points).map(|_| any(draw)).collect(),
        // a rectangle on a coarse grid, one way round or the other: shared and collinear edges
        1 => {
            let cell = (reach / 4).max(1);
            let mut at = || draw.within(4).clamp(-reach / cell, reach / cell) * cell;
            let (x, y, z, w) = (at(), at(), at(), at());
            vec![pt(x, y), pt(z, y), pt(z, w), pt(x, w)]
        }
        // all on a few lines
        2 => {
            let along = |t: i64, line: i64| [pt(t, t), pt(t, -t), pt(t, reach / 2), pt(reach / 3, t)][line as usize];
            (0..points).map(|_| along(draw.within(reach), draw.below(4))).collect()
        }
        // points that come again, next to each other and later
        3 => {
            let some: Vec<Pt> = (0..points / 2 + 1).map(|_| any(draw)).collect();
            (0..points).map(|_| some[draw.below(some.len() as u64) as usize]).collect()
        }
        // a small triangle
        _ => {
            let (p, near) = (any(draw), (reach / 3).max(1));
            let mut at = |n: i32| (n as i64 + draw.within(near)).clamp(-reach, reach);
            (0..3).map(|_| pt(at(p.x), at(p.y))).collect()
        }
    }
}

fn drawn_loops(draw: &mut Draw, reach: i64, loops: i64, points: i64) -> Loops {
    let mixed = draw.below(2) == 0;
    let kind = draw.below(5) as u64;
    let mut drawn: Loops = Vec::new();
    for _ in 0..loops {
        // now and then a loop comes again, or comes turned round
        if !drawn.is_empty() && draw.below(6) == 0 {
            let mut again = drawn[draw.below(drawn.len() as u64) as usize].clone();
            if draw.below(2) == 0 {
                again.reverse();
            }
            drawn.push(again);
            continue;
        }
        let kind = if mixed { draw.below(5) as u64 } else { kind };
        let points = draw.below(points as u64 + 1);
        drawn.push(drawn_loop(draw, kind, reach, points));
    }
    drawn
}

fn drawn_cases(count: usize, seed: u64) -> Vec<Case> {
    let mut draw = Draw(seed);
    let mut drawn = |k: usize| {
        let reach = REACHES[draw.below(REACHES.len() as u64) as usize];
        // one of a hundred has so many edges that columns and boxes come in
        let (loops, points) = if k % 100 == 99 { (25, 8) } else { (1 + draw.below(5), 3 + draw.below(9)) };
        let a = drawn_loops(&mut draw, reach, loops, points);
        let b = match draw.below(4) {
            0 => vec![],
            // the first one again, moved a little or not at all
            1 => {
                let (x, y) = (draw.within(1), draw.within(1));
                let moved = |n: i32, by: i64| (n as i64 + by).clamp(i32::MIN as i64, i32::MAX as i64);
                a.iter().map(|l| l.iter().map(|p| pt(moved(p.x, x), moved(p.y, y))).collect()).collect()
            }
            _ => drawn_loops(&mut draw, reach, loops, points),
        };
        let operation = OPERATIONS[draw.below(6) as usize];
        Case { name: "drawn".to_string(), operation, times: 1, a, b }
    };
    (0..count).map(&mut drawn).collect()
}

// --- Reading and printing.

fn points_in(region: &Loops) -> usize {
    region.iter().map(|l| l.len()).sum()
}

fn push_edges(edges: &mut Vec<Edge>, region: &Loops, second: bool) {
    for l in region {
        edges.extend((0..l.len()).map(|i| Edge {
            from: l[i],
            to: l[if i + 1 == l.len() { 0 } else { i + 1 }],
            second,
        }));
    }
}

/// The edges of both operands; a region that is cleaned is the first alone.
fn edges_of(case: &Case, edges: &mut Vec<Edge>) {
    edges.clear();
    push_edges(edges, &case.a, false);
    if case.operation != NonZero && case.operation != Positive {
        push_edges(edges, &case.b, true);
    }
}

fn loops_text(region: &Loops) -> String {
    let points = |l: &Vec<Pt>| l.iter().map(|p| format!(" {} {}", p.x, p.y)).collect::<String>();
    region.iter().map(|l| format!(" {}{}", l.len(), points(l))).collect()
}

fn print_cases(cases: &[Case]) {
    println!("{}", cases.len());
    for Case { name, operation, times, a, b } in cases {
        let edges = points_in(a) + points_in(b);
        let number = *operation as usize;
        println!("{name} {number} {times} {edges} {} {}{}{}", a.len(), b.len(), loops_text(a), loops_text(b));
    }
}

fn read_case(line: &str) -> Case {
    let mut words = line.split_whitespace();
    let name = words.next().expect("a name").to_string();
    let mut next = || words.next().expect("a number").parse::<i32>().expect("a number");
    let (operation, times, _edges) = (OPERATIONS[next() as usize], next() as usize, next());
    let (first, second) = (next(), next());
    let mut region = |loops: i32| -> Loops {
        (0..loops).map(|_| (0..next()).map(|_| Pt { x: next(), y: next() }).collect()).collect()
    };
    let a = region(first);
    let b = region(second);
    Case { name, operation, times, a, b }
}

/// The processor time of this process, in nanoseconds.
fn spent() -> i64 {
    extern "C" {
        fn clock_gettime(clock: i32, time: *mut [i64; 2]) -> i32;
    }
    let mut time = [0; 2];
    // the second clock is that of the process
    assert_eq!(unsafe { clock_gettime(2, &mut time) }, 0);
    time[0] * 1_000_000_000 + time[1]
}

fn run(case: &Case, clip: fn(Operation, &[Edge]) -> Made) {
    let mut edges = Vec::new();
    edges_of(case, &mut edges);
    let mut made = Made::Tangled(0);
    let start = spent();
    for _ in 0..case.times {
        if case.operation != Cut {
            edges_of(case, &mut edges);
        }
        made = black_box(clip(case.operation, black_box(&edges)));
    }
    let time = spent() - start;
    let (count, text) = match &made {
        Made::Tangled(count) => (*count, format!("tangled {count}")),
        Made::Region(region) => (points_in(region), format!("region{}", loops_text(region))),
        Made::Pieces(list) => {
            let piece = |e: &Edge| format!(" {} {} {} {} {}", e.from.x, e.from.y, e.to.x, e.to.y, e.second as u8);
            (list.len(), format!("pieces{}", list.iter().map(piece).collect::<String>()))
        }
    };
    println!("{text}");
    eprintln!("{time} {count}");
}

fn run_all(clip: fn(Operation, &[Edge]) -> Made) {
    let cases = std::fs::read_to_string("cases").expect("the file `cases`");
    for line in cases.lines().skip(1) {
        run(&read_case(line), clip);
    }
}

fn main() {
    let words: Vec<String> = std::env::args().skip(1).collect();
    let number = |i: usize| words[i].parse::<u64>().expect("a number");
    match words.iter().map(|it| it.as_str()).collect::<Vec<_>>()[..] {
        ["make", _] => print_cases(&made_cases(number(1) as i64)),
        ["random", _, _] => print_cases(&drawn_cases(number(1) as usize, number(2))),
        ["fast"] => run_all(clip_fast),
        ["slow"] => run_all(clip_slowly),
        _ => panic!("clip_plain make MOST | random COUNT SEED | fast | slow"),
    }
}
