// The papers once more, as plainly as can be and sharing nothing with the library: breadth-first counts, the row rule read off
// all distances, bits in a list. Slow, and meant to be.

use seam::{Refusal, Target};

pub type Verdict = Result<(), Refusal>;

pub fn sizes(n: usize, w: Option<usize>, k: Option<usize>, places: Option<usize>) -> Verdict {
    let fits = (1..=4096).contains(&n)
        && w.map_or(true, |w| (1..=256).contains(&w))
        && k.map_or(true, |k| k <= n)
        && places.map_or(true, |p| p <= 65_536);
    if fits { Ok(()) } else { Err(Refusal::Size) }
}

pub fn lengths(pairs: &[(usize, usize)]) -> Verdict {
    if pairs.iter().all(|(is, should)| is == should) { Ok(()) } else { Err(Refusal::Length) }
}

pub fn starts(n: usize, starts: &[u32], places: &[u32]) -> Verdict {
    let rising = starts.windows(2).all(|p| p[0] <= p[1]);
    if starts[0] == 0 && rising && starts[n] as usize == places.len() { Ok(()) } else { Err(Refusal::Starts) }
}

pub fn list<'a>(s: &[u32], p: &'a [u32], v: usize) -> &'a [u32] {
    &p[s[v] as usize..s[v + 1] as usize]
}

pub fn links(n: usize, s: &[u32], p: &[u32]) -> Verdict {
    for v in 0..n {
        let own = list(s, p, v);
        let rising = own.windows(2).all(|q| q[0] < q[1]);
        let inside = own.iter().all(|&x| (x as usize) < n);
        if !rising || !inside || own.contains(&(v as u32)) {
            return Err(Refusal::Links(v));
        }
        if own.iter().any(|&x| !list(s, p, x as usize).contains(&(v as u32))) {
            return Err(Refusal::Links(v));
        }
    }
    Ok(())
}

pub fn check_links(n: usize, s: &[u32], p: &[u32]) -> Verdict {
    sizes(n, None, None, Some(p.len()))?;
    lengths(&[(s.len(), n + 1)])?;
    starts(n, s, p)?;
    links(n, s, p)
}

pub fn order(n: usize, o: &[u32]) -> Verdict {
    for r in 0..n {
        if o[r] as usize >= n || o[..r].contains(&o[r]) {
            return Err(Refusal::Order(r));
        }
    }
    Ok(())
}

pub fn check_order(n: usize, o: &[u32]) -> Verdict {
    sizes(n, None, None, None)?;
    lengths(&[(o.len(), n)])?;
    order(n, o)
}

// More links first; of equal degree, the lower number of the frame first.
fn ordered(n: usize, s: &[u32], p: &[u32], room: usize, number: fn(u32) -> u32) -> Result<Vec<u32>, Refusal> {
    sizes(n, None, None, Some(p.len()))?;
    lengths(&[(s.len(), n + 1), (room, n)])?;
    starts(n, s, p)?;
    links(n, s, p)?;
    let mut o: Vec<u32> = (0..n as u32).collect();
    o.sort_by_key(|&v| (std::cmp::Reverse(list(s, p, v as usize).len()), number(v)));
    Ok(o)
}

pub fn order_by_degree(n: usize, s: &[u32], p: &[u32], room: usize) -> Result<Vec<u32>, Refusal> {
    ordered(n, s, p, room, |v| v)
}

pub fn order_scattered(n: usize, s: &[u32], p: &[u32], room: usize) -> Result<Vec<u32>, Refusal> {
    ordered(n, s, p, room, |v| v * 2531 % 4096)
}

// Breadth-first counts from one frame.
pub fn counts_from(n: usize, s: &[u32], p: &[u32], from: usize) -> Vec<Option<usize>> {
    let mut d = vec![None; n];
    d[from] = Some(0);
    let mut level = vec![from];
    let mut joins = 0;
    while !level.is_empty() {
        joins += 1;
        let mut next = vec![];
        for &u in &level {
            for &x in list(s, p, u) {
                if d[x as usize].is_none() {
                    d[x as usize] = Some(joins);
                    next.push(x as usize);
                }
            }
        }
        level = next;
    }
    d
}

// The row rule, read off all distances: a row of (rank, joins) per frame.
pub fn rule_rows(n: usize, k: usize, s: &[u32], p: &[u32], o: &[u32]) -> Vec<Vec<(usize, usize)>> {
    let d: Vec<_> = (0..n).map(|v| counts_from(n, s, p, v)).collect();
    let mut rows = vec![vec![]; n];
    for r in 0..k {
        let h = o[r] as usize;
        for v in 0..n {
            let joins = match d[h][v] {
                Some(joins) => joins,
                None => continue,
            };
            let spare = o[..r].iter().any(|&x| match (d[h][x as usize], d[x as usize][v]) {
                (Some(a), Some(b)) => a + b == joins,
                _ => false,
            });
            if !spare {
                rows[v].push((r, joins));
            }
        }
    }
    rows
}

pub struct Built {
    pub labels: Vec<u32>,
    pub counts: Vec<u32>,
    pub entries: usize,
}

// What a build whose tests have passed leaves.
pub fn build(n: usize, w: usize, k: usize, s: &[u32], p: &[u32], o: &[u32]) -> Result<Built, Refusal> {
    let rows = rule_rows(n, k, s, p, o);
    let full = (0..k).find(|&r| rows.iter().any(|row| row.iter().filter(|e| e.0 <= r).count() > w));
    if let Some(r) = full {
        return Err(Refusal::Room(r));
    }
    let mut labels = vec![0; n * w];
    for (v, row) in rows.iter().enumerate() {
        for (i, &(rank, joins)) in row.iter().enumerate() {
            labels[v * w + i] = rank as u32 * 65_536 + joins as u32;
        }
    }
    let counts: Vec<u32> = rows.iter().map(|row| row.len() as u32).collect();
    let entries = rows.iter().map(Vec::len).sum();
    Ok(Built { labels, counts, entries })
}

// The fewest joins of a chain through one of the first k hubs.
pub fn through(d: &[Vec<Option<usize>>], hubs: &[u32], s: usize, t: usize) -> Option<usize> {
    hubs.iter().filter_map(|&h| Some(d[h as usize][s]? + d[h as usize][t]?)).min()
}

pub fn sound(bound: usize, n: usize, w: usize, labels: &[u32], counts: &[u32], v: usize) -> bool {
    if counts[v] as usize > w {
        return false;
    }
    let row = &labels[v * w..v * w + counts[v] as usize];
    let good = row.iter().all(|e| ((e / 65_536) as usize) < bound && ((e % 65_536) as usize) < n);
    good && row.windows(2).all(|p| p[0] / 65_536 < p[1] / 65_536)
}

pub fn room_tests(n: usize, w: usize, labels: &[u32], counts: &[u32]) -> Verdict {
    sizes(n, Some(w), None, None)?;
    lengths(&[(labels.len(), n * w), (counts.len(), n)])
}

pub fn row_test(bound: usize, n: usize, w: usize, labels: &[u32], counts: &[u32], v: usize) -> Verdict {
    if sound(bound, n, w, labels, counts, v) { Ok(()) } else { Err(Refusal::Row(v)) }
}

pub fn rows_test(bound: usize, n: usize, w: usize, labels: &[u32], counts: &[u32]) -> Verdict {
    (0..n).try_for_each(|v| row_test(bound, n, w, labels, counts, v))
}

pub fn pair(n: usize, w: usize, labels: &[u32], counts: &[u32], s: usize, t: usize) -> Result<Option<usize>, Refusal> {
    room_tests(n, w, labels, counts)?;
    if s >= n {
        return Err(Refusal::Frame(0));
    }
    if t >= n {
        return Err(Refusal::Frame(1));
    }
    row_test(n, n, w, labels, counts, s)?;
    row_test(n, n, w, labels, counts, t)?;
    let mut best = None;
    for a in &labels[s * w..s * w + counts[s] as usize] {
        for b in &labels[t * w..t * w + counts[t] as usize] {
            if a / 65_536 == b / 65_536 {
                let sum = (a % 65_536 + b % 65_536) as usize;
                best = Some(best.map_or(sum, |x: usize| x.min(sum)));
            }
        }
    }
    Ok(best)
}

pub fn within(
    n: usize, w: usize, labels: &[u32], counts: &[u32], s: usize, t: usize, limit: usize,
) -> Result<bool, Refusal> {
    let answer = pair(n, w, labels, counts, s, t)?;
    Ok(answer.map_or(false, |joins| joins <= limit))
}

pub fn check_row(n: usize, w: usize, labels: &[u32], counts: &[u32], v: usize) -> Verdict {
    room_tests(n, w, labels, counts)?;
    if v >= n {
        return Err(Refusal::Frame(0));
    }
    row_test(n, n, w, labels, counts, v)
}

pub fn spread(n: usize, w: usize, labels: &[u32], counts: &[u32]) -> Result<usize, Refusal> {
    room_tests(n, w, labels, counts)?;
    rows_test(n, n, w, labels, counts)?;
    let used = (0..n).flat_map(|v| labels[v * w..v * w + counts[v] as usize].iter());
    Ok(used.filter(|&&e| e / 65_536 == 0).map(|&e| 2 * (e % 65_536) as usize).max().unwrap_or(0))
}

// ---- the targets

fn target_sizes(n: usize, w: usize, targets: &[Target]) -> Verdict {
    sizes(n, Some(w), None, None)?;
    if targets.len() <= 16 { Ok(()) } else { Err(Refusal::Size) }
}

fn target_frames(n: usize, targets: &[Target]) -> Verdict {
    let outside = targets.iter().position(|t| t.frame as usize >= n);
    outside.map_or(Ok(()), |i| Err(Refusal::Frame(i + 1)))
}

// The pair question's answer for a frame and each target.
fn joins_to(
    n: usize, w: usize, labels: &[u32], counts: &[u32], v: usize, targets: &[Target],
) -> Result<Vec<Option<usize>>, Refusal> {
    targets.iter().map(|t| pair(n, w, labels, counts, v, t.frame as usize)).collect()
}

// The fewest joins of these, where any are known, and the first place that has them.
pub fn fewest(joins: &[Option<usize>]) -> Option<(usize, usize)> {
    let fewest = joins.iter().filter_map(|&j| j).min()?;
    joins.iter().position(|&j| j == Some(fewest)).map(|place| (fewest, place))
}

// Frames counted by the joins to their nearest target; 15 takes 15 and more.
pub fn tallied(nearest: impl Iterator<Item = Option<usize>>) -> [u64; 16] {
    let joins: Vec<usize> = nearest.flatten().collect();
    let mut sixteen = [0; 16];
    for i in 0..15 {
        sixteen[i] = joins.iter().filter(|&&j| j == i).count() as u64;
    }
    sixteen[15] = joins.iter().filter(|&&j| j >= 15).count() as u64;
    sixteen
}

pub fn nearest(
    n: usize, w: usize, labels: &[u32], counts: &[u32], asked: usize, targets: &[Target],
) -> Result<Option<usize>, Refusal> {
    target_sizes(n, w, targets)?;
    room_tests(n, w, labels, counts)?;
    if asked >= n {
        return Err(Refusal::Frame(0));
    }
    target_frames(n, targets)?;
    row_test(n, n, w, labels, counts, asked)?;
    targets.iter().try_for_each(|t| row_test(n, n, w, labels, counts, t.frame as usize))?;
    let joins = joins_to(n, w, labels, counts, asked, targets)?;
    Ok(fewest(&joins).map(|(_, place)| place))
}

pub fn sixteen(n: usize, w: usize, labels: &[u32], counts: &[u32], targets: &[Target]) -> Result<[u64; 16], Refusal> {
    target_sizes(n, w, targets)?;
    room_tests(n, w, labels, counts)?;
    target_frames(n, targets)?;
    rows_test(n, n, w, labels, counts)?;
    let mut nearest = vec![];
    for v in 0..n {
        let joins = joins_to(n, w, labels, counts, v, targets)?;
        nearest.push(fewest(&joins).map(|(joins, _)| joins));
    }
    Ok(tallied(nearest.into_iter()))
}

// ---- the file, as a list of bits

fn push(bits: &mut Vec<bool>, value: usize, width: usize) {
    for i in (0..width).rev() {
        bits.push(value >> i & 1 == 1);
    }
}

pub fn file(n: usize, w: usize, k: usize, o: &[u32], labels: &[u32], counts: &[u32]) -> Vec<u8> {
    let mut bits = vec![];
    push(&mut bits, 1, 4);
    push(&mut bits, n - 1, 12);
    push(&mut bits, k, 13);
    push(&mut bits, 0, 3);
    for &v in o {
        push(&mut bits, v as usize, 12);
    }
    for v in 0..n {
        push(&mut bits, counts[v] as usize, 9);
        for e in &labels[v * w..v * w + counts[v] as usize] {
            push(&mut bits, (e / 65_536) as usize, 12);
            push(&mut bits, (e % 65_536) as usize, 12);
        }
    }
    while bits.len() % 8 != 0 {
        bits.push(false);
    }
    bits.chunks(8).map(|c| c.iter().fold(0, |b, &bit| 2 * b + bit as u8)).collect()
}

#[allow(clippy::too_many_arguments)]
pub fn write(
    n: usize, w: usize, k: usize, o: &[u32], labels: &[u32], counts: &[u32], out: usize, start: usize,
) -> Result<Vec<u8>, Refusal> {
    sizes(n, Some(w), Some(k), None)?;
    lengths(&[(o.len(), n), (labels.len(), n * w), (counts.len(), n)])?;
    order(n, o)?;
    rows_test(k, n, w, labels, counts)?;
    let bytes = file(n, w, k, o, labels, counts);
    if start > out || out - start < bytes.len() { Err(Refusal::Out) } else { Ok(bytes) }
}

struct Bits<'a> {
    bytes: &'a [u8],
    at: usize,
}

impl Bits<'_> {
    fn take(&mut self, width: usize) -> Result<usize, Refusal> {
        let first = self.at;
        let mut value = 0;
        for at in first..first + width {
            let byte = self.bytes.get(at / 8).ok_or(Refusal::Short(first))?;
            value = 2 * value + (byte >> (7 - at % 8) & 1) as usize;
        }
        self.at += width;
        Ok(value)
    }
}

fn header_of(bits: &mut Bits) -> Result<(usize, usize), Refusal> {
    if bits.take(4)? != 1 {
        return Err(Refusal::Version);
    }
    let n = bits.take(12)? + 1;
    let k = bits.take(13)?;
    if k > n {
        return Err(Refusal::Field(16));
    }
    if bits.take(3)? != 0 {
        return Err(Refusal::Field(29));
    }
    Ok((n, k))
}

pub fn header(bytes: &[u8]) -> Result<(usize, usize), Refusal> {
    header_of(&mut Bits { bytes, at: 0 })
}

pub struct Index {
    pub n: usize,
    pub k: usize,
    pub order: Vec<u32>,
    pub labels: Vec<u32>,
    pub counts: Vec<u32>,
}

pub fn read(bytes: &[u8], w: usize, order: usize, labels: usize, counts: usize) -> Result<Index, Refusal> {
    if !(1..=256).contains(&w) {
        return Err(Refusal::Size);
    }
    let mut bits = Bits { bytes, at: 0 };
    let (n, k) = header_of(&mut bits)?;
    lengths(&[(order, n), (labels, n * w), (counts, n)])?;
    let mut index = Index { n, k, order: vec![], labels: vec![0; n * w], counts: vec![] };
    for _ in 0..n {
        let first = bits.at;
        let v = bits.take(12)?;
        if v >= n || index.order.contains(&(v as u32)) {
            return Err(Refusal::Field(first));
        }
        index.order.push(v as u32);
    }
    for v in 0..n {
        let first = bits.at;
        let count = bits.take(9)?;
        if count > 256 {
            return Err(Refusal::Field(first));
        }
        if count > w {
            return Err(Refusal::Room(v));
        }
        index.counts.push(count as u32);
        let mut last = None;
        for i in 0..count {
            let first = bits.at;
            let rank = bits.take(12)?;
            if rank >= k || last.map_or(false, |l| rank <= l) {
                return Err(Refusal::Field(first));
            }
            last = Some(rank);
            let first = bits.at;
            let joins = bits.take(12)?;
            if joins >= n {
                return Err(Refusal::Field(first));
            }
            index.labels[v * w + i] = (rank * 65_536 + joins) as u32;
        }
    }
    let first = bits.at;
    if bits.take((8 - first % 8) % 8)? != 0 {
        return Err(Refusal::Field(first));
    }
    let used = bits.at / 8;
    if bytes.len() > used { Err(Refusal::Long(used)) } else { Ok(index) }
}
