// Thousands of blocks, sound and damaged, against the model; guard words around the rooms that the two orders, the build and
// the reader fill, and around the sixteen counts.

mod model;

use seam::{Links, Refusal, Rows, Target};

// xorshift: the same blocks in every run.
struct Dice(u64);

impl Dice {
    fn next(&mut self) -> u64 {
        self.0 ^= self.0 << 13;
        self.0 ^= self.0 >> 7;
        self.0 ^= self.0 << 17;
        self.0
    }

    fn below(&mut self, n: usize) -> usize {
        (self.next() % n as u64) as usize
    }

    fn one_in(&mut self, n: usize) -> bool {
        self.below(n) == 0
    }

    fn odd_number(&mut self, n: usize) -> u32 {
        match self.below(6) {
            0 => u32::MAX,
            1 => 0,
            2 => n as u32,
            3 => 65_536,
            4 => self.below(2 * n + 2) as u32,
            _ => self.next() as u32,
        }
    }

    fn shuffled(&mut self, n: usize) -> Vec<u32> {
        let mut o: Vec<u32> = (0..n as u32).collect();
        for i in (1..n).rev() {
            o.swap(i, self.below(i + 1));
        }
        o
    }
}

struct Block {
    n: usize,
    starts: Vec<u32>,
    places: Vec<u32>,
}

impl Block {
    fn of(n: usize, pairs: &[(usize, usize)]) -> Block {
        let mut lists = vec![vec![]; n];
        for &(a, b) in pairs {
            if a != b {
                lists[a].push(b as u32);
                lists[b].push(a as u32);
            }
        }
        let mut starts = vec![0];
        let mut places = vec![];
        for l in &mut lists {
            l.sort_unstable();
            l.dedup();
            places.extend_from_slice(l);
            starts.push(places.len() as u32);
        }
        Block { n, starts, places }
    }

    // Sparse, dense, chains, grids, rings, some in several pieces.
    fn random(dice: &mut Dice) -> Block {
        let n = 1 + dice.below(40);
        let mut pairs = vec![];
        match dice.below(5) {
            0 => (0..n).for_each(|_| pairs.push((dice.below(n), dice.below(n)))),
            1 => (0..3 * n).for_each(|_| pairs.push((dice.below(n), dice.below(n)))),
            2 => (1..n).for_each(|v| pairs.push((v - 1, v))),
            3 => {
                (1..n).for_each(|v| pairs.push((v - 1, v)));
                pairs.push((n - 1, 0));
            }
            _ => {
                for v in 0..n {
                    if v % 6 != 5 && v + 1 < n {
                        pairs.push((v, v + 1));
                    }
                    if v + 6 < n {
                        pairs.push((v, v + 6));
                    }
                }
            }
        }
        Block::of(n, &pairs)
    }

    fn links(&self) -> Links<'_> {
        Links { starts: &self.starts, places: &self.places }
    }

    fn damage(&mut self, dice: &mut Dice) {
        match dice.below(6) {
            0 if !self.places.is_empty() => {
                let at = dice.below(self.places.len());
                self.places[at] = dice.odd_number(self.n);
            }
            1 => {
                let at = dice.below(self.starts.len());
                self.starts[at] = dice.odd_number(self.places.len() + 1);
            }
            2 if self.places.len() > 1 => {
                let (a, b) = (dice.below(self.places.len()), dice.below(self.places.len()));
                self.places.swap(a, b);
            }
            3 => {
                self.places.pop();
            }
            4 => {
                self.starts.pop();
            }
            _ => self.n = [0, self.n + 1, 4097, usize::MAX][dice.below(4)],
        }
    }
}

const GUARD: u32 = 0xA5A5_5A5A;

// A room with guard words on both sides.
struct Guarded {
    all: Vec<u32>,
    len: usize,
}

impl Guarded {
    fn of(content: &[u32]) -> Guarded {
        let mut all = vec![GUARD; 4];
        all.extend_from_slice(content);
        all.extend_from_slice(&[GUARD; 4]);
        Guarded { all, len: content.len() }
    }

    fn dirty(dice: &mut Dice, len: usize) -> Guarded {
        let content: Vec<u32> = (0..len).map(|_| dice.next() as u32).collect();
        Guarded::of(&content)
    }

    fn room(&mut self) -> &mut [u32] {
        &mut self.all[4..4 + self.len]
    }

    fn now(&self) -> &[u32] {
        assert!(self.all[..4].iter().chain(&self.all[4 + self.len..]).all(|&x| x == GUARD), "a guard word was overwritten");
        &self.all[4..4 + self.len]
    }
}

fn off_by_one(dice: &mut Dice, len: usize) -> usize {
    match dice.below(40) {
        0 => len + 1,
        1 => len.saturating_sub(1),
        _ => len,
    }
}

type Ordering = fn(usize, Links, &mut [u32]) -> Result<(), Refusal>;

// One of the two orders, in a room of so many places: filled as the model says, or as lent.
fn ordered(dice: &mut Dice, block: &Block, len: usize, ordering: Ordering, expected: Result<Vec<u32>, Refusal>) {
    let mut room = Guarded::dirty(dice, len);
    let before = room.now().to_vec();
    let got = ordering(block.n, block.links(), room.room());
    assert_eq!(got, expected.as_ref().map(|_| ()).map_err(|r| *r));
    assert_eq!(room.now(), expected.unwrap_or(before));
}

// Both of them.
fn both_orders(dice: &mut Dice, block: &Block, len: usize) {
    let (n, starts, places) = (block.n, &block.starts, &block.places);
    ordered(dice, block, len, seam::order_by_degree, model::order_by_degree(n, starts, places, len));
    ordered(dice, block, len, seam::order_scattered, model::order_scattered(n, starts, places, len));
}

#[test]
fn links_and_orders() {
    let mut dice = Dice(0x9E37_79B9_7F4A_7C15);
    let mut refused = 0;
    for _ in 0..6000 {
        let mut block = Block::random(&mut dice);
        let mut order = dice.shuffled(block.n);
        if dice.one_in(2) {
            block.damage(&mut dice);
        }
        if dice.one_in(3) {
            let at = dice.below(order.len());
            order[at] = dice.odd_number(order.len());
        }
        let verdict = model::check_links(block.n, &block.starts, &block.places);
        refused += verdict.is_err() as u32;
        assert_eq!(seam::check_links(block.n, block.links()), verdict);
        assert_eq!(seam::check_order(block.n, &order), model::check_order(block.n, &order));

        let len = off_by_one(&mut dice, block.n.min(64));
        both_orders(&mut dice, &block, len);
    }
    assert!(refused > 1000);
}

#[test]
fn builds_questions_files() {
    let mut dice = Dice(0x1234_5678_9ABC_DEF1);
    let (mut built, mut full, mut seen) = (0, 0, Seen::default());
    for _ in 0..8000 {
        let mut block = Block::random(&mut dice);
        let n = block.n;
        let mut order = dice.shuffled(n);
        let w = if dice.one_in(3) { 1 + dice.below(3) } else { 1 + dice.below(48) };
        let k = dice.below(n + 1);
        let (mut n_asked, mut w_asked, mut k_asked) = (n, w, k);
        match dice.below(14) {
            0 => {
                block.damage(&mut dice);
                n_asked = block.n;
            }
            1 => {
                let at = dice.below(n);
                order[at] = dice.odd_number(n);
            }
            2 => n_asked = [0, n + 1, 4097, usize::MAX][dice.below(4)],
            3 => w_asked = [0, 257, usize::MAX][dice.below(3)],
            4 => k_asked = [n + 1, usize::MAX][dice.below(2)],
            _ => {}
        }
        let lens = [n * w, n, n, n].map(|l| off_by_one(&mut dice, l));
        let mut rooms = lens.map(|l| Guarded::dirty(&mut dice, l));
        let before: Vec<Vec<u32>> = rooms.iter().map(|r| r.now().to_vec()).collect();

        let tests = model::sizes(n_asked, Some(w_asked), Some(k_asked), Some(block.places.len()))
            .and_then(|_| {
                model::lengths(&[
                    (block.starts.len(), n_asked + 1), (order.len(), n_asked), (lens[0], n_asked * w_asked), (lens[1], n_asked),
                    (lens[2], n_asked), (lens[3], n_asked),
                ])
            })
            .and_then(|_| model::starts(n_asked, &block.starts, &block.places))
            .and_then(|_| model::links(n_asked, &block.starts, &block.places))
            .and_then(|_| model::order(n_asked, &order));
        let expected = tests.and_then(|_| model::build(n, w, k, &block.starts, &block.places, &order).map(Some));

        let [labels, counts, met, queue] = &mut rooms;
        let got = seam::build(
            n_asked, w_asked, k_asked, block.links(), &order, labels.room(), counts.room(), (met.room(), queue.room()),
        );
        match expected {
            Ok(Some(index)) => {
                built += 1;
                assert_eq!(got, Ok(index.entries));
                assert_eq!(rooms[0].now(), index.labels);
                assert_eq!(rooms[1].now(), index.counts);
                assert!(rooms[2..].iter().all(|r| r.now().iter().all(|&x| x == 0)));
                questions(&mut dice, &block, w, k, &order, &index, &mut seen);
            }
            Ok(None) => unreachable!(),
            Err(refusal) => {
                assert_eq!(got, Err(refusal));
                if let Refusal::Room(_) = refusal {
                    full += 1;
                    assert!(rooms.iter().all(|r| r.now().iter().all(|&x| x == 0)));
                } else {
                    assert!(rooms.iter().zip(&before).all(|(r, b)| r.now() == &b[..]));
                }
            }
        }
    }
    assert!(built > 2500 && full > 500, "{built} built, {full} full");
    assert!(seen.enough(), "{seen:?}");
}

// Every pair against breadth-first counts through the first k hubs; then damaged rooms, and files.
fn questions(dice: &mut Dice, block: &Block, w: usize, k: usize, order: &[u32], index: &model::Built, seen: &mut Seen) {
    let n = block.n;
    let d: Vec<_> = (0..n).map(|v| model::counts_from(n, &block.starts, &block.places, v)).collect();
    let rows = Rows { n, w, labels: &index.labels, counts: &index.counts };
    let mut answers = vec![vec![None; n]; n];
    for s in 0..n {
        for t in 0..n {
            let answer = rows.pair(s, t).unwrap();
            assert_eq!(answer, model::through(&d, &order[..k], s, t));
            if k == n {
                assert_eq!(answer, d[s][t]);
            }
            for limit in limits_about(answer) {
                assert_eq!(rows.within(s, t, limit), Ok(answer.map_or(false, |joins| joins <= limit)), "{answer:?} within {limit}");
            }
            answers[s][t] = answer;
        }
        assert_eq!(rows.row(s).unwrap(), &index.labels[s * w..s * w + index.counts[s] as usize]);
    }
    assert_eq!(rows.spread(), model::spread(n, w, &index.labels, &index.counts));
    targets(dice, &rows, &answers, seen);
    spare(block, w, k, order, index);

    let (mut labels, mut counts, mut order) = (index.labels.clone(), index.counts.clone(), order.to_vec());
    for _ in 0..dice.below(3) {
        match dice.below(4) {
            0 => {
                let at = dice.below(labels.len());
                labels[at] = dice.odd_number(n);
            }
            1 => {
                let at = dice.below(n);
                counts[at] = dice.odd_number(w);
            }
            2 => {
                let at = dice.below(n);
                order[at] = dice.odd_number(n);
            }
            _ => {
                let (a, b) = (dice.below(labels.len()), dice.below(labels.len()));
                labels.swap(a, b);
            }
        }
    }
    if dice.one_in(20) {
        labels.pop();
    }
    let asked = [n, n, n, n, 0, n + 1, 4097, usize::MAX][dice.below(8)];
    let width = [w, w, w, w, 0, w + 1, 257, usize::MAX][dice.below(8)];
    let rows = Rows { n: asked, w: width, labels: &labels, counts: &counts };
    for _ in 0..20 {
        let (s, t) = (dice.below(n + 2), dice.below(n + 2));
        let answer = model::pair(asked, width, &labels, &counts, s, t);
        assert_eq!(rows.pair(s, t), answer);
        for limit in limits_about(answer.unwrap_or(None)) {
            assert_eq!(rows.within(s, t, limit), model::within(asked, width, &labels, &counts, s, t, limit), "within {limit}");
        }
        let check = model::check_row(asked, width, &labels, &counts, s);
        assert_eq!(rows.check_row(s), check);
        let row = check.map(|_| &labels[s * width..s * width + counts[s] as usize]);
        assert_eq!(rows.row(s), row);
    }
    assert_eq!(rows.spread(), model::spread(asked, width, &labels, &counts));
    damaged_targets(dice, n, &rows, seen);
    files(dice, asked, width, k, &order, &labels, &counts);
}

// Limits on both sides of an answer, or of 15 joins where there is none; two entries' joins add up to less than 131,071, and 2^32
// is 0 in 32 bits.
fn limits_about(answer: Option<usize>) -> [usize; 9] {
    let joins = answer.unwrap_or(15);
    [0, joins / 2, joins.saturating_sub(1), joins, joins + 1, 131_071, 131_072, 1 << 32, usize::MAX]
}

// What the lists of targets came to: frames with more than one nearest, without any, and 15 or more joins away; refusals.
#[derive(Debug, Default)]
struct Seen {
    tied: u32,
    none: u32,
    far: u32,
    frame: u32,
    row: u32,
    row_of_target: u32,
    row_of_all: u32,
}

impl Seen {
    fn enough(&self) -> bool {
        [self.tied, self.none, self.far, self.frame, self.row, self.row_of_target, self.row_of_all].iter().all(|&times| times > 200)
    }

    fn refused(&mut self, asked: usize, nearest: Option<Refusal>, sixteen: Option<Refusal>) {
        match nearest {
            Some(Refusal::Frame(place)) => self.frame += (place > 0) as u32,
            Some(Refusal::Row(v)) if v == asked => self.row += 1,
            Some(Refusal::Row(_)) => self.row_of_target += 1,
            _ => {}
        }
        self.row_of_all += matches!(sixteen, Some(Refusal::Row(_))) as u32;
    }
}

// Up to 16 targets, some frames more than once, half of the marks below n; where damaged, also 17, and frames of n or more.
fn list_of(dice: &mut Dice, n: usize, damaged: bool) -> Vec<Target> {
    let len = match dice.below(8) {
        0 => 0,
        1 => 1,
        2 => 2,
        3 => 16,
        4 if damaged => 17,
        _ => dice.below(17),
    };
    let (from, frames) = (dice.below(n), 1 + dice.below(n));
    let mut list: Vec<Target> =
        (0..len).map(|_| Target { frame: ((from + dice.below(frames)) % n) as u32, mark: mark(dice, n) }).collect();
    if damaged && dice.one_in(4) {
        for _ in 0..len.min(2) {
            let at = dice.below(len);
            list[at].frame = dice.odd_number(n);
        }
    }
    list
}

fn mark(dice: &mut Dice, n: usize) -> u32 {
    if dice.one_in(2) { dice.below(n) as u32 } else { dice.next() as u32 }
}

fn remarked(dice: &mut Dice, n: usize, list: &[Target]) -> Vec<Target> {
    list.iter().map(|t| Target { mark: mark(dice, n), ..*t }).collect()
}

extern "C" {
    fn seam_sixteen(
        n: usize, w: usize, labels: *const u32, ll: usize, counts: *const u32, cl: usize, targets: *const Target, tl: usize,
        sixteen: *mut u64, place: *mut u64,
    ) -> u32;
}

// The sixteen counts in a room with guard words on both sides, which the wrapper's own room has not; and the wrapper's answer.
fn sixteen(dice: &mut Dice, rows: &Rows, list: &[Target]) -> Result<[u64; 16], Refusal> {
    const GUARDS: u64 = GUARD as u64 * 0x1_0000_0001;
    let (mut all, mut place) = ([GUARDS; 24], dice.next());
    all[4..20].iter_mut().for_each(|count| *count = dice.next());
    let number = unsafe {
        seam_sixteen(
            rows.n, rows.w, rows.labels.as_ptr(), rows.labels.len(), rows.counts.as_ptr(), rows.counts.len(),
            list.as_ptr(), list.len(), all[4..].as_mut_ptr(), &mut place,
        )
    };
    assert!(all[..4].iter().chain(&all[20..]).all(|&x| x == GUARDS), "a guard word was overwritten");
    let got = rows.sixteen(list);
    assert_eq!(Refusal::of(number, place), got.err());
    assert_eq!(all[4..20], got.unwrap_or([0; 16]));
    got
}

// The nearest target of every frame and the sixteen counts, for sound rows, by the answers of all pairs.
fn targets(dice: &mut Dice, rows: &Rows, answers: &[Vec<Option<usize>>], seen: &mut Seen) {
    let n = rows.n;
    for _ in 0..2 {
        let list = list_of(dice, n, false);
        let other = remarked(dice, n, &list);
        let mut nearest = vec![];
        for v in 0..n {
            let joins: Vec<Option<usize>> = list.iter().map(|t| answers[v][t.frame as usize]).collect();
            let fewest = model::fewest(&joins);
            let place = fewest.map(|(_, place)| place);
            assert_eq!(rows.nearest(v, &list), Ok(place));
            assert_eq!(rows.nearest(v, &other), Ok(place), "the mark was read");
            if let Some((fewest, place)) = fewest {
                seen.tied += joins[place + 1..].contains(&Some(fewest)) as u32;
                seen.far += (fewest >= 15) as u32;
            }
            seen.none += (!list.is_empty() && fewest.is_none()) as u32;
            nearest.push(fewest.map(|(joins, _)| joins));
        }
        let reached = nearest.iter().flatten().count() as u64;
        let counts = model::tallied(nearest.into_iter());
        assert_eq!(sixteen(dice, rows, &list), Ok(counts));
        assert_eq!(rows.sixteen(&other), Ok(counts), "the mark was read");
        assert_eq!(counts.iter().sum::<u64>(), reached);
    }
}

// The same for rooms and lists of any kind, against the model; up to three counts more are damaged.
fn damaged_targets(dice: &mut Dice, n: usize, rows: &Rows, seen: &mut Seen) {
    let mut counts = rows.counts.to_vec();
    for _ in 0..dice.below(4) {
        let at = dice.below(n);
        counts[at] = dice.odd_number(rows.w.min(256));
    }
    let rows = &Rows { counts: &counts, ..*rows };
    for _ in 0..6 {
        let list = list_of(dice, n, true);
        let other = remarked(dice, n, &list);
        let v = if dice.one_in(8) { [n, usize::MAX][dice.below(2)] } else { dice.below(n) };
        let nearest = model::nearest(rows.n, rows.w, rows.labels, rows.counts, v, &list);
        assert_eq!(rows.nearest(v, &list), nearest);
        assert_eq!(rows.nearest(v, &other), nearest, "the mark was read");
        let counted = model::sixteen(rows.n, rows.w, rows.labels, rows.counts, &list);
        assert_eq!(sixteen(dice, rows, &list), counted);
        assert_eq!(rows.sixteen(&other), counted, "the mark was read");
        seen.refused(v, nearest.err(), counted.err());
    }
}

// No entry is spare: with any one taken out of one row, some pair's answer changes.
fn spare(block: &Block, w: usize, k: usize, order: &[u32], index: &model::Built) {
    let n = block.n;
    if n > 12 {
        return;
    }
    let all = |labels: &[u32], counts: &[u32]| -> Vec<Option<usize>> {
        let rows = Rows { n, w, labels, counts };
        (0..n * n).map(|p| rows.pair(p / n, p % n).unwrap()).collect()
    };
    let whole = all(&index.labels, &index.counts);
    assert!(k > 0 || whole.iter().all(Option::is_none));
    for v in 0..n {
        for i in 0..index.counts[v] as usize {
            let (mut labels, mut counts) = (index.labels.clone(), index.counts.clone());
            labels.copy_within(v * w + i + 1..v * w + counts[v] as usize, v * w + i);
            counts[v] -= 1;
            assert_ne!(all(&labels, &counts), whole, "entry {i} of row {v} is spare, order {order:?}");
        }
    }
}

fn files(dice: &mut Dice, n: usize, w: usize, k: usize, order: &[u32], labels: &[u32], counts: &[u32]) {
    let size = 4 + (21 * n.min(64) + 24 * labels.len() + 7) / 8;
    let (len, start) = match dice.below(5) {
        0 => (dice.below(size), dice.below(size + 2)),
        1 => (size, usize::MAX),
        _ => (size + 9, dice.below(9)),
    };
    let k_asked = [k, k, k, k + 1, k.saturating_sub(1), usize::MAX][dice.below(6)];
    let before: Vec<u8> = (0..len).map(|_| dice.next() as u8).collect();
    let mut out = before.clone();
    let expected = model::write(n, w, k_asked, order, labels, counts, len, start);
    let rows = Rows { n, w, labels, counts };
    let got = rows.write(k_asked, order, &mut out, start);
    assert_eq!(got, expected.as_ref().map(Vec::len).map_err(|r| *r));
    let file = match expected {
        Ok(file) => file,
        Err(_) => return assert_eq!(out, before),
    };
    assert_eq!(file.len(), seam::file_bytes(n, counts.iter().map(|&c| c as usize).sum()));
    assert_eq!(out[..start], before[..start]);
    assert_eq!(out[start..start + file.len()], file[..]);
    assert_eq!(out[start + file.len()..], before[start + file.len()..]);
    back(dice, &file, w);
    for _ in 0..6 {
        let mut hurt = file.clone();
        match dice.below(4) {
            0 => hurt.truncate(dice.below(file.len() + 1)),
            1 => hurt.extend((0..1 + dice.below(3)).map(|_| 0)),
            2 => {
                let bit = dice.below(8 * hurt.len());
                hurt[bit / 8] ^= 128 >> (bit % 8);
            }
            _ => {
                let at = dice.below(hurt.len());
                hurt[at] = dice.next() as u8;
            }
        }
        back(dice, &hurt, w);
    }
}

// Reads a file, whatever it holds, with rooms that fit its header or nearly so.
fn back(dice: &mut Dice, bytes: &[u8], w: usize) {
    assert_eq!(seam::header(bytes), model::header(bytes));
    let w = [w, w, w, w, w + 1, w.saturating_sub(1).max(1), 0, 257][dice.below(8)];
    let n = model::header(bytes).map_or(1, |h| h.0).min(4096);
    let w_room = w.min(256);
    let lens = [n, n * w_room, n].map(|l| off_by_one(dice, l));
    let mut rooms = lens.map(|l| Guarded::dirty(dice, l));
    let before: Vec<Vec<u32>> = rooms.iter().map(|r| r.now().to_vec()).collect();
    let expected = model::read(bytes, w, lens[0], lens[1], lens[2]);
    let [order, labels, counts] = &mut rooms;
    let got = seam::read(bytes, w, order.room(), labels.room(), counts.room());
    assert_eq!(got, expected.as_ref().map(|i| (i.n, i.k)).map_err(|r| *r));
    match expected {
        Ok(index) => {
            assert_eq!(rooms[0].now(), index.order);
            assert_eq!(rooms[1].now(), index.labels);
            assert_eq!(rooms[2].now(), index.counts);
            let mut again = vec![0; bytes.len()];
            let rows = Rows { n, w, labels: rooms[1].now(), counts: rooms[2].now() };
            assert_eq!(rows.write(index.k, rooms[0].now(), &mut again, 0), Ok(bytes.len()));
            assert_eq!(again, bytes);
        }
        Err(_) => assert!(rooms.iter().zip(&before).all(|(r, b)| r.now() == &b[..])),
    }
}

#[test]
fn limits() {
    // A lone frame, and blocks at and over the largest size.
    let alone = Block::of(1, &[]);
    assert_eq!(seam::check_links(1, alone.links()), Ok(()));
    let chain: Vec<_> = (1..4096).map(|v| (v - 1, v)).collect();
    let long = Block::of(4096, &chain);
    assert_eq!(seam::check_links(4096, long.links()), Ok(()));
    let over = Block::of(4097, &chain);
    assert_eq!(seam::check_links(4097, over.links()), Err(Refusal::Size));
    let mut dice = Dice(0x0F1E_2D3C_4B5A_6978);
    for block in [&alone, &long, &over] {
        both_orders(&mut dice, block, block.n);
    }
    // The longest chain in the worst order: the last frame is 4,095 joins from the first hub, and that is not too far.
    let order: Vec<u32> = (0..4096).collect();
    let (mut labels, mut counts, mut met, mut queue) = (vec![7; 4096], vec![7; 4096], vec![7; 4096], vec![7; 4096]);
    let built = seam::build(4096, 1, 1, long.links(), &order, &mut labels, &mut counts, (&mut met, &mut queue));
    assert_eq!(built, Ok(4096));
    assert_eq!(labels[4095], 4095);
    let rows = Rows { n: 4096, w: 1, labels: &labels, counts: &counts };
    assert_eq!(rows.pair(4095, 4095), Ok(Some(8190)));
    assert_eq!((rows.within(4095, 4095, 8189), rows.within(4095, 4095, 8190)), (Ok(false), Ok(true)));
    assert_eq!(rows.spread(), Ok(8190));
    // Its last frame as a target is 4,095 joins from the first frame and 8,190 from itself; 16 targets are taken, 17 are not.
    let at = |frame: u32| Target { frame, mark: frame };
    assert_eq!(rows.nearest(4095, &[at(4095)]), Ok(Some(0)));
    assert_eq!(rows.sixteen(&[at(4095)]), Ok([0, 0, 0, 0, 0, 0, 0, 0, 0, 0, 0, 0, 0, 0, 0, 4096]));
    assert_eq!(rows.sixteen(&[at(4095), at(0)]), Ok([1, 1, 1, 1, 1, 1, 1, 1, 1, 1, 1, 1, 1, 1, 1, 4081]));
    let many: Vec<Target> = (4079..4096).rev().map(at).collect();
    assert_eq!(rows.nearest(0, &many[..16]), Ok(Some(15)));
    assert_eq!(rows.nearest(0, &many), Err(Refusal::Size));
    assert_eq!(rows.sixteen(&many[1..]), Ok([0, 0, 0, 0, 0, 0, 0, 0, 0, 0, 0, 0, 0, 0, 0, 4096]));
    assert_eq!(rows.sixteen(&many), Err(Refusal::Size));
}

// A survey deck of 16 strips of 256 frames: order by degree is refused at the largest width, order scattered is not.
#[test]
fn survey_deck() {
    let n = 4096;
    let along = (0..n).filter(|v| v % 256 < 255).map(|v| (v, v + 1));
    let across = (0..n - 256).map(|v| (v, v + 256));
    let deck = Block::of(n, &along.chain(across).collect::<Vec<_>>());
    both_orders(&mut Dice(0x1357_9BDF_0246_8ACE), &deck, n);
    let (mut labels, mut counts, mut met, mut queue) = (vec![7; n * 256], vec![7; n], vec![7; n], vec![7; n]);
    let mut build = |ordering: Ordering| {
        let mut order = vec![7; n];
        assert_eq!(ordering(n, deck.links(), &mut order), Ok(()));
        let built = seam::build(n, 256, n, deck.links(), &order, &mut labels, &mut counts, (&mut met, &mut queue));
        built.map(|_| *counts.iter().max().unwrap())
    };
    assert_eq!(build(seam::order_by_degree), Err(Refusal::Room(256)));
    assert_eq!(build(seam::order_scattered), Ok(69));

    // Sixteen targets all over the deck: each frame's nearest, by a search from each target.
    let list: Vec<Target> = (0..16).map(|i| Target { frame: (i * 2531 + 77) % 4096, mark: i }).collect();
    let from: Vec<_> = list.iter().map(|t| model::counts_from(n, &deck.starts, &deck.places, t.frame as usize)).collect();
    let rows = Rows { n, w: 256, labels: &labels, counts: &counts };
    let mut nearest = vec![];
    for v in 0..n {
        let joins: Vec<Option<usize>> = from.iter().map(|d| d[v]).collect();
        for (t, truly) in list.iter().zip(joins.iter().flatten()) {
            for limit in [0, truly / 2, truly.saturating_sub(1), *truly, 40] {
                assert_eq!(rows.within(v, t.frame as usize, limit), Ok(*truly <= limit));
            }
        }
        let (fewest, place) = model::fewest(&joins).unwrap();
        assert_eq!(rows.nearest(v, &list), Ok(Some(place)));
        nearest.push(Some(fewest));
    }
    assert_eq!(rows.sixteen(&list), Ok(model::tallied(nearest.into_iter())));
}

// The wrapper lets no place pass with a refusal that names none.
#[test]
fn places() {
    for number in 1..=14 {
        let names_none = [1, 2, 3, 7, 11, 14].contains(&number);
        assert_eq!(std::panic::catch_unwind(|| Refusal::of(number, 5)).is_err(), names_none, "number {number}");
        assert!(Refusal::of(number, 0).is_some());
    }
}

// The paper's worked cases, through the C interface.
#[test]
fn by_hand() {
    let build = |block: &Block, w: usize, k: usize, order: &[u32]| {
        let n = block.n;
        let (mut labels, mut counts, mut met, mut queue) = (vec![9; n * w], vec![9; n], vec![9; n], vec![9; n]);
        let built = seam::build(n, w, k, block.links(), order, &mut labels, &mut counts, (&mut met, &mut queue));
        assert!(met.iter().chain(&queue).all(|&x| x == 0));
        (built, labels, counts)
    };
    let entry = |rank: u32, joins: u32| rank * 65_536 + joins;

    let chain = Block::of(4, &[(0, 1), (1, 2), (2, 3)]);
    let mut order = vec![9; 4];
    assert_eq!(seam::order_by_degree(4, chain.links(), &mut order), Ok(()));
    assert_eq!(order, [1, 2, 0, 3]);
    // 1 and 2 have 2,531 and 966, 0 and 3 have 0 and 3,497.
    let mut scattered = vec![9; 4];
    assert_eq!(seam::order_scattered(4, chain.links(), &mut scattered), Ok(()));
    assert_eq!(scattered, [2, 1, 0, 3]);
    let (built, labels, counts) = build(&chain, 3, 4, &order);
    assert_eq!(built, Ok(8));
    assert_eq!(counts, [2, 1, 2, 3]);
    #[rustfmt::skip]
    assert_eq!(labels, [entry(0, 1), entry(2, 0), 0, entry(0, 0), 0, 0, entry(0, 1), entry(1, 0), 0, entry(0, 2), entry(1, 1), entry(3, 0)]);
    let rows = Rows { n: 4, w: 3, labels: &labels, counts: &counts };
    assert_eq!(rows.pair(0, 3), Ok(Some(3)));
    assert_eq!(rows.spread(), Ok(4));
    within_by_hand(&labels, &counts);
    targets_by_hand(&labels, &counts);
    let mut out = vec![0; 39];
    assert_eq!(rows.write(4, &order, &mut out, 0), Ok(39));
    assert_eq!(rows.write(3, &order, &mut out, 0), Err(Refusal::Row(3)));
    let (built, labels, counts) = build(&chain, 2, 4, &order);
    assert_eq!(built, Err(Refusal::Room(3)));
    assert!(labels.iter().chain(&counts).all(|&x| x == 0));
    assert_eq!(build(&chain, 2, 3, &order).0, Ok(7));

    let (built, labels, counts) = build(&chain, 3, 1, &order);
    assert_eq!(built, Ok(4));
    let rows = Rows { n: 4, w: 3, labels: &labels, counts: &counts };
    assert_eq!((rows.pair(0, 0), rows.pair(2, 3)), (Ok(Some(2)), Ok(Some(3))));
    assert_eq!((rows.within(0, 0, 1), rows.within(0, 0, 2)), (Ok(false), Ok(true)));
    // Frame 0 is no hub yet: 2 joins from itself, as far as from frame 2.
    let own = [Target { frame: 2, mark: 0 }, Target { frame: 0, mark: 0 }];
    assert_eq!(rows.nearest(0, &own), Ok(Some(0)));
    assert_eq!(rows.sixteen(&own[1..]), Ok([0, 1, 2, 1, 0, 0, 0, 0, 0, 0, 0, 0, 0, 0, 0, 0]));
    let (_, labels, counts) = build(&chain, 3, 0, &order);
    let rows = Rows { n: 4, w: 3, labels: &labels, counts: &counts };
    assert!((0..16).all(|p| rows.pair(p / 4, p % 4) == Ok(None)));
    assert!((0..16).all(|p| rows.within(p / 4, p % 4, usize::MAX) == Ok(false)));
    assert_eq!((rows.nearest(0, &own), rows.sixteen(&own)), (Ok(None), Ok([0; 16])));

    let ring = Block::of(4, &[(0, 1), (1, 2), (2, 3), (3, 0)]);
    let (built, labels, counts) = build(&ring, 3, 4, &[0, 1, 2, 3]);
    assert_eq!(built, Ok(9));
    let rows = Rows { n: 4, w: 3, labels: &labels, counts: &counts };
    assert_eq!(rows.row(3), Ok(&[entry(0, 1), entry(2, 1), entry(3, 0)][..]));
    assert_eq!(rows.pair(1, 3), Ok(Some(2)));

    let three = Block::of(3, &[(0, 1)]);
    for (k, own) in [(2, None), (3, Some(0))] {
        let (_, labels, counts) = build(&three, 3, k, &[0, 1, 2]);
        let rows = Rows { n: 3, w: 3, labels: &labels, counts: &counts };
        assert_eq!(rows.pair(0, 2), Ok(None));
        assert_eq!(rows.pair(2, 2), Ok(own));
        for limit in [0, 131_071, 131_072, 131_073, usize::MAX] {
            assert_eq!(rows.within(0, 2, limit), Ok(false));
            assert_eq!(rows.within(2, 2, limit), Ok(own.is_some()));
        }
    }

    let alone = Block::of(1, &[]);
    for (k, file) in [(1, &[0x10, 0, 0, 0x08, 0, 0, 0x08, 0, 0, 0][..]), (0, &[0x10, 0, 0, 0, 0, 0, 0][..])] {
        let (_, labels, counts) = build(&alone, 1, k, &[0]);
        let rows = Rows { n: 1, w: 1, labels: &labels, counts: &counts };
        let mut out = vec![0xFF; file.len()];
        assert_eq!(rows.write(k, &[0], &mut out, 0), Ok(file.len()));
        assert_eq!(out, file);
        assert_eq!(rows.write(k, &[0], &mut out[1..], 0), Err(Refusal::Out));
    }

    // An unsorted list that holds the frame asked for: the fault is the unsorted list's.
    let unsorted = Links { starts: &[0, 1, 3, 6, 7, 8], places: &[1, 0, 2, 4, 3, 1, 2, 2] };
    assert_eq!(seam::check_links(5, unsorted), Err(Refusal::Links(2)));
    assert_eq!(seam::check_links(1, Links { starts: &[0, 1], places: &[0] }), Err(Refusal::Links(0)));
    assert_eq!(seam::read(&[], 3, &mut [], &mut [], &mut []), Err(Refusal::Short(0)));
}

// Within so many joins on the chain 0-1-2-3, built to k = 4 with W = 3: answers, and each refusal before the next.
fn within_by_hand(labels: &[u32], counts: &[u32]) {
    let rows = Rows { n: 4, w: 3, labels, counts };
    for s in 0..4_usize {
        for t in 0..4 {
            assert!((0..9).all(|limit| rows.within(s, t, limit) == Ok(s.abs_diff(t) <= limit)));
        }
    }
    // 2 and 3 share rank 0 with the sum 3 and, behind it, rank 1 with the sum 1.
    assert_eq!((rows.within(2, 3, 0), rows.within(2, 3, 1), rows.within(2, 3, 3)), (Ok(false), Ok(true), Ok(true)));

    // The last entry of 0 and of 3 has a rank of n: with the larger limits the walk stops before it, the tests do not.
    let mut bad = labels.to_vec();
    bad[1] = 4 * 65_536;
    bad[11] = 4 * 65_536;
    let hurt = Rows { labels: &bad, ..rows };
    let short = Rows { labels: &bad[1..], ..rows };
    for limit in [0, 1, 3, 4, usize::MAX] {
        assert_eq!(Rows { w: 0, ..short }.within(9, 9, limit), Err(Refusal::Size));
        assert_eq!(short.within(9, 9, limit), Err(Refusal::Length));
        assert_eq!(hurt.within(4, 9, limit), Err(Refusal::Frame(0)));
        assert_eq!(hurt.within(3, 4, limit), Err(Refusal::Frame(1)));
        assert_eq!((hurt.within(0, 3, limit), hurt.within(3, 0, limit)), (Err(Refusal::Row(0)), Err(Refusal::Row(3))));
        assert_eq!((hurt.within(2, 3, limit), hurt.within(3, 2, limit)), (Err(Refusal::Row(3)), Err(Refusal::Row(3))));
        assert_eq!(hurt.within(1, 2, limit), Ok(limit > 0));
    }
}

// Targets on the chain 0-1-2-3, built to k = 4 with W = 3: answers, and each refusal before the next.
fn targets_by_hand(labels: &[u32], counts: &[u32]) {
    let rows = Rows { n: 4, w: 3, labels, counts };
    let at = |frames: &[u32]| -> Vec<Target> { frames.iter().map(|&frame| Target { frame, mark: 3 - frame.min(3) }).collect() };
    let counted = |first: [u64; 4]| -> Result<[u64; 16], Refusal> {
        let mut sixteen = [0; 16];
        sixteen[..4].copy_from_slice(&first);
        Ok(sixteen)
    };
    assert_eq!(rows.nearest(0, &at(&[3, 1, 2])), Ok(Some(1)));
    assert_eq!(rows.nearest(1, &at(&[3, 2, 0, 2])), Ok(Some(1)));
    assert_eq!(rows.nearest(1, &at(&[0, 2])), Ok(Some(0)));
    assert_eq!(rows.nearest(3, &at(&[2, 3, 3])), Ok(Some(1)));
    assert_eq!((rows.nearest(0, &[]), rows.sixteen(&[])), (Ok(None), Ok([0; 16])));
    assert_eq!(rows.sixteen(&at(&[0])), counted([1, 1, 1, 1]));
    assert_eq!(rows.sixteen(&at(&[3, 0])), counted([2, 2, 0, 0]));
    assert_eq!(rows.sixteen(&at(&[2, 1, 1])), counted([2, 2, 0, 0]));

    // The rows of 1 and 3 are not sound.
    let mut bad = counts.to_vec();
    bad[1] = 4;
    bad[3] = 4;
    let hurt = Rows { counts: &bad, ..rows };
    let short = Rows { labels: &labels[1..], ..hurt };
    let many = at(&[9; 17]);
    assert_eq!((short.nearest(9, &many), short.sixteen(&many)), (Err(Refusal::Size), Err(Refusal::Size)));
    assert_eq!((short.nearest(9, &many[1..]), short.sixteen(&many[1..])), (Err(Refusal::Length), Err(Refusal::Length)));
    assert_eq!(hurt.nearest(4, &at(&[1, 4])), Err(Refusal::Frame(0)));
    assert_eq!(hurt.nearest(3, &at(&[1, 4, 5])), Err(Refusal::Frame(2)));
    assert_eq!(hurt.sixteen(&at(&[4, 1])), Err(Refusal::Frame(1)));
    assert_eq!(hurt.nearest(3, &at(&[1])), Err(Refusal::Row(3)));
    assert_eq!(hurt.nearest(0, &at(&[2, 3, 1])), Err(Refusal::Row(3)));
    assert_eq!(hurt.nearest(0, &at(&[2, 0])), Ok(Some(1)));
    assert_eq!((hurt.sixteen(&at(&[3])), hurt.sixteen(&[])), (Err(Refusal::Row(1)), Err(Refusal::Row(1))));
}
