//! The distance index for Rust: safe functions over the proved library. Rooms are slices that the caller owns; every
//! refusal has the paper's name and its place.

/// Why a call was refused. The place is 0 where none is named.
#[derive(Clone, Copy, Debug, PartialEq, Eq)]
pub enum Refusal {
    Size,
    Length,
    Starts,
    /// The lowest frame whose list breaks its rule.
    Links(usize),
    /// The lowest rank whose value is n or more or stands at a lower rank.
    Order(usize),
    /// Build: the lowest rank at which a row needs over W entries. Read: the frame whose count is over W.
    Room(usize),
    Far,
    /// 0 for the first asked frame, 1 for the second; for a target's frame its place in the list plus one.
    Frame(usize),
    /// The frame whose row is not sound.
    Row(usize),
    /// The first bit of the field that the bytes end in.
    Short(usize),
    Version,
    /// The first bit of the illegal field.
    Field(usize),
    /// The bytes that the layout uses.
    Long(usize),
    Out,
}

impl Refusal {
    /// The refusal of a number and a place, none for 0. A refusal that names no place must have place 0.
    pub fn of(number: u32, place: u64) -> Option<Refusal> {
        let at = place as usize;
        let nowhere = |refusal: Refusal| {
            assert_eq!(place, 0, "{refusal:?} names no place");
            refusal
        };
        Some(match number {
            0 => return None,
            1 => nowhere(Refusal::Size),
            2 => nowhere(Refusal::Length),
            3 => nowhere(Refusal::Starts),
            4 => Refusal::Links(at),
            5 => Refusal::Order(at),
            6 => Refusal::Room(at),
            7 => nowhere(Refusal::Far),
            8 => Refusal::Frame(at),
            9 => Refusal::Row(at),
            10 => Refusal::Short(at),
            11 => nowhere(Refusal::Version),
            12 => Refusal::Field(at),
            13 => Refusal::Long(at),
            14 => nowhere(Refusal::Out),
            _ => panic!("no refusal has number {number}"),
        })
    }
}

/// A block of links: n + 1 start positions and the neighbour places.
#[derive(Clone, Copy)]
pub struct Links<'a> {
    pub starts: &'a [u32],
    pub places: &'a [u32],
}

/// The rooms of an index, to be asked.
#[derive(Clone, Copy)]
pub struct Rows<'a> {
    pub n: usize,
    pub w: usize,
    pub labels: &'a [u32],
    pub counts: &'a [u32],
}

/// A target: its frame, and a mark that no call tests or reads.
#[derive(Clone, Copy, Debug, PartialEq, Eq)]
#[repr(C)]
pub struct Target {
    pub frame: u32,
    pub mark: u32,
}

pub fn rank_of(entry: u32) -> u32 {
    entry / 65_536
}

pub fn joins_of(entry: u32) -> u32 {
    entry % 65_536
}

/// The bytes of the file of an index of n frames with so many entries.
pub fn file_bytes(n: usize, entries: usize) -> usize {
    4 + (21 * n + 24 * entries + 7) / 8
}

type Room = *const u32;
type Lent = *mut u32;

extern "C" {
    fn seam_check_links(n: usize, s: Room, sl: usize, p: Room, pl: usize, place: *mut u64) -> u32;
    fn seam_check_order(n: usize, o: Room, ol: usize, place: *mut u64) -> u32;
    fn seam_order_by_degree(n: usize, s: Room, sl: usize, p: Room, pl: usize, o: Lent, ol: usize, place: *mut u64) -> u32;
    fn seam_order_scattered(n: usize, s: Room, sl: usize, p: Room, pl: usize, o: Lent, ol: usize, place: *mut u64) -> u32;
    fn seam_build(
        n: usize, w: usize, k: usize, s: Room, sl: usize, p: Room, pl: usize, o: Room, ol: usize,
        labels: Lent, ll: usize, counts: Lent, cl: usize, met: Lent, ml: usize, queue: Lent, ql: usize,
        entries: *mut u64, place: *mut u64,
    ) -> u32;
    fn seam_pair(
        n: usize, w: usize, labels: Room, ll: usize, counts: Room, cl: usize, s: usize, t: usize,
        found: *mut u32, joins: *mut u64, place: *mut u64,
    ) -> u32;
    fn seam_within(
        n: usize, w: usize, labels: Room, ll: usize, counts: Room, cl: usize, s: usize, t: usize, limit: usize,
        yes: *mut u32, place: *mut u64,
    ) -> u32;
    fn seam_check_row(n: usize, w: usize, labels: Room, ll: usize, counts: Room, cl: usize, v: usize, place: *mut u64) -> u32;
    fn seam_row(
        n: usize, w: usize, labels: Room, ll: usize, counts: Room, cl: usize, v: usize,
        start: *mut u64, count: *mut u64, place: *mut u64,
    ) -> u32;
    fn seam_spread(n: usize, w: usize, labels: Room, ll: usize, counts: Room, cl: usize, spread: *mut u64, place: *mut u64) -> u32;
    fn seam_nearest(
        n: usize, w: usize, labels: Room, ll: usize, counts: Room, cl: usize, asked: usize, targets: *const Target, tl: usize,
        found: *mut u32, target: *mut u64, place: *mut u64,
    ) -> u32;
    fn seam_sixteen(
        n: usize, w: usize, labels: Room, ll: usize, counts: Room, cl: usize, targets: *const Target, tl: usize,
        sixteen: *mut u64, place: *mut u64,
    ) -> u32;
    fn seam_write(
        n: usize, w: usize, k: usize, o: Room, ol: usize, labels: Room, ll: usize, counts: Room, cl: usize,
        out: *mut u8, outl: usize, start: usize, bytes: *mut u64, place: *mut u64,
    ) -> u32;
    fn seam_header(bytes: *const u8, len: usize, n: *mut u64, k: *mut u64, place: *mut u64) -> u32;
    fn seam_read(
        bytes: *const u8, len: usize, w: usize, o: Lent, ol: usize, labels: Lent, ll: usize, counts: Lent, cl: usize,
        n: *mut u64, k: *mut u64, place: *mut u64,
    ) -> u32;
}

// Out values start from a value that no call gives, so that one left unwritten is seen.
const UNWRITTEN: u64 = u64::MAX - 6;

fn told<T>(number: u32, place: u64, others: &[u64], value: T) -> Result<T, Refusal> {
    assert!(place != UNWRITTEN && !others.contains(&UNWRITTEN), "an out value was left unwritten");
    match Refusal::of(number, place) {
        None => {
            assert_eq!(place, 0, "a success with a place");
            Ok(value)
        }
        Some(refusal) => {
            assert!(others.iter().all(|&x| x == 0), "a refusal with another out value");
            Err(refusal)
        }
    }
}

pub fn check_links(n: usize, links: Links) -> Result<(), Refusal> {
    let mut place = UNWRITTEN;
    let number = unsafe {
        seam_check_links(n, links.starts.as_ptr(), links.starts.len(), links.places.as_ptr(), links.places.len(), &mut place)
    };
    told(number, place, &[], ())
}

pub fn check_order(n: usize, order: &[u32]) -> Result<(), Refusal> {
    let mut place = UNWRITTEN;
    let number = unsafe { seam_check_order(n, order.as_ptr(), order.len(), &mut place) };
    told(number, place, &[], ())
}

/// Fills the order: more links first, of equal degree the lower frame number first.
pub fn order_by_degree(n: usize, links: Links, order: &mut [u32]) -> Result<(), Refusal> {
    let mut place = UNWRITTEN;
    let number = unsafe {
        seam_order_by_degree(
            n, links.starts.as_ptr(), links.starts.len(), links.places.as_ptr(), links.places.len(),
            order.as_mut_ptr(), order.len(), &mut place,
        )
    };
    told(number, place, &[], ())
}

/// Fills the order: more links first, of equal degree the frame v with the lower v * 2,531 mod 4,096 first. The order for
/// survey decks, where nearly all frames have equally many links.
pub fn order_scattered(n: usize, links: Links, order: &mut [u32]) -> Result<(), Refusal> {
    let mut place = UNWRITTEN;
    let number = unsafe {
        seam_order_scattered(
            n, links.starts.as_ptr(), links.starts.len(), links.places.as_ptr(), links.places.len(),
            order.as_mut_ptr(), order.len(), &mut place,
        )
    };
    told(number, place, &[], ())
}

/// The number of entries of the index built.
#[allow(clippy::too_many_arguments)]
pub fn build(
    n: usize, w: usize, k: usize, links: Links, order: &[u32], labels: &mut [u32], counts: &mut [u32],
    (met, queue): (&mut [u32], &mut [u32]),
) -> Result<usize, Refusal> {
    let (mut entries, mut place) = (UNWRITTEN, UNWRITTEN);
    let number = unsafe {
        seam_build(
            n, w, k, links.starts.as_ptr(), links.starts.len(), links.places.as_ptr(), links.places.len(),
            order.as_ptr(), order.len(), labels.as_mut_ptr(), labels.len(), counts.as_mut_ptr(), counts.len(),
            met.as_mut_ptr(), met.len(), queue.as_mut_ptr(), queue.len(), &mut entries, &mut place,
        )
    };
    told(number, place, &[entries], entries as usize)
}

impl<'a> Rows<'a> {
    /// The fewest joins from s to t through one of the hubs used, or none.
    pub fn pair(&self, s: usize, t: usize) -> Result<Option<usize>, Refusal> {
        let (mut found, mut joins, mut place) = (7u32, UNWRITTEN, UNWRITTEN);
        let number = unsafe {
            seam_pair(
                self.n, self.w, self.labels.as_ptr(), self.labels.len(), self.counts.as_ptr(), self.counts.len(), s, t,
                &mut found, &mut joins, &mut place,
            )
        };
        assert!(found <= 1);
        assert!(found == 1 || joins == 0, "none with a number of joins");
        told(number, place, &[joins, if number == 0 { 0 } else { found as u64 }], (found == 1).then_some(joins as usize))
    }

    /// Whether `pair` has an answer for s and t and it is at most the limit, which is any number.
    pub fn within(&self, s: usize, t: usize, limit: usize) -> Result<bool, Refusal> {
        let (mut yes, mut place) = (7u32, UNWRITTEN);
        let number = unsafe {
            seam_within(
                self.n, self.w, self.labels.as_ptr(), self.labels.len(), self.counts.as_ptr(), self.counts.len(), s, t, limit,
                &mut yes, &mut place,
            )
        };
        assert!(yes <= 1);
        told(number, place, &[if number == 0 { 0 } else { yes as u64 }], yes == 1)
    }

    pub fn check_row(&self, v: usize) -> Result<(), Refusal> {
        let mut place = UNWRITTEN;
        let number = unsafe {
            seam_check_row(
                self.n, self.w, self.labels.as_ptr(), self.labels.len(), self.counts.as_ptr(), self.counts.len(), v, &mut place,
            )
        };
        told(number, place, &[], ())
    }

    /// The used part of v's row.
    pub fn row(&self, v: usize) -> Result<&'a [u32], Refusal> {
        let (mut start, mut count, mut place) = (UNWRITTEN, UNWRITTEN, UNWRITTEN);
        let number = unsafe {
            seam_row(
                self.n, self.w, self.labels.as_ptr(), self.labels.len(), self.counts.as_ptr(), self.counts.len(), v,
                &mut start, &mut count, &mut place,
            )
        };
        let (start, count) = told(number, place, &[start, count], (start as usize, count as usize))?;
        Ok(&self.labels[start..start + count])
    }

    pub fn spread(&self) -> Result<usize, Refusal> {
        let (mut spread, mut place) = (UNWRITTEN, UNWRITTEN);
        let number = unsafe {
            seam_spread(
                self.n, self.w, self.labels.as_ptr(), self.labels.len(), self.counts.as_ptr(), self.counts.len(),
                &mut spread, &mut place,
            )
        };
        told(number, place, &[spread], spread as usize)
    }

    /// The place in the list of the target with the fewest joins from the asked frame, the first such place on equal counts, or
    /// none. At most 16 targets.
    pub fn nearest(&self, asked: usize, targets: &[Target]) -> Result<Option<usize>, Refusal> {
        let (mut found, mut target, mut place) = (7u32, UNWRITTEN, UNWRITTEN);
        let number = unsafe {
            seam_nearest(
                self.n, self.w, self.labels.as_ptr(), self.labels.len(), self.counts.as_ptr(), self.counts.len(), asked,
                targets.as_ptr(), targets.len(), &mut found, &mut target, &mut place,
            )
        };
        assert!(found <= 1);
        assert!(found == 1 || target == 0, "none with a target");
        told(number, place, &[target, if number == 0 { 0 } else { found as u64 }], (found == 1).then_some(target as usize))
    }

    /// At place i the frames whose nearest target is i joins away, at place 15 those with 15 and more; frames without any target
    /// are left out. At most 16 targets.
    pub fn sixteen(&self, targets: &[Target]) -> Result<[u64; 16], Refusal> {
        let (mut sixteen, mut place) = ([UNWRITTEN; 16], UNWRITTEN);
        let number = unsafe {
            seam_sixteen(
                self.n, self.w, self.labels.as_ptr(), self.labels.len(), self.counts.as_ptr(), self.counts.len(),
                targets.as_ptr(), targets.len(), sixteen.as_mut_ptr(), &mut place,
            )
        };
        told(number, place, &sixteen, sixteen)
    }

    /// Writes the file of this index from out[start] on; the number of bytes filled.
    pub fn write(&self, k: usize, order: &[u32], out: &mut [u8], start: usize) -> Result<usize, Refusal> {
        let (mut bytes, mut place) = (UNWRITTEN, UNWRITTEN);
        let number = unsafe {
            seam_write(
                self.n, self.w, k, order.as_ptr(), order.len(), self.labels.as_ptr(), self.labels.len(),
                self.counts.as_ptr(), self.counts.len(), out.as_mut_ptr(), out.len(), start, &mut bytes, &mut place,
            )
        };
        told(number, place, &[bytes], bytes as usize)
    }
}

/// The n and k of a file.
pub fn header(bytes: &[u8]) -> Result<(usize, usize), Refusal> {
    let (mut n, mut k, mut place) = (UNWRITTEN, UNWRITTEN, UNWRITTEN);
    let number = unsafe { seam_header(bytes.as_ptr(), bytes.len(), &mut n, &mut k, &mut place) };
    told(number, place, &[n, k], (n as usize, k as usize))
}

/// Reads a file into the rooms; its n and k.
pub fn read(
    bytes: &[u8], w: usize, order: &mut [u32], labels: &mut [u32], counts: &mut [u32],
) -> Result<(usize, usize), Refusal> {
    let (mut n, mut k, mut place) = (UNWRITTEN, UNWRITTEN, UNWRITTEN);
    let number = unsafe {
        seam_read(
            bytes.as_ptr(), bytes.len(), w, order.as_mut_ptr(), order.len(), labels.as_mut_ptr(), labels.len(),
            counts.as_mut_ptr(), counts.len(), &mut n, &mut k, &mut place,
        )
    };
    told(number, place, &[n, k], (n as usize, k as usize))
}
