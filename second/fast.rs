//! The same judgement for speed. A graph is read once; sets of actors are the bits of one word;
//! nothing is taken from the heap unless the search of late.rs needs a table.

use crate::answer::{Refusal, Verdict};
use crate::counted;
use crate::late::{Demand, Looks, Part};
use std::cell::RefCell;

pub const ACTORS: usize = 32;
const CHANNELS: usize = 64;
const TICKS: u32 = 10_000_000;
const NONE: u8 = u8::MAX;

/// The eight bytes of a channel, as they stand in the sheet, in one word.
#[derive(Clone, Copy)]
struct Channel(u64);

impl Channel {
    #[inline]
    fn tail(self) -> usize {
        (self.0 >> 56) as usize & 31
    }

    #[inline]
    fn head(self) -> usize {
        (self.0 >> 48) as usize & 31
    }

    #[inline]
    fn produce(self) -> u32 {
        (self.0 >> 32) as u32 & 0xFFFF
    }

    #[inline]
    fn consume(self) -> u32 {
        (self.0 >> 16) as u32 & 0xFFFF
    }

    #[inline]
    fn tokens(self) -> u32 {
        self.0 as u32 & 0xFFFF
    }
}

/// The stretch of one graph in either form.
trait Stretch: Copy {
    /// One of the six fixed fields.
    fn fixed(self, field: usize) -> u32;
    fn times(self, actors: usize) -> impl Iterator<Item = u32>;
    /// Each channel, and whether a field of it does not fit its width in the sheet.
    fn channels(self, actors: usize) -> impl Iterator<Item = (Channel, bool)>;
}

#[derive(Clone, Copy)]
struct Bytes<'a>(&'a [u8]);

impl Stretch for Bytes<'_> {
    #[inline]
    fn fixed(self, field: usize) -> u32 {
        let long = |at: usize| {
            u32::from_be_bytes([self.0[at], self.0[at + 1], self.0[at + 2], self.0[at + 3]])
        };
        match field {
            4 => long(4),
            5 => long(8),
            _ => u32::from(self.0[field]),
        }
    }

    #[inline]
    fn times(self, actors: usize) -> impl Iterator<Item = u32> {
        self.0[12..12 + 4 * actors]
            .chunks_exact(4)
            .map(|b| u32::from_be_bytes([b[0], b[1], b[2], b[3]]))
    }

    #[inline]
    fn channels(self, actors: usize) -> impl Iterator<Item = (Channel, bool)> {
        self.0[12 + 4 * actors..].chunks_exact(8).map(|b| {
            (
                Channel(u64::from_be_bytes([
                    b[0], b[1], b[2], b[3], b[4], b[5], b[6], b[7],
                ])),
                false,
            )
        })
    }
}

#[derive(Clone, Copy)]
struct Numbered<'a>(&'a [u32]);

impl Stretch for Numbered<'_> {
    #[inline]
    fn fixed(self, field: usize) -> u32 {
        self.0[field]
    }

    #[inline]
    fn times(self, actors: usize) -> impl Iterator<Item = u32> {
        self.0[6..6 + actors].iter().copied()
    }

    #[inline]
    fn channels(self, actors: usize) -> impl Iterator<Item = (Channel, bool)> {
        self.0[6 + actors..].chunks_exact(5).map(|n| {
            let wide = (n[0] | n[1]) > 0xFF || (n[2] | n[3] | n[4]) > 0xFFFF;
            let ends = u64::from(n[0]) << 56 | u64::from(n[1]) << 48;
            (
                Channel(ends | u64::from(n[2]) << 32 | u64::from(n[3]) << 16 | u64::from(n[4])),
                wide,
            )
        })
    }
}

#[derive(Clone, Copy)]
pub struct Numbers {
    pub repetition: [u32; ACTORS],
    pub skip: [u64; ACTORS],
}

impl Numbers {
    pub fn none() -> Numbers {
        Numbers {
            repetition: [0; ACTORS],
            skip: [0; ACTORS],
        }
    }
}

/// What one graph is worked out in.
struct Bench {
    numbers: Numbers,
    times: [u32; ACTORS],
    channels: [Channel; CHANNELS],
    used: usize,
    /// A channel from one actor to another, where `heads` says that there is one.
    between: [[u8; ACTORS]; ACTORS],
    heads: [u32; ACTORS],
    tails: [u32; ACTORS],
    /// Tails whose skip is 0 as soon as the head's is.
    tied: [u32; ACTORS],
    /// Tails an actor has to wait for in the trial run, because the channel does not hold a
    /// whole repetition's tokens.
    awaited: [u32; ACTORS],
    /// Actors as met from the input.
    met: [u8; ACTORS],
    /// Actors in an order in which they can fire (with one place to spare, because a place is
    /// written before it is known to be taken); then sets of actors, each to fire after the last.
    order: [u8; 2 * ACTORS],
    ordered: usize,
    layers: [u32; ACTORS],
    depth: usize,
    /// Whether some skip is above 0; otherwise the skips are not written.
    lagging: bool,
}

impl Bench {
    fn new() -> Bench {
        Bench {
            numbers: Numbers::none(),
            times: [0; ACTORS],
            channels: [Channel(0); CHANNELS],
            used: 0,
            between: [[0; ACTORS]; ACTORS],
            heads: [0; ACTORS],
            tails: [0; ACTORS],
            tied: [0; ACTORS],
            awaited: [0; ACTORS],
            met: [0; ACTORS],
            order: [0; 2 * ACTORS],
            ordered: 0,
            layers: [0; ACTORS],
            depth: 0,
            lagging: false,
        }
    }

    #[inline]
    fn clear(&mut self) {
        self.heads = [0; ACTORS];
        self.tails = [0; ACTORS];
        self.tied = [0; ACTORS];
        self.awaited = [0; ACTORS];
    }

    /// Those who await somebody of `left`.
    #[inline]
    fn held(&self, left: u32, actors: usize) -> u32 {
        const BITS: [[u32; 4]; 8] = {
            let mut bits = [[0; 4]; 8];
            let mut actor = 0;
            while actor < ACTORS {
                bits[actor / 4][actor % 4] = 1 << actor;
                actor += 1;
            }
            bits
        };
        let mut held = [0u32; 4];
        for (awaited, bits) in self
            .awaited
            .chunks_exact(4)
            .zip(&BITS)
            .take(actors.div_ceil(4))
        {
            for lane in 0..4 {
                held[lane] |= if awaited[lane] & left == 0 {
                    0
                } else {
                    bits[lane]
                };
            }
        }
        held[0] | held[1] | held[2] | held[3]
    }

    /// The channels of each actor one after the other: the last out of it, and the one before.
    fn lists(&self) -> ([u8; ACTORS], [u8; CHANNELS]) {
        let mut last_out = [NONE; ACTORS];
        let mut before = [NONE; CHANNELS];
        for (index, channel) in self.channels[..self.used].iter().enumerate() {
            before[index] = last_out[channel.tail()];
            last_out[channel.tail()] = index as u8;
        }
        (last_out, before)
    }
}

#[inline]
fn bit(actor: usize) -> u32 {
    1 << (actor & 31)
}

#[inline]
fn lowest(set: u32) -> usize {
    set.trailing_zeros() as usize & 31
}

/// All actors met from `start` along `edges`.
#[inline]
fn spread(edges: &[u32; ACTORS], start: u32) -> u32 {
    let mut met = start;
    let mut todo = start;
    while todo != 0 {
        let new = edges[lowest(todo)] & !met;
        todo = (todo & (todo - 1)) | new;
        met |= new;
    }
    met
}

/// One graph through 6 to 11; on success its numbers and its part of the demand.
fn graph<S: Stretch>(stretch: S, actors: usize, bench: &mut Bench, demand: &mut Demand) -> u64 {
    bench.clear();
    let count = actors as u32;
    let (input, output) = (stretch.fixed(2), stretch.fixed(3));
    let (period, deadline) = (stretch.fixed(4), stretch.fixed(5));
    let mut greatest_actor = input.max(output);
    let (input, output) = (input as usize & 31, output as usize & 31);
    let mut greatest_time = 0;
    for (time, read) in bench.times.iter_mut().zip(stretch.times(actors)) {
        *time = read;
        greatest_time = greatest_time.max(read);
    }
    let mut too_wide = false;
    // 4,096 is a power of two, so the bits of all rates less 1 tell whether one is out of bounds.
    let mut rates = 0;
    let mut blocked = 0;
    let mut stuck = 0;
    bench.used = 0;
    for (index, (channel, wide)) in stretch.channels(actors).enumerate() {
        let (tail, head) = (channel.tail(), channel.head());
        let (tail_bit, head_bit) = (bit(tail), bit(head));
        let (produce, consume, tokens) = (channel.produce(), channel.consume(), channel.tokens());
        too_wide |= wide;
        greatest_actor = greatest_actor
            .max((channel.0 >> 56) as u32)
            .max((channel.0 >> 48) as u32 & 0xFF);
        rates |= produce.wrapping_sub(1) | consume.wrapping_sub(1);
        bench.channels[index & 63] = channel;
        bench.between[tail][head] = index as u8;
        bench.heads[tail] |= head_bit;
        bench.tails[head] |= tail_bit;
        bench.tied[head] |= u32::from(tokens < produce) << tail;
        let blocks = u32::from(tokens < consume) << head;
        blocked |= blocks;
        // A self-loop takes and gives the same, so it has to hold one firing's tokens only.
        stuck |= blocks & tail_bit;
        bench.used = index + 1;
    }
    if too_wide
        || greatest_actor >= count
        || greatest_time > 100_000
        || rates >= 4_096
        || period.wrapping_sub(1) >= TICKS
        || deadline.wrapping_sub(1) >= TICKS
    {
        return 6;
    }
    let all = u32::MAX >> (32 - actors);
    let unskipped = spread(&bench.tied, bit(output));
    if unskipped != all && spread(&bench.tails, unskipped) != all {
        return 7;
    }

    // Repetition numbers from 1 at the input. While every division comes out even these are
    // the true ratios to the input's number, so a number above the bound or a channel that does
    // not agree settles 8.
    // Each actor takes its number from one already looked at, so that this is a single loop.
    let repetition = &mut bench.numbers.repetition;
    repetition[input] = 1;
    bench.met[0] = input as u8;
    let mut known = bit(input);
    let mut todo = bench.heads[input] & !known;
    let mut met = 1;
    while todo != 0 {
        let head = lowest(todo);
        let tail = lowest(bench.tails[head] & known);
        let channel = bench.channels[bench.between[tail][head] as usize & 63];
        let made = repetition[tail] * channel.produce();
        let number = made / channel.consume();
        let even = number * channel.consume() == made;
        if !even || number > 4_096 {
            return unbalanced(bench, input, all, even);
        }
        repetition[head] = number;
        bench.met[met & 31] = head as u8;
        met += 1;
        known |= bit(head);
        todo = (todo | bench.heads[head]) & !known;
    }
    if known != all {
        return 7;
    }
    let mut unequal = 0;
    for channel in &bench.channels[..bench.used] {
        let (tail, head) = (channel.tail(), channel.head());
        let made = repetition[tail] * channel.produce();
        unequal |= made ^ (repetition[head] * channel.consume());
        bench.awaited[head] |= u32::from((channel.tokens() < made) & (tail != head)) << tail;
    }
    if unequal != 0 {
        return 8;
    }
    if repetition[output] != 1 {
        return 9;
    }
    if stuck != 0 {
        return 10;
    }

    // An actor that awaits nobody still left can fire all its firings in one go. Along the
    // channels from the input one round is often enough.
    let mut left = all;
    let mut ordered = 0;
    for actor in bench.met[..actors].iter().map(|actor| *actor as usize & 31) {
        let goes = u32::from(bench.awaited[actor] & left == 0);
        bench.order[ordered & 63] = actor as u8;
        ordered += goes as usize;
        left &= !(goes << actor);
    }
    bench.ordered = ordered;
    bench.depth = 0;
    while left != 0 {
        let mut held = bench.held(left, actors);
        if held == left {
            if !completes(
                left,
                &bench.numbers.repetition,
                &bench.channels[..bench.used],
            ) {
                return 10;
            }
            held = 0;
        }
        bench.layers[bench.depth & 31] = left & !held;
        bench.depth += 1;
        left = held;
    }
    if blocked | bit(input) != all {
        return 11;
    }

    bench.lagging = unskipped != all;
    let mut work = 0;
    for actor in 0..actors {
        work += u64::from(bench.times[actor]) * u64::from(bench.numbers.repetition[actor]);
    }
    let mut part = Part::new(period, deadline, work);
    if bench.lagging {
        let mut lagging = all & !unskipped;
        skips(bench, actors, lagging);
        while lagging != 0 {
            let actor = lowest(lagging);
            lagging &= lagging - 1;
            let number = bench.numbers.repetition[actor];
            demand.add_lag(
                &mut part,
                bench.times[actor],
                number,
                bench.numbers.skip[actor],
            );
        }
    }
    demand.push(part);
    0
}

/// The skips of the actors in `lagging`; all others have 0.
fn skips(bench: &mut Bench, actors: usize, lagging: u32) {
    let (last_out, before) = bench.lists();
    let Bench {
        numbers,
        channels,
        tails,
        ..
    } = bench;
    let skip = &mut numbers.skip;
    for actor in 0..actors {
        skip[actor] = if lagging & bit(actor) != 0 {
            u64::MAX
        } else {
            0
        };
    }
    let mut todo = lagging;
    let mut look = |actor: usize, todo: &mut u32| {
        *todo &= !bit(actor);
        let mut least = skip[actor];
        let mut at = last_out[actor];
        while at != NONE {
            let channel = channels[at as usize & 63];
            let beyond = skip[channel.head()];
            if beyond != u64::MAX {
                let tokens = u64::from(channel.tokens()) + beyond * u64::from(channel.consume());
                least = least.min(if tokens >> 32 == 0 {
                    u64::from(tokens as u32 / channel.produce())
                } else {
                    tokens / u64::from(channel.produce())
                });
            }
            at = before[at as usize & 63];
        }
        if least < skip[actor] {
            skip[actor] = least;
            *todo |= tails[actor] & lagging & !bit(actor);
        }
    };
    // Heads before tails, so that only channels against the order cause a second look.
    while todo != 0 {
        for layer in bench.layers[..bench.depth].iter().rev() {
            let mut scan = *layer;
            while scan & todo != 0 {
                let actor = lowest(scan & todo);
                scan &= !bit(actor);
                look(actor, &mut todo);
            }
        }
        for actor in bench.order[..bench.ordered]
            .iter()
            .rev()
            .map(|actor| *actor as usize & 31)
        {
            if todo & bit(actor) != 0 {
                look(actor, &mut todo);
            }
        }
    }
}

/// 7, 8 or 9 where the repetition numbers do not come out whole from 1 at the input.
#[cold]
fn unbalanced(bench: &Bench, input: usize, all: u32, even: bool) -> u64 {
    if spread(&bench.heads, bit(input)) != all {
        return 7;
    }
    if even {
        return 8;
    }
    // The ratios to the input's number in lowest terms. A balanced vector within the bound
    // needs both sides of each within it, and their denominators' least common multiple.
    let (last_out, before) = bench.lists();
    let mut ratio = [(0u32, 1u32); ACTORS];
    ratio[input] = (1, 1);
    let mut known = bit(input);
    let mut todo = known;
    let mut multiple = 1;
    while todo != 0 {
        let tail = lowest(todo);
        todo &= todo - 1;
        let mut at = last_out[tail];
        while at != NONE {
            let channel = bench.channels[at as usize & 63];
            let head = channel.head();
            let above = u64::from(ratio[tail].0) * u64::from(channel.produce());
            let below = u64::from(ratio[tail].1) * u64::from(channel.consume());
            let common = gcd(above, below);
            let (above, below) = (above / common, below / common);
            if known & bit(head) == 0 {
                if above > 4_096 || below > 4_096 {
                    return 8;
                }
                ratio[head] = (above as u32, below as u32);
                known |= bit(head);
                todo |= bit(head);
                multiple = multiple / gcd(multiple, below) * below;
                if multiple > 4_096 {
                    return 8;
                }
            } else if (u64::from(ratio[head].0), u64::from(ratio[head].1)) != (above, below) {
                return 8;
            }
            at = before[at as usize & 63];
        }
    }
    let above_bound = ratio
        .iter()
        .any(|(above, below)| u64::from(*above) * multiple / u64::from(*below) > 4_096);
    if above_bound {
        8
    } else {
        9
    }
}

pub fn gcd(mut a: u64, mut b: u64) -> u64 {
    while b != 0 {
        (a, b) = (b, a % b);
    }
    a
}

/// Whether a channel within `set` does not hold the tokens of all its head's firings.
#[inline]
fn holds_up(channel: &Channel, set: u32, repetition: &[u32; ACTORS]) -> bool {
    let ends = bit(channel.tail()) | bit(channel.head());
    channel.tail() != channel.head()
        && set & ends == ends
        && channel.tokens() < repetition[channel.tail()] * channel.produce()
}

/// Whether the actors of `set` can all fire their numbers, everybody else being ready to do so
/// at once. Channels that hold the tokens of all those firings are left out; what then hangs
/// together in cycles is looked at by itself, and needs only its own least balanced share:
/// after that its tokens are as before, and an order for several shares begins with one.
#[cold]
fn completes(set: u32, repetition: &[u32; ACTORS], channels: &[Channel]) -> bool {
    let mut heads = [0u32; ACTORS];
    let mut tails = [0u32; ACTORS];
    for channel in channels
        .iter()
        .filter(|channel| holds_up(channel, set, repetition))
    {
        heads[channel.tail()] |= bit(channel.head());
        tails[channel.head()] |= bit(channel.tail());
    }
    let mut left = set;
    loop {
        let mut scan = left;
        let earlier = left;
        while scan != 0 {
            let actor = lowest(scan);
            scan &= scan - 1;
            if tails[actor] & left == 0 || heads[actor] & left == 0 {
                left &= !bit(actor);
            }
        }
        if left == earlier {
            break;
        }
    }
    while left != 0 {
        let start = bit(lowest(left));
        let knot = spread(&heads, start) & spread(&tails, start);
        left &= !knot;
        if knot.count_ones() == 1 {
            continue;
        }
        let mut share = *repetition;
        let mut common = 0;
        let mut scan = knot;
        while scan != 0 {
            common = gcd(u64::from(share[lowest(scan)]), common);
            scan &= scan - 1;
        }
        for number in &mut share {
            *number /= common as u32;
        }
        let fine = if common > 1 || knot != set {
            completes(knot, &share, channels)
        } else {
            ample(knot, &share, channels) || knot.count_ones() > 2 && trial(knot, &share, channels)
        };
        if !fine {
            return false;
        }
    }
    true
}

/// A sufficient test. If the run got stuck, every actor still short would wait on a channel with
/// at most consume - gcd tokens (counted in whole gcds) from another one still short: a cycle of
/// such channels. The tokens of a cycle, each channel's divided by its tokens per repetition,
/// never change; so if they add up to more than that on every cycle, nothing gets stuck. Between
/// two actors it is also necessary: their rates in lowest terms have no common divisor, so every
/// split of the tokens between the two channels comes up.
fn ample(set: u32, repetition: &[u32; ACTORS], channels: &[Channel]) -> bool {
    // Far above the rounding of a sum of 32 terms, far below 1 / (4,096 x 4,096).
    const MARGIN: f64 = 1e-11;
    let mut edges = [(0u8, 0u8, 0f64); CHANNELS];
    let mut count = 0;
    for channel in channels
        .iter()
        .filter(|channel| holds_up(channel, set, repetition))
    {
        let made = repetition[channel.tail()] * channel.produce();
        let common = gcd(u64::from(channel.produce()), u64::from(channel.consume())) as i64;
        let tokens = i64::from(channel.tokens()) / common * common;
        let spare = tokens - i64::from(channel.consume()) + common;
        edges[count] = (
            channel.tail() as u8,
            channel.head() as u8,
            spare as f64 / f64::from(made) - MARGIN,
        );
        count += 1;
    }
    let mut least = [0f64; ACTORS];
    for _ in 0..=set.count_ones() {
        let mut changed = false;
        for (tail, head, spare) in &edges[..count] {
            let along = least[*tail as usize & 31] + spare;
            if along < least[*head as usize & 31] {
                least[*head as usize & 31] = along;
                changed = true;
            }
        }
        if !changed {
            return true;
        }
    }
    false
}

/// The trial run in batches: an actor is visited only after one of its channels has gained
/// tokens, and then fires as often as it can.
fn trial(set: u32, repetition: &[u32; ACTORS], channels: &[Channel]) -> bool {
    #[derive(Clone, Copy, Default)]
    struct Held {
        tail: u8,
        head: u8,
        produce: u32,
        consume: u32,
        tokens: u32,
    }
    let mut held = [Held::default(); CHANNELS];
    let mut count = 0;
    for channel in channels
        .iter()
        .filter(|channel| holds_up(channel, set, repetition))
    {
        held[count] = Held {
            tail: channel.tail() as u8,
            head: channel.head() as u8,
            produce: channel.produce(),
            consume: channel.consume(),
            tokens: channel.tokens(),
        };
        count += 1;
    }
    // Channel numbers by head and by tail, each actor's in one run.
    let mut into = [0u8; CHANNELS];
    let mut into_from = [0u8; ACTORS + 1];
    let mut out = [0u8; CHANNELS];
    let mut out_from = [0u8; ACTORS + 1];
    let (mut filled_in, mut filled_out) = (0, 0);
    for actor in 0..ACTORS {
        for (index, channel) in held[..count].iter().enumerate() {
            if channel.head as usize == actor {
                into[filled_in] = index as u8;
                filled_in += 1;
            }
            if channel.tail as usize == actor {
                out[filled_out] = index as u8;
                filled_out += 1;
            }
        }
        into_from[actor + 1] = filled_in as u8;
        out_from[actor + 1] = filled_out as u8;
    }

    let mut short = *repetition;
    let mut todo = set;
    let mut unfinished = set;
    let mut from = 0;
    while todo != 0 {
        counted::visit();
        // The next one round from the last: a ring is then followed along its tokens.
        let ahead = todo >> from << from;
        let actor = lowest(if ahead != 0 { ahead } else { todo });
        from = actor as u32;
        todo &= !bit(actor);
        let mut firings = short[actor];
        let ins = &into[into_from[actor] as usize..into_from[actor + 1] as usize];
        for index in ins {
            let channel = &held[*index as usize & 63];
            if channel.tokens < firings * channel.consume {
                firings = channel.tokens / channel.consume;
            }
        }
        if firings == 0 {
            continue;
        }
        for index in ins {
            let channel = &mut held[*index as usize & 63];
            channel.tokens -= firings * channel.consume;
        }
        for index in &out[out_from[actor] as usize..out_from[actor + 1] as usize] {
            let channel = &mut held[*index as usize & 63];
            channel.tokens += firings * channel.produce;
            todo |= bit(channel.head as usize) & unfinished;
        }
        short[actor] -= firings;
        if short[actor] == 0 {
            unfinished &= !bit(actor);
            todo &= unfinished;
        }
    }
    unfinished == 0
}

/// Where one graph's stretch begins and ends, and its actor count.
type Place = (usize, usize, usize);
type Walked = Result<(usize, [Place; 8]), Refusal>;

/// Lines 3 to 5: `field` reads a count, `spans` is what six fixed fields, an actor and a channel
/// take up.
#[inline]
fn walk(size: usize, first: usize, field: impl Fn(usize) -> usize, spans: [usize; 3]) -> Walked {
    let refuse = |answer, place: usize| {
        Err(Refusal {
            answer,
            place: place as u64,
        })
    };
    let count = if first < size { field(first) } else { 0 };
    if count.wrapping_sub(1) >= 8 {
        return refuse(3, 0);
    }
    let mut places = [(0, 0, 0); 8];
    let mut at = first + 1;
    for (place, stretch) in places[..count].iter_mut().enumerate() {
        if size - at < spans[0] {
            return refuse(4, place);
        }
        let (actors, channels) = (field(at), field(at + 1));
        if actors.wrapping_sub(1) >= ACTORS || channels > CHANNELS {
            return refuse(5, place);
        }
        let end = at + spans[0] + spans[1] * actors + spans[2] * channels;
        if size < end {
            return refuse(4, place);
        }
        *stretch = (at, end, actors);
        at = end;
    }
    if at != size {
        return refuse(4, count);
    }
    Ok((count, places))
}

fn walk_bytes(sheet: &[u8]) -> Walked {
    if sheet.len() < 4 || usize::from(u16::from_be_bytes([sheet[0], sheet[1]])) != sheet.len() {
        return Err(Refusal {
            answer: 1,
            place: 0,
        });
    }
    if sheet[2] != 1 {
        return Err(Refusal {
            answer: 2,
            place: 0,
        });
    }
    walk(sheet.len(), 3, |at| sheet[at] as usize, [12, 4, 8])
}

fn walk_list(list: &[u32]) -> Walked {
    walk(list.len(), 0, |at| list[at] as usize, [6, 1, 5])
}

/// 12 and the verdict, from the periods of every graph and the parts of those with work.
fn conclude(demand: &Demand) -> Result<(u64, u64), Refusal> {
    let mut frame = 1u64;
    for period in demand.periods() {
        if frame % period != 0 {
            frame = frame / gcd(frame, period) * period;
            if frame > u64::from(TICKS) {
                return Err(Refusal {
                    answer: 12,
                    place: 0,
                });
            }
        }
    }
    Ok((frame, demand.load(frame)))
}

fn verdict(demand: &Demand) -> Verdict {
    match conclude(demand) {
        Err(refusal) => Verdict::refused(refusal.answer, refusal.place),
        Ok((frame, load)) => {
            let given = |answer, length| Verdict {
                answer,
                place: 0,
                load,
                frame,
                length,
            };
            if load > frame {
                return given(20, 0);
            }
            demand
                .smallest_late(frame, load, Looks::Fair)
                .map_or(given(0, 0), |length| given(21, length))
        }
    }
}

thread_local! {
    /// Kept from sheet to sheet: clearing these eight kilobytes each time would show.
    static WORK: RefCell<(Bench, Demand)> = RefCell::new((Bench::new(), Demand::new()));
}

#[inline]
fn judge_walked<'a, T, S: Stretch>(
    whole: &'a [T],
    walked: Walked,
    stretch: impl Fn(&'a [T]) -> S,
) -> Verdict {
    let (count, stretches) = match walked {
        Ok(walked) => walked,
        Err(refusal) => return Verdict::refused(refusal.answer, refusal.place),
    };
    WORK.with(|work| {
        let (bench, demand) = &mut *work.borrow_mut();
        demand.clear();
        for (place, (from, end, actors)) in stretches[..count].iter().enumerate() {
            let answer = graph(stretch(&whole[*from..*end]), *actors, bench, demand);
            if answer != 0 {
                return Verdict::refused(answer, place as u64);
            }
        }
        verdict(demand)
    })
}

pub fn judge(sheet: &[u8]) -> Verdict {
    judge_walked(sheet, walk_bytes(sheet), Bytes)
}

pub fn judge_list(list: &[u32]) -> Verdict {
    judge_walked(list, walk_list(list), Numbered)
}

/// Everything the verdict rests on, for the questions and for comparison.
pub struct Prepared {
    pub numbers: Vec<Numbers>,
    pub demand: Demand,
    pub frame: u64,
    pub load: u64,
}

pub fn prepare(sheet: &[u8]) -> Result<Prepared, Refusal> {
    let (count, stretches) = walk_bytes(sheet)?;
    let mut demand = Demand::new();
    let mut bench = Bench::new();
    let mut numbers = Vec::new();
    for (place, (from, end, actors)) in stretches[..count].iter().enumerate() {
        let answer = graph(Bytes(&sheet[*from..*end]), *actors, &mut bench, &mut demand);
        if answer != 0 {
            return Err(Refusal {
                answer,
                place: place as u64,
            });
        }
        if !bench.lagging {
            bench.numbers.skip = [0; ACTORS];
        }
        numbers.push(bench.numbers);
    }
    let (frame, load) = conclude(&demand)?;
    Ok(Prepared {
        numbers,
        demand,
        frame,
        load,
    })
}
