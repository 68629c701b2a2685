//! Demand of a whole sheet and the search for the smallest late length, for the fast path.
//!
//! Blocks due, demand and late are document 01's. Lengths, loads and frames stay within 64 bits
//! because they are only compared once the frame load is at most the frame.

use crate::counted;
use crate::fast::gcd;

/// One graph's demand: blocks x `work` - `behind` from `straight` blocks on. Before that the
/// actors that may skip firings (`lags`) come in one by one.
#[derive(Clone, Copy)]
pub struct Part {
    period: u32,
    deadline: u32,
    work: u64,
    even: u64,
    behind: u64,
    straight: u64,
    lags: (u16, u16),
}

impl Part {
    pub fn new(period: u32, deadline: u32, work: u64) -> Part {
        Part {
            period,
            deadline,
            work,
            even: work,
            behind: 0,
            straight: 0,
            lags: (0, 0),
        }
    }

    #[inline]
    fn blocks(&self, length: u32) -> u64 {
        if length < self.deadline {
            0
        } else {
            u64::from((length - self.deadline) / self.period) + 1
        }
    }
}

/// An actor with work and a skip: blocks x `work` - `behind`, or 0 where that is negative.
#[derive(Clone, Copy, Default)]
struct Lag {
    work: u64,
    behind: u64,
}

pub struct Demand {
    parts: [Part; 8],
    /// Parts with work come first.
    busy: usize,
    count: usize,
    lags: [Lag; 256],
    lagging: usize,
}

enum Found {
    Late(u32),
    Clear,
    /// The looks ran out first.
    Unsettled,
}

/// How many looks by leaps may be taken before the search goes on by segments.
#[derive(Clone, Copy)]
pub enum Looks {
    /// Enough for nearly every sheet; after that as many as take about the time that the
    /// segments would.
    Fair,
    Exactly(u32),
}

struct Budget {
    left: u32,
    /// The range searched, as long as more looks may still be granted.
    open: Option<(u32, u32)>,
}

impl Budget {
    #[inline]
    fn spend(&mut self, demand: &Demand) -> bool {
        if self.left == 0 {
            let Some((low, high)) = self.open.take() else {
                return false;
            };
            self.left = demand.looks_for_segments(low, high);
        }
        self.left -= 1;
        true
    }
}

impl Demand {
    pub fn new() -> Demand {
        Demand {
            parts: [Part::new(1, 1, 0); 8],
            busy: 0,
            count: 0,
            lags: [Lag::default(); 256],
            lagging: 0,
        }
    }

    #[inline]
    pub fn clear(&mut self) {
        self.busy = 0;
        self.count = 0;
        self.lagging = 0;
    }

    /// Takes an actor that may skip firings out of the part's even work.
    #[inline]
    pub fn add_lag(&mut self, part: &mut Part, time: u32, repetition: u32, skip: u64) {
        if time == 0 {
            return;
        }
        if part.lags.0 == part.lags.1 {
            part.lags = (self.lagging as u16, self.lagging as u16);
        }
        let work = u64::from(time) * u64::from(repetition);
        let behind = u64::from(time) * skip;
        self.lags[self.lagging & 255] = Lag { work, behind };
        self.lagging += 1;
        part.lags.1 += 1;
        part.even -= work;
        part.behind += behind;
        let whole = if skip >> 31 == 0 {
            u64::from((skip as u32).div_ceil(repetition))
        } else {
            skip.div_ceil(u64::from(repetition))
        };
        part.straight = part.straight.max(whole);
    }

    #[inline]
    pub fn push(&mut self, part: Part) {
        if part.work == 0 {
            self.parts[self.count & 7] = part;
        } else {
            if self.busy != self.count {
                self.parts[self.count & 7] = self.parts[self.busy & 7];
            }
            self.parts[self.busy & 7] = part;
            self.busy += 1;
        }
        self.count += 1;
    }

    pub fn periods(&self) -> impl Iterator<Item = u64> + '_ {
        self.parts[..self.count]
            .iter()
            .map(|part| u64::from(part.period))
    }

    #[inline]
    fn busy(&self) -> &[Part] {
        &self.parts[..self.busy]
    }

    pub fn load(&self, frame: u64) -> u64 {
        self.busy()
            .iter()
            .map(|part| frame / u64::from(part.period) * part.work)
            .sum()
    }

    #[inline]
    fn lags_of(&self, part: &Part) -> &[Lag] {
        &self.lags[part.lags.0 as usize..part.lags.1 as usize]
    }

    #[inline]
    pub fn at(&self, length: u32) -> u64 {
        counted::looks(1);
        let mut demand = 0;
        for part in self.busy() {
            let blocks = part.blocks(length);
            if blocks >= part.straight {
                demand += blocks * part.work - part.behind;
            } else {
                demand += blocks * part.even;
                for lag in self.lags_of(part) {
                    demand += (blocks * lag.work).saturating_sub(lag.behind);
                }
            }
        }
        demand
    }

    /// The greatest late length from `low` to `high`. Where demand is at most the length, no
    /// length above that demand is late, so the next look can be taken there.
    fn greatest_late(&self, low: u32, high: u32, looks: &mut Budget) -> Found {
        let mut length = high;
        while length >= low {
            let demand = self.at(length);
            if demand > u64::from(length) {
                return Found::Late(length);
            }
            if !looks.spend(self) {
                return Found::Unsettled;
            }
            length = if demand < u64::from(length) {
                demand as u32
            } else {
                length - 1
            };
        }
        Found::Clear
    }

    /// The last length up to `length` at which a block falls due; demand stays from there on.
    fn rise(&self, length: u32) -> u32 {
        let due = self.busy().iter().filter(|part| part.deadline <= length);
        due.map(|part| length - (length - part.deadline) % part.period)
            .max()
            .unwrap_or(length)
    }

    /// For a frame load of at most the frame. The result does not depend on `looks`.
    pub fn smallest_late(&self, frame: u64, load: u64, looks: Looks) -> Option<u64> {
        // Demand is at most (load x length + ahead) / frame: a straight line.
        let ahead: u64 = self
            .busy()
            .iter()
            .map(|p| {
                frame / u64::from(p.period)
                    * p.work
                    * u64::from(p.period.saturating_sub(p.deadline))
            })
            .sum();
        if ahead == 0 {
            return None;
        }
        let mut high = frame - 1;
        if load < frame {
            high = high.min((ahead - 1) / (frame - load));
        }
        let low = self.busy().iter().map(|part| part.deadline).min()?;
        if high < u64::from(low) {
            return None;
        }
        let mut high = high as u32;
        let mut looks = match looks {
            Looks::Fair => Budget {
                left: 128,
                open: Some((low, high)),
            },
            Looks::Exactly(left) => Budget { left, open: None },
        };

        match self.greatest_late(low, high, &mut looks) {
            Found::Clear => return None,
            Found::Late(length) => high = self.rise(length),
            Found::Unsettled => return self.by_segments(frame, low, high).map(u64::from),
        }
        // Nothing below `low` is late, and `high` is.
        let mut low = low;
        let mut step = low / 2 + 1;
        let mut doubling = true;
        while low < high {
            let reach = if doubling {
                step.min(high - 1 - low)
            } else {
                (high - 1 - low) / 2
            };
            match self.greatest_late(low, low + reach, &mut looks) {
                Found::Clear => {
                    low += reach + 1;
                    step = step.saturating_mul(2);
                }
                Found::Late(length) => {
                    high = self.rise(length);
                    doubling = false;
                }
                Found::Unsettled => return self.by_segments(frame, low, high).map(u64::from),
            }
        }
        Some(u64::from(high))
    }

    #[cold]
    fn looks_for_segments(&self, low: u32, high: u32) -> u32 {
        let mut periods = [0; 8];
        let periods = &mut periods[..self.busy];
        periods
            .iter_mut()
            .zip(self.busy())
            .for_each(|(period, part)| *period = part.period);
        periods.sort_unstable();
        let (cost, _, _) = cheapest_split(periods, u64::from(high - low) + 1);
        (cost / (4 * self.busy as u64)).clamp(1, 1 << 30) as u32
    }

    /// The smallest late length from `low` to `high`, stretch by stretch: from one length at
    /// which a graph or an actor comes in to the next, each graph's demand is a straight line in
    /// its blocks.
    #[cold]
    fn by_segments(&self, frame: u64, low: u32, high: u32) -> Option<u32> {
        let first =
            |part: &Part, blocks: u64| u64::from(part.deadline) + blocks * u64::from(part.period);
        let mut bounds = vec![u64::from(low), u64::from(high) + 1];
        for part in self.busy() {
            bounds.push(first(part, 0));
            bounds.extend(
                self.lags_of(part)
                    .iter()
                    .map(|lag| first(part, lag.behind / lag.work)),
            );
        }
        bounds.retain(|length| (u64::from(low)..=u64::from(high) + 1).contains(length));
        bounds.sort_unstable();
        bounds.dedup();

        for pair in bounds.windows(2) {
            let (from, mut end) = (pair[0], pair[1]);
            let mut lines = Vec::with_capacity(8);
            let mut behind = 0;
            for part in self.busy() {
                let blocks = part.blocks(from as u32);
                let mut work = if blocks > 0 { part.even } else { 0 };
                for lag in self.lags_of(part) {
                    if blocks * lag.work > lag.behind {
                        work += lag.work;
                        behind += lag.behind as i64;
                    }
                }
                if work > 0 {
                    lines.push(Line {
                        period: part.period,
                        deadline: part.deadline,
                        work: work as i64,
                    });
                }
            }
            // frame x demand is at most slope x length + ahead.
            let mut slope = 0;
            let mut ahead = -i128::from(behind) * i128::from(frame);
            for line in &lines {
                let per_frame = frame / u64::from(line.period) * line.work as u64;
                slope += per_frame;
                ahead +=
                    i128::from(per_frame) * (i128::from(line.period) - i128::from(line.deadline));
            }
            if ahead <= 0 {
                continue;
            }
            if slope < frame {
                let last = (ahead - 1) / i128::from(frame - slope);
                end = (last + 1).min(i128::from(end)) as u64;
            }
            if end > from {
                if let Some(length) = first_late(&mut lines, behind, from as u32, end as u32) {
                    return Some(length);
                }
            }
        }
        None
    }
}

/// A graph whose blocks due times `work` is its demand, up to a constant.
struct Line {
    period: u32,
    deadline: u32,
    work: i64,
}

impl Line {
    fn blocks(&self, length: u32) -> i64 {
        i64::from((length - self.deadline) / self.period) + 1
    }
}

/// How many of the shortest periods go into the table of `first_late`, over `span` lengths: the
/// cost, about in nanoseconds, that number, and their least common multiple.
fn cheapest_split(periods: &[u32], span: u64) -> (u64, usize, u64) {
    let mut best = (u64::MAX, 0, 1);
    let mut cycle = 1u64;
    for short in 0..=periods.len() {
        if short > 0 {
            let period = u64::from(periods[short - 1]);
            cycle = cycle / gcd(cycle, period) * period;
            if cycle > 1 << 20 || cycle > span {
                break;
            }
        }
        let longest = periods
            .get(short)
            .map_or(span, |period| u64::from(*period))
            .min(cycle);
        let levels = u64::from(longest.ilog2()) + 1;
        let rises: u64 = periods[short..]
            .iter()
            .map(|period| span / u64::from(*period) + 1)
            .sum();
        let cost =
            (cycle + longest) * (levels + 1) + rises * (8 + 2 * (periods.len() - short) as u64);
        if cost < best.0 {
            best = (cost, short, cycle);
        }
    }
    best
}

/// The smallest length from `from` to below `end` at which the lines' sum less `behind` is above
/// the length. The graphs of short periods repeat together after their least common multiple: a
/// table holds how far they are above the length at every phase, and the greatest of it over any
/// run. Then only the rises of the graphs of long periods have to be visited.
fn first_late(lines: &mut [Line], behind: i64, from: u32, end: u32) -> Option<u32> {
    lines.sort_unstable_by_key(|line| line.period);
    let span = u64::from(end - from);

    let periods: Vec<u32> = lines.iter().map(|line| line.period).collect();
    let (_, short, cycle) = cheapest_split(&periods, span);
    let (shorts, longs) = lines.split_at(short);

    let longest = longs
        .first()
        .map_or(span, |line| u64::from(line.period))
        .min(cycle) as usize;
    let cycle = cycle as usize;
    // Over one cycle the short graphs gain at most as much as the length does.
    let drift: i64 = shorts
        .iter()
        .map(|line| line.work * (cycle as i64 / i64::from(line.period)))
        .sum::<i64>()
        - cycle as i64;
    let size = cycle + longest;
    counted::looks(size);
    let mut above = vec![-1i64; size];
    above[0] = shorts
        .iter()
        .map(|line| line.work * line.blocks(from))
        .sum::<i64>()
        - i64::from(from);
    for line in shorts {
        let mut at = (line.period - (from - line.deadline) % line.period) as usize;
        while at < size {
            above[at] += line.work;
            at += line.period as usize;
        }
    }
    for at in 1..size {
        above[at] += above[at - 1];
    }
    // Level n holds the greatest over a run of 2^n.
    let mut levels = vec![above];
    while 2 << (levels.len() - 1) <= longest {
        let half = 1 << (levels.len() - 1);
        let last = &levels[levels.len() - 1];
        let level = (0..last.len() - half)
            .map(|at| last[at].max(last[at + half]))
            .collect();
        levels.push(level);
    }

    let mut next: Vec<u32> = longs
        .iter()
        .map(|line| from + line.period - (from - line.deadline) % line.period)
        .collect();
    let mut fixed = longs
        .iter()
        .map(|line| line.work * line.blocks(from))
        .sum::<i64>()
        - behind;
    let mut length = from;
    loop {
        counted::looks(1);
        let until = next.iter().copied().min().unwrap_or(end).min(end);
        let run = ((until - length) as usize).min(longest);
        let past = (length - from) as usize;
        let (rounds, phase) = (past / cycle, past % cycle);
        let base = fixed + rounds as i64 * drift;
        let level = run.ilog2() as usize;
        let greatest = levels[level][phase].max(levels[level][phase + run - (1 << level)]);
        if base + greatest > 0 {
            let at = levels[0][phase..]
                .iter()
                .position(|above| base + above > 0)?;
            return Some(length + at as u32);
        }
        if until == end {
            return None;
        }
        length = until;
        for (rise, line) in next.iter_mut().zip(longs) {
            if *rise == length {
                *rise += line.period;
                fixed += line.work;
            }
        }
    }
}
