//! The judgement as document 01 words it, for both forms of a sheet.
//!
//! Every function takes `fault`: 0 judges by the rules, another number makes the error of that
//! number in wrong.rs.

use crate::answer::{Refusal, Verdict};
use crate::wrong::*;

pub const MOST_GRAPHS: i64 = 8;
pub const MOST_ACTORS: i64 = 32;
pub const MOST_CHANNELS: i64 = 64;
pub const MOST_TICKS: i64 = 10_000_000;
pub const MOST_TIME: i64 = 100_000;
pub const MOST_RATE: i64 = 4_096;
pub const MOST_TOKENS: i64 = 65_535;
pub const MOST_REPETITION: i64 = 4_096;
pub const MOST_FRAME: i64 = 10_000_000;

#[derive(Clone, Debug, PartialEq)]
pub struct Channel {
    pub tail: usize,
    pub head: usize,
    pub produce: i64,
    pub consume: i64,
    pub tokens: i64,
}

#[derive(Clone, Debug, PartialEq)]
pub struct Graph {
    pub input: usize,
    pub output: usize,
    pub period: i64,
    pub deadline: i64,
    pub times: Vec<i64>,
    pub channels: Vec<Channel>,
}

/// A sheet that passed lines 1 to 12 of the answer table.
pub struct Judged {
    pub graphs: Vec<Graph>,
    pub repetition: Vec<Vec<i64>>,
    pub skips: Vec<Vec<i64>>,
    pub frame: i64,
}

#[derive(Clone, Copy)]
pub enum Form<'a> {
    Sheet(&'a [u8]),
    List(&'a [u32]),
}

impl Form<'_> {
    /// Bytes of the sheet, or numbers of the list.
    fn size(&self) -> usize {
        match self {
            Form::Sheet(bytes) => bytes.len(),
            Form::List(list) => list.len(),
        }
    }

    /// How much of the input `fields` fields of `bytes` bytes together take up.
    fn span(&self, fields: usize, bytes: usize) -> usize {
        match self {
            Form::Sheet(_) => bytes,
            Form::List(_) => fields,
        }
    }

    /// The field at `at`, `width` bytes wide in the sheet and one number in the list.
    fn take(&self, at: &mut usize, width: usize) -> i64 {
        match self {
            Form::Sheet(bytes) => {
                let field = &bytes[*at..*at + width];
                *at += width;
                field
                    .iter()
                    .fold(0, |value, byte| value << 8 | i64::from(*byte))
            }
            Form::List(list) => {
                *at += 1;
                i64::from(list[*at - 1])
            }
        }
    }
}

/// Lines 1 to 12, in document 01's order.
pub fn check(form: Form, fault: u32) -> Result<Judged, Refusal> {
    let refuse = |answer: u64, place: usize| {
        let place = match fault {
            PLACE_NOUGHT => 0,
            PLACE_FROM_ONE if (4..=11).contains(&answer) => place + 1,
            _ => place,
        };
        Err(Refusal {
            answer,
            place: place as u64,
        })
    };

    let mut at = 0;
    match form {
        Form::Sheet(bytes) => {
            if bytes.len() < 4 {
                return refuse(1, 0);
            }
            let length = form.take(&mut at, 2) as usize;
            if length != bytes.len() && !(fault == LENGTH_ONLY_SHORT && length < bytes.len()) {
                return refuse(1, 0);
            }
            if form.take(&mut at, 1) != 1 && fault != VERSION_UNCHECKED {
                return refuse(2, 0);
            }
        }
        Form::List(list) => {
            if list.is_empty() {
                return refuse(3, 0);
            }
        }
    }
    let most_graphs = match fault {
        SEVEN_GRAPHS => MOST_GRAPHS - 1,
        NINE_GRAPHS => MOST_GRAPHS + 1,
        _ => MOST_GRAPHS,
    };
    let count = form.take(&mut at, 1);
    if count < 1 || count > most_graphs {
        return refuse(3, 0);
    }
    let count = count as usize;

    // The first walk: 4 and 5.
    let mut starts = Vec::new();
    for place in 0..count {
        starts.push(at);
        if form.size() - at < form.span(6, 12) {
            return refuse(4, place);
        }
        let mut ahead = at;
        let actors = form.take(&mut ahead, 1);
        let channels = form.take(&mut ahead, 1);
        let actors_fit = (1..=MOST_ACTORS).contains(&actors)
            && !(fault == ACTORS_BELOW_32 && actors == MOST_ACTORS)
            || fault == NO_ACTORS && actors == 0;
        let channels_fit = (0..=MOST_CHANNELS).contains(&channels)
            && !(fault == CHANNELS_BELOW_64 && channels == MOST_CHANNELS);
        if !(actors_fit && channels_fit) && fault != REST_BEFORE_SIZE {
            return refuse(5, place);
        }
        let (actors, channels) = (actors as usize, channels as usize);
        at += form.span(6, 12);
        let rest = form.span(actors + 5 * channels, 4 * actors + 8 * channels);
        if form.size() - at < rest {
            return refuse(4, place);
        }
        if !(actors_fit && channels_fit) {
            return refuse(5, place);
        }
        at += rest;
    }
    if at != form.size() && fault != LEFT_OVER_IGNORED {
        return refuse(
            4,
            if fault == LEFT_OVER_AT_LAST {
                count - 1
            } else {
                count
            },
        );
    }

    // The second walk: each graph through 6 to 11 before the next.
    let graphs: Vec<Graph> = starts
        .iter()
        .map(|start| read(form, *start, fault))
        .collect();
    let mut order: Vec<(usize, u64)> = (0..count)
        .flat_map(|place| (6..=11).map(move |line| (place, line)))
        .collect();
    match fault {
        FIRST_GRAPH_ONLY => order.retain(|(place, line)| *place == 0 || *line == 6),
        RANGE_OF_ALL_FIRST => order.sort_by_key(|(_, line)| *line != 6),
        FRAME_BEFORE_GRAPHS => {
            order.sort_by_key(|(_, line)| *line != 6);
            order.insert(count, (0, 12));
        }
        BALANCE_BEFORE_REACH => {
            order.sort_by_key(|(p, line)| (*p, [0, 2, 1, 3, 4, 5][*line as usize - 6]))
        }
        RESTLESS_BEFORE_DEADLOCK => {
            order.sort_by_key(|(p, line)| (*p, [0, 1, 2, 3, 5, 4][*line as usize - 6]))
        }
        _ => {}
    }
    let mut repetition: Vec<Vec<i64>> = graphs.iter().map(|g| vec![1; g.times.len()]).collect();
    for (place, line) in order {
        let graph = &graphs[place];
        let numbers = &mut repetition[place];
        let refused = match line {
            6 => !in_range(graph, fault),
            7 => !all_reach(graph, fault),
            8 => match least_balanced(graph, fault) {
                Some(found) => {
                    *numbers = found;
                    false
                }
                None => true,
            },
            9 => {
                numbers[graph.input] != 1 && fault != ONCE_OUTPUT_ONLY
                    || numbers[graph.output] != 1 && fault != ONCE_INPUT_ONLY
            }
            10 => deadlocked(graph, numbers, fault),
            11 => restless(graph, fault),
            _ => frame(&graphs, fault).is_none(),
        };
        if refused {
            return refuse(line, place);
        }
    }

    let Some(frame) = frame(&graphs, fault) else {
        return refuse(12, 0);
    };
    let skips = graphs
        .iter()
        .map(|graph| skip_numbers(graph, fault))
        .collect();
    Ok(Judged {
        graphs,
        repetition,
        skips,
        frame,
    })
}

/// The fields of the graph whose stretch begins at `start`.
fn read(form: Form, start: usize, fault: u32) -> Graph {
    let mut at = start;
    let actors = form.take(&mut at, 1) as usize;
    let channels = form.take(&mut at, 1);
    let input = form.take(&mut at, 1) as usize;
    let output = form.take(&mut at, 1) as usize;
    let period = form.take(&mut at, 4);
    let deadline = form.take(&mut at, 4);
    let times = (0..actors).map(|_| form.take(&mut at, 4)).collect();
    let channels = (0..channels)
        .map(|_| {
            let mut channel = Channel {
                tail: form.take(&mut at, 1) as usize,
                head: form.take(&mut at, 1) as usize,
                produce: form.take(&mut at, 2),
                consume: form.take(&mut at, 2),
                tokens: form.take(&mut at, 2),
            };
            match fault {
                RATES_ONE_BYTE => {
                    channel.produce &= 0xFF;
                    channel.consume &= 0xFF;
                }
                TOKENS_ONE_BYTE => channel.tokens &= 0xFF,
                TOKENS_SIGNED => channel.tokens = i64::from(channel.tokens as u16 as i16),
                _ => {}
            }
            channel
        })
        .collect();
    // With this error the number stands for the last actor, so that judging can go on.
    let output = if fault == OUTPUT_AT_COUNT && output == actors {
        actors.max(1) - 1
    } else {
        output
    };
    Graph {
        input,
        output,
        period,
        deadline,
        times,
        channels,
    }
}

/// 6: every other field within its bounds.
fn in_range(graph: &Graph, fault: u32) -> bool {
    let actors = graph.times.len();
    let most_period = if fault == TICKS_BELOW {
        MOST_TICKS - 1
    } else {
        MOST_TICKS
    };
    let most_time = if fault == TIME_BELOW {
        MOST_TIME - 1
    } else {
        MOST_TIME
    };
    let most_rate = if fault == RATE_BELOW {
        MOST_RATE - 1
    } else {
        MOST_RATE
    };
    let least_deadline = if fault == DEADLINE_NOUGHT { 0 } else { 1 };
    graph.input < actors
        && graph.output < actors
        && (1..=most_period).contains(&graph.period)
        && (least_deadline..=MOST_TICKS).contains(&graph.deadline)
        && graph
            .times
            .iter()
            .all(|time| (0..=most_time).contains(time))
        && graph.channels.iter().all(|channel| {
            channel.tail < actors
                && channel.head < actors
                && (1..=most_rate).contains(&channel.produce)
                && (1..=most_rate).contains(&channel.consume)
                && (0..=MOST_TOKENS).contains(&channel.tokens)
        })
}

/// 7: from the input to every actor, and from every actor to the output, along channels.
fn all_reach(graph: &Graph, fault: u32) -> bool {
    let spread = |start: usize, forward: bool| {
        let mut reached = vec![false; graph.times.len()];
        reached[start] = true;
        loop {
            let before = reached.clone();
            for channel in &graph.channels {
                let (from, to) = if forward {
                    (channel.tail, channel.head)
                } else {
                    (channel.head, channel.tail)
                };
                reached[to] |= reached[from];
                if fault == REACH_EITHER_WAY {
                    reached[from] |= reached[to];
                }
            }
            if reached == before {
                return reached.iter().all(|actor| *actor);
            }
        }
    };
    (spread(graph.input, true) || fault == REACH_TO_OUTPUT_ONLY)
        && (spread(graph.output, false) || fault == REACH_FROM_INPUT_ONLY)
}

/// 8: the least balanced vector, found by trying 1, 2, 3 and so on for the input. The other
/// numbers follow from the input's, because 7 has shown the graph to hang together.
fn least_balanced(graph: &Graph, fault: u32) -> Option<Vec<i64>> {
    let most = if fault == REPETITION_BELOW {
        MOST_REPETITION - 1
    } else {
        MOST_REPETITION
    };

    // The channels that first come upon each actor, and whether they do so at their head.
    let mut tree = Vec::new();
    let mut met = vec![false; graph.times.len()];
    met[graph.input] = true;
    loop {
        let before = tree.len();
        for channel in &graph.channels {
            if met[channel.tail] != met[channel.head] {
                tree.push((channel, met[channel.tail]));
                met[channel.tail] = true;
                met[channel.head] = true;
            }
        }
        if tree.len() == before {
            break;
        }
    }

    'tries: for first in 1..=most {
        let mut numbers = vec![1; graph.times.len()];
        numbers[graph.input] = first;
        for (channel, at_head) in &tree {
            let (known, times, by, found) = if *at_head {
                (channel.tail, channel.produce, channel.consume, channel.head)
            } else {
                (channel.head, channel.consume, channel.produce, channel.tail)
            };
            let tokens = numbers[known] * times;
            // A greater number for the input makes every other number greater still.
            if tokens > most * by {
                return None;
            }
            if tokens % by != 0 {
                continue 'tries;
            }
            numbers[found] = tokens / by;
        }
        let balanced = graph
            .channels
            .iter()
            .all(|c| numbers[c.tail] * c.produce == numbers[c.head] * c.consume);
        if balanced || fault == BALANCE_TREE_ONLY {
            return Some(numbers);
        }
    }
    None
}

fn holds_enough(tokens: i64, consume: i64, fault: u32) -> bool {
    if fault == ENABLED_ABOVE {
        tokens > consume
    } else {
        tokens >= consume
    }
}

/// 10: whether the trial run ends before every actor has fired its repetition number of times.
fn deadlocked(graph: &Graph, repetition: &[i64], fault: u32) -> bool {
    if fault == TOKENLESS_CYCLES {
        return tokenless_cycle(graph);
    }
    let actors = graph.times.len();
    let counts = |index: usize, channel: &Channel| match fault {
        SELF_LOOPS_IGNORED => channel.tail != channel.head,
        INPUT_ALWAYS_ENABLED => channel.head != graph.input,
        PARALLEL_MERGED => !graph.channels[index + 1..]
            .iter()
            .any(|later| later.tail == channel.tail && later.head == channel.head),
        _ => true,
    };
    let mut into = vec![Vec::new(); actors];
    let mut out_of = vec![Vec::new(); actors];
    for (index, channel) in graph.channels.iter().enumerate() {
        if counts(index, channel) {
            into[channel.head].push(index);
            out_of[channel.tail].push(index);
        }
    }

    let mut tokens: Vec<i64> = graph
        .channels
        .iter()
        .map(|channel| channel.tokens)
        .collect();
    let mut fired = vec![0; actors];
    loop {
        let mut any = false;
        for actor in 0..actors {
            let tries = if fault == SINGLE_PASS {
                repetition[actor]
            } else {
                1
            };
            for _ in 0..tries {
                let enough =
                    |e: &usize| holds_enough(tokens[*e], graph.channels[*e].consume, fault);
                if fired[actor] == repetition[actor] || !into[actor].iter().all(enough) {
                    break;
                }
                if fault != TOKENS_KEPT {
                    for e in &into[actor] {
                        tokens[*e] -= graph.channels[*e].consume;
                    }
                }
                for e in &out_of[actor] {
                    tokens[*e] += graph.channels[*e].produce;
                }
                fired[actor] += 1;
                any = true;
            }
        }
        if fired == repetition {
            return false;
        }
        if !any || fault == SINGLE_PASS {
            return true;
        }
    }
}

fn tokenless_cycle(graph: &Graph) -> bool {
    let mut left = vec![true; graph.times.len()];
    loop {
        let free = (0..left.len()).find(|actor| {
            left[*actor]
                && !graph
                    .channels
                    .iter()
                    .any(|c| c.tokens == 0 && c.head == *actor && left[c.tail])
        });
        match free {
            Some(actor) => left[actor] = false,
            None => return left.contains(&true),
        }
    }
}

/// 11: some actor but the input is enabled in the initial tokens.
fn restless(graph: &Graph, fault: u32) -> bool {
    (0..graph.times.len()).any(|actor| {
        let mut into = graph
            .channels
            .iter()
            .filter(|channel| channel.head == actor);
        let enough = |channel: &Channel| holds_enough(channel.tokens, channel.consume, fault);
        let enabled = if fault == RESTLESS_ANY_CHANNEL {
            into.any(enough)
        } else {
            into.all(enough)
        };
        enabled && (actor != graph.input || fault == RESTLESS_INPUT)
    })
}

pub fn gcd(a: i64, b: i64) -> i64 {
    if b == 0 {
        a
    } else {
        gcd(b, a % b)
    }
}

/// 12: the least common multiple of all periods, or nothing above its bound.
fn frame(graphs: &[Graph], fault: u32) -> Option<i64> {
    let most = if fault == FRAME_BOUND_BELOW {
        MOST_FRAME - 1
    } else {
        MOST_FRAME
    };
    let mut frame = 1;
    for graph in graphs {
        frame = match fault {
            FRAME_PRODUCT => frame * graph.period,
            FRAME_GREATEST => frame.max(graph.period),
            _ => frame / gcd(frame, graph.period) * graph.period,
        };
        if frame > most {
            return None;
        }
    }
    Some(frame)
}

/// The greatest vector with 0 at the output and, on every channel, tail's skip at most
/// (tokens + head's skip x consume) / produce. Each estimate starts without a bound and falls
/// until every channel agrees; it never falls below that vector.
fn skip_numbers(graph: &Graph, fault: u32) -> Vec<i64> {
    let mut skip: Vec<Option<i64>> = vec![None; graph.times.len()];
    if fault == SKIP_NONE {
        return vec![0; skip.len()];
    }
    let start = if fault == SKIP_FROM_INPUT {
        graph.input
    } else {
        graph.output
    };
    skip[start] = Some(0);
    loop {
        let before = skip.clone();
        for channel in &graph.channels {
            let (known, times, by, bounded) = match fault {
                SKIP_FROM_INPUT => (channel.tail, channel.produce, channel.consume, channel.head),
                SKIP_RATES_SWAPPED => {
                    (channel.head, channel.produce, channel.consume, channel.tail)
                }
                _ => (channel.head, channel.consume, channel.produce, channel.tail),
            };
            let Some(at_known) = skip[known] else {
                continue;
            };
            let tokens = channel.tokens + at_known * times;
            let most = match fault {
                SKIP_ROUNDED_UP => (tokens + by - 1) / by,
                // Swapped rates have no bound of their own; this one keeps within 64 bits.
                SKIP_RATES_SWAPPED => (tokens / by).min(1 << 40),
                _ => tokens / by,
            };
            if skip[bounded].is_none_or(|now| now > most) {
                skip[bounded] = Some(most);
            }
        }
        if skip == before || fault == SKIP_ONE_ROUND {
            return skip.into_iter().map(|number| number.unwrap_or(0)).collect();
        }
    }
}

pub fn blocks_due(graph: &Graph, length: i64, fault: u32) -> i64 {
    let past = length - graph.deadline;
    match fault {
        DUE_TOWARDS_ZERO => (past / graph.period + 1).max(0),
        DUE_AFTER_DEADLINE if past == 0 => 0,
        DUE_WITHOUT_ONE if past >= 0 => past / graph.period,
        _ if past < 0 => 0,
        _ => past / graph.period + 1,
    }
}

/// The smallest length in which more than `blocks` blocks are due.
fn next_due(graph: &Graph, blocks: i64, fault: u32) -> i64 {
    let due = graph.deadline + blocks * graph.period;
    match fault {
        DUE_TOWARDS_ZERO if blocks == 0 => (due - graph.period + 1).max(0),
        DUE_AFTER_DEADLINE if blocks == 0 => due + 1,
        DUE_WITHOUT_ONE => due + graph.period,
        _ => due,
    }
}

impl Judged {
    pub fn fewest(&self, graph: usize, actor: usize, k: i64, fault: u32) -> i64 {
        let (repetition, skip) = (self.repetition[graph][actor], self.skips[graph][actor]);
        match fault {
            SKIP_EVERY_BLOCK => k * (repetition - skip).max(0),
            FEWEST_NEGATIVE => k * repetition - skip,
            _ => (k * repetition - skip).max(0),
        }
    }

    fn demand_of_blocks(&self, graph: usize, blocks: i64, fault: u32) -> i64 {
        let times = self.graphs[graph].times.iter().enumerate();
        times
            .map(|(actor, time)| time * self.fewest(graph, actor, blocks, fault))
            .sum()
    }

    pub fn demand(&self, length: i64, fault: u32) -> i64 {
        let due = |graph| blocks_due(&self.graphs[graph], length, fault);
        (0..self.graphs.len())
            .map(|graph| self.demand_of_blocks(graph, due(graph), fault))
            .sum()
    }

    pub fn load(&self, fault: u32) -> i64 {
        let mut load = 0;
        for (graph, repetition) in self.graphs.iter().zip(&self.repetition) {
            let firings = |number: &i64| {
                if fault == LOAD_WITHOUT_REPETITION {
                    1
                } else {
                    *number
                }
            };
            let work: i64 = graph
                .times
                .iter()
                .zip(repetition)
                .map(|(t, n)| t * firings(n))
                .sum();
            load += match fault {
                LOAD_ROUNDED => self.frame * ((work + graph.period / 2) / graph.period),
                _ => self.frame / graph.period * work,
            };
        }
        load
    }

    /// Demand rises only where a further block falls due, so no other length can be the
    /// smallest late one. With a frame load of at most the frame, a late length of a frame or
    /// more stays late with one frame taken off, so none of these can be it either.
    fn smallest_late(&self, fault: u32) -> Option<i64> {
        let mut due = vec![0; self.graphs.len()];
        let mut demand = vec![0; self.graphs.len()];
        let greatest_deadline = self.graphs.iter().map(|graph| graph.deadline).max();
        let mut found = None;
        loop {
            let next = |graph: usize, due: &[i64]| next_due(&self.graphs[graph], due[graph], fault);
            let length = (0..due.len()).map(|graph| next(graph, &due)).min()?;
            if length >= self.frame {
                return found;
            }
            if fault == UP_TO_DEADLINES && Some(length) > greatest_deadline {
                return found;
            }
            for graph in 0..due.len() {
                if next(graph, &due) == length {
                    due[graph] += 1;
                    demand[graph] = self.demand_of_blocks(graph, due[graph], fault);
                }
            }
            let total: i64 = demand.iter().sum();
            if total > length || fault == LATE_AT_EQUAL && total == length && length > 0 {
                found = Some(length);
                if fault != GREATEST_LATE {
                    return found;
                }
            }
            if fault == FIRST_LENGTH_ONLY {
                return found;
            }
        }
    }

    pub fn verdict(&self, fault: u32) -> Verdict {
        let load = self.load(fault);
        let answer = |answer: u64, length: i64| Verdict {
            answer,
            place: 0,
            load: load as u64,
            frame: self.frame as u64,
            length: length as u64,
        };
        let overload = load > self.frame || fault == FULL_LOAD_REFUSED && load == self.frame;
        if overload && fault != LATE_BEFORE_OVERLOAD {
            return answer(20, 0);
        }
        match self.smallest_late(fault) {
            Some(length) => answer(21, length),
            None if overload => answer(20, 0),
            None => answer(0, 0),
        }
    }

    /// The task list: three numbers per task.
    pub fn tasks(&self, place: usize) -> Vec<u64> {
        let graph = &self.graphs[place];
        let mut list = Vec::new();
        for (actor, time) in graph.times.iter().enumerate() {
            let repetition = self.repetition[place][actor];
            let (a, b) = (
                self.skips[place][actor] / repetition,
                self.skips[place][actor] % repetition,
            );
            let mut task = |firings: i64, periods: i64| {
                list.push((firings * time) as u64);
                list.push((periods * graph.period + graph.deadline) as u64);
                list.push(graph.period as u64);
            };
            task(repetition - b, a);
            if b != 0 {
                task(b, a + 1);
            }
        }
        list
    }
}

pub fn judge(form: Form, fault: u32) -> Verdict {
    match check(form, fault) {
        Ok(judged) => judged.verdict(fault),
        Err(refusal) => Verdict::refused(refusal.answer, refusal.place),
    }
}
