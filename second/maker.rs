//! Makes sheets from a seed: valid ones, ones on both sides of each line of the answer table,
//! and ones with one or two faults anywhere.

use crate::calls::{packed, write_length};
use crate::fast;
use crate::literal::{
    gcd, Channel, Graph, MOST_ACTORS, MOST_CHANNELS, MOST_FRAME, MOST_RATE, MOST_TICKS,
};
use crate::random::Random;

#[derive(Clone, Copy, PartialEq)]
pub enum Size {
    Small,
    Medium,
    Large,
    /// 8 graphs, 32 actors and 64 channels each: 5,220 bytes.
    Largest,
}

/// One made sheet of any kind.
pub fn make(random: &mut Random) -> Vec<u8> {
    match random.below(200) {
        0..=19 => packed(&sheet_of_any_size(random)),
        20..=41 => {
            let graphs = sheet_of_any_size(random);
            tight(random, graphs)
        }
        42..=55 => {
            let graphs = lagging(random);
            tight(random, graphs)
        }
        56..=69 => full(random),
        70..=145 => {
            let line = random.between(1, 12) as u64;
            refused(random, &[line])
        }
        146..=167 => {
            // Any two, or two that are looked at one after the other.
            let one = random.between(1, 12);
            let other = if random.once_in(2) {
                random.between(1, 12)
            } else {
                (one + random.between(1, 2)).min(12)
            };
            refused(random, &[one as u64, other as u64])
        }
        168..=177 => cut_or_extended(random),
        178..=183 => random_bytes(random),
        184..=197 => edge_value(random),
        198 => packed(&sheet(random, Size::Large)),
        _ => {
            let mut graphs = sheet(random, Size::Largest);
            if random.once_in(2) {
                tighten(random, &mut graphs);
            }
            packed(&graphs)
        }
    }
}

fn sheet_of_any_size(random: &mut Random) -> Vec<Graph> {
    let size = match random.below(160) {
        0..=91 => Size::Small,
        92..=155 => Size::Medium,
        156..=158 => Size::Large,
        _ => Size::Largest,
    };
    sheet(random, size)
}

/// The answer to a sheet of these graphs.
fn answer(graphs: &[Graph]) -> u64 {
    fast::judge(&packed(graphs)).answer
}

// ---- valid graphs

fn repetition_numbers(random: &mut Random, actors: usize, same: bool) -> Vec<i64> {
    let style = random.below(9);
    let mut numbers: Vec<i64> = (0..actors)
        .map(|_| match style {
            0 => 1,
            1..=4 => random.between(1, 4),
            5 => 1 << random.between(0, 12),
            6 => random.between(1, 60),
            7 => random.between(1, 4_096),
            _ => random.pick(&[1, 2, 4_095, 4_096]),
        })
        .collect();
    numbers[0] = 1;
    if !same {
        numbers[actors - 1] = 1;
    }
    numbers
}

/// A channel that keeps these repetition numbers balanced.
fn balanced_channel(random: &mut Random, numbers: &[i64], tail: usize, head: usize) -> Channel {
    let common = gcd(numbers[tail], numbers[head]);
    let (produce, consume) = (numbers[head] / common, numbers[tail] / common);
    let most = MOST_RATE / produce.max(consume);
    let times = match random.below(6) {
        0 => random.between(1, most.min(5)),
        1 => random.between(1, most),
        _ => 1,
    };
    Channel {
        tail,
        head,
        produce: produce * times,
        consume: consume * times,
        tokens: 0,
    }
}

/// A graph with 0 as input and its last actor (or 0 again) as output, numbered along its
/// channels, without period, deadline and times. Mostly valid; deadlock can still befall it.
fn raw_graph(random: &mut Random, actors: usize, channels: usize) -> Graph {
    let same = actors == 1 || random.once_in(8);
    let numbers = repetition_numbers(random, actors, same);
    let output = if same { 0 } else { actors - 1 };
    let mut list: Vec<Channel> = Vec::new();
    let tokens_style = random.below(6);

    // Forward channels: every actor from an earlier one, and on to a later one.
    let chain = random.once_in(2);
    let mut blocking = vec![0];
    for head in 1..actors {
        let tail = if chain { head - 1 } else { random.below(head) };
        blocking.push(list.len());
        list.push(balanced_channel(random, &numbers, tail, head));
    }
    for tail in 1..actors {
        if (tail != output || same) && !list.iter().any(|channel| channel.tail == tail) {
            let later = tail + 1 + random.below(actors - tail);
            let head = if later < actors { later } else { output };
            if head != tail {
                list.push(balanced_channel(random, &numbers, tail, head));
            }
        }
    }
    if actors > 1 && random.once_in(3) {
        let (a, b) = (random.below(actors), random.below(actors));
        list.push(balanced_channel(random, &numbers, a.max(b), a.min(b)));
    }
    while list.len() < channels {
        let (a, b) = (random.below(actors), random.below(actors));
        let (tail, head) = match random.below(8) {
            0 => (a, a),
            1 => (a.max(b), a.min(b)),
            2 | 3 if !list.is_empty() => {
                let other = random.pick(&list);
                (other.tail, other.head)
            }
            _ => (a.min(b), a.max(b)),
        };
        list.push(balanced_channel(random, &numbers, tail, head));
    }

    for (index, channel) in list.iter_mut().enumerate() {
        let whole = numbers[channel.tail] * channel.produce;
        channel.tokens = if channel.tail >= channel.head {
            let extra = if random.once_in(3) {
                random.between(0, 40)
            } else {
                0
            };
            let least = if channel.tail == channel.head {
                channel.consume
            } else {
                whole
            };
            (least + extra).min(65_535)
        } else {
            let blocks = blocking[channel.head] == index;
            let most = match tokens_style {
                0 => 0,
                1 | 2 => random.between(0, channel.consume - 1),
                _ if blocks => channel.consume - 1,
                3 | 4 => random.between(0, 3 * whole),
                _ => random.pick(&[0, channel.consume - 1, channel.consume, whole, 65_535]),
            };
            match random.below(3) {
                0 => 0,
                1 => most.min(65_535),
                _ => random.between(0, most).min(65_535),
            }
        };
    }
    Graph {
        input: 0,
        output,
        period: 1,
        deadline: 1,
        times: vec![0; actors],
        channels: list,
    }
}

/// The same graph with its actors and channels in another order.
fn renumber(random: &mut Random, graph: &mut Graph) {
    let mut name: Vec<usize> = (0..graph.times.len()).collect();
    random.shuffle(&mut name);
    graph.input = name[graph.input];
    graph.output = name[graph.output];
    for channel in &mut graph.channels {
        channel.tail = name[channel.tail];
        channel.head = name[channel.head];
    }
    let times = graph.times.clone();
    for (actor, time) in times.into_iter().enumerate() {
        graph.times[name[actor]] = time;
    }
    random.shuffle(&mut graph.channels);
}

/// The fewest tokens on one channel, all else as it is, with which the graph does not deadlock.
pub fn fewest_tokens(graph: &Graph, index: usize) -> Option<i64> {
    let mut trial = graph.clone();
    let mut deadlocks = |tokens: i64| {
        trial.channels[index].tokens = tokens;
        answer(std::slice::from_ref(&trial)) == 10
    };
    if deadlocks(65_535) {
        return None;
    }
    let (mut low, mut high) = (0, 65_535);
    while low < high {
        let middle = (low + high) / 2;
        if deadlocks(middle) {
            low = middle + 1;
        } else {
            high = middle;
        }
    }
    Some(high)
}

pub fn valid_graph(random: &mut Random, actors: usize, channels: usize) -> Graph {
    for _ in 0..6 {
        let mut graph = raw_graph(random, actors, channels);
        if !graph.channels.is_empty() && random.once_in(3) {
            let index = random.below(graph.channels.len());
            let channel = &graph.channels[index];
            if channel.tail >= channel.head {
                graph.channels[index].tokens = fewest_tokens(&graph, index).unwrap_or(0);
            }
        }
        if random.below(4) > 0 {
            renumber(random, &mut graph);
        }
        if answer(std::slice::from_ref(&graph)) == 0 {
            return graph;
        }
    }
    let mut graph = raw_graph(random, actors, 0);
    graph.output = actors - 1;
    graph.channels = (1..actors)
        .map(|head| Channel {
            tail: head - 1,
            head,
            produce: 1,
            consume: 1,
            tokens: 0,
        })
        .collect();
    while graph.channels.len() < channels {
        graph.channels.push(Channel {
            tail: 0,
            head: actors - 1,
            produce: 1,
            consume: 1,
            tokens: 0,
        });
    }
    graph
}

fn repetition_of(graph: &Graph) -> Vec<i64> {
    match fast::prepare(&packed(std::slice::from_ref(graph))) {
        Ok(prepared) => prepared.numbers[0]
            .repetition
            .iter()
            .map(|number| i64::from(*number))
            .collect(),
        Err(_) => vec![1; 32],
    }
}

// ---- valid sheets

/// A number with small factors only, up to `most`.
fn smooth(random: &mut Random, most: i64) -> i64 {
    let mut number = 1;
    loop {
        let factor = random.pick(&[2, 2, 2, 3, 3, 5, 5, 7, 11, 13]);
        if number * factor > most {
            return number;
        }
        number *= factor;
    }
}

fn divisor(random: &mut Random, number: i64) -> i64 {
    let mut found = 1;
    let mut rest = number;
    for factor in [2, 3, 5, 7, 11, 13] {
        while rest % factor == 0 {
            rest /= factor;
            if random.once_in(2) {
                found *= factor;
            }
        }
    }
    found
}

pub fn sheet(random: &mut Random, size: Size) -> Vec<Graph> {
    let count = match size {
        Size::Small if random.below(5) > 0 => 1 + random.below(2),
        Size::Medium => 1 + random.below(4),
        Size::Small | Size::Large => 1 + random.below(8),
        Size::Largest => 8,
    };
    let mut graphs: Vec<Graph> = (0..count)
        .map(|_| {
            let actors = match size {
                Size::Small => 1 + random.below(4),
                Size::Medium => 1 + random.below(9),
                Size::Large => 1 + random.below(32),
                Size::Largest => 32,
            };
            let channels = match size {
                Size::Largest => 64,
                _ if random.once_in(2) => 0,
                _ => random.below(2 * actors + 1),
            };
            valid_graph(random, actors, channels)
        })
        .collect();
    set_times(random, &mut graphs);
    graphs
}

/// Periods whose frame is within its bound, times that load the processor somewhere between
/// not at all and a little too much, deadlines of every kind.
pub fn set_times(random: &mut Random, graphs: &mut [Graph]) {
    let numbers: Vec<Vec<i64>> = graphs.iter().map(repetition_of).collect();
    let greatest = numbers.iter().flatten().max().copied().unwrap_or(1);
    let most = match random.below(12) {
        0..=4 => 60 * greatest,
        5..=9 => 4_000 * greatest.min(100),
        10 => 400_000,
        _ => MOST_FRAME,
    };
    let frame = smooth(random, most.clamp(16, MOST_FRAME));
    let percent = random.pick(&[0, 20, 50, 80, 95, 100, 100, 105, 130]);
    let count = graphs.len() as i64;
    for (graph, numbers) in graphs.iter_mut().zip(&numbers) {
        graph.period = match random.below(4) {
            0 => frame,
            1 => frame / divisor(random, frame),
            _ => frame / gcd(frame, random.pick(&[1, 2, 3, 4, 5, 6, 8, 10, 12, 30])),
        };
        if random.once_in(60) {
            graph.period = MOST_TICKS;
        }
        let share = if random.once_in(3) {
            random.between(0, 2 * percent)
        } else {
            percent
        };
        let mut work = graph.period * share / 100 / count;
        let aim = work;
        let mut order: Vec<usize> = (0..graph.times.len()).collect();
        random.shuffle(&mut order);
        for actor in order {
            let most = (work / numbers[actor]).min(100_000);
            graph.times[actor] = if random.once_in(4) {
                most
            } else {
                random.between(0, most)
            };
            work -= graph.times[actor] * numbers[actor];
        }
        let aim = aim.max(1);
        graph.deadline = match random.below(8) {
            0..=2 => graph.period,
            3 => random.between(1, graph.period),
            4 => random.between(graph.period, 3 * graph.period),
            5 => random.between(aim, aim.max(graph.period)),
            6 => random.between(aim, 3 * aim),
            _ => random.between(1, MOST_TICKS),
        }
        .min(MOST_TICKS);
    }
}

/// One deadline at the smallest that passes; nothing where no deadline does.
pub fn tighten_one(graphs: &mut [Graph], place: usize) -> bool {
    let kept = graphs[place].deadline;
    let mut passes = |deadline: i64| {
        graphs[place].deadline = deadline;
        answer(graphs) == 0
    };
    if !passes(MOST_TICKS) {
        passes(kept);
        return false;
    }
    let (mut low, mut high) = (1, MOST_TICKS);
    while low < high {
        let middle = (low + high) / 2;
        if passes(middle) {
            high = middle;
        } else {
            low = middle + 1;
        }
    }
    passes(high);
    true
}

fn tighten(random: &mut Random, graphs: &mut [Graph]) -> Option<usize> {
    let place = random.below(graphs.len());
    tighten_one(graphs, place).then_some(place)
}

/// A sheet on which some actor with work may skip firings.
fn lagging(random: &mut Random) -> Vec<Graph> {
    loop {
        let graphs = sheet_of_any_size(random);
        let Ok(prepared) = fast::prepare(&packed(&graphs)) else {
            continue;
        };
        let skips = |(graph, numbers): (&Graph, &fast::Numbers)| {
            graph
                .times
                .iter()
                .zip(&numbers.skip)
                .any(|(time, skip)| *time > 0 && *skip > 0)
        };
        if graphs.iter().zip(&prepared.numbers).any(skips) {
            return graphs;
        }
    }
}

/// A deadline at the smallest that passes, or one tick below.
fn tight(random: &mut Random, mut graphs: Vec<Graph>) -> Vec<u8> {
    for _ in 0..random.between(0, 2) {
        tighten(random, &mut graphs);
    }
    if let Some(place) = tighten(random, &mut graphs) {
        if random.below(2) == 0 && graphs[place].deadline > 1 {
            graphs[place].deadline -= 1;
        }
    }
    packed(&graphs)
}

/// Adds a graph of one actor that brings the frame load to the frame exactly.
pub fn fill_up(random: &mut Random, graphs: &mut Vec<Graph>) -> bool {
    let Ok(prepared) = fast::prepare(&packed(graphs)) else {
        return false;
    };
    let (frame, load) = (prepared.frame as i64, prepared.load as i64);
    if load >= frame || graphs.len() == 8 {
        return false;
    }
    let rest = frame - load;
    let common = gcd(frame, rest);
    let parts: Vec<i64> = (1..=common.min(2_000))
        .filter(|n| common % n == 0 && rest / n <= 100_000)
        .collect();
    if parts.is_empty() {
        return false;
    }
    let parts = random.pick(&parts);
    let period = frame / parts;
    let deadline = if random.below(3) > 0 {
        period
    } else {
        random.between(rest / parts, period)
    };
    let place = random.below(graphs.len() + 1);
    let filler = Graph {
        input: 0,
        output: 0,
        period,
        deadline,
        times: vec![rest / parts],
        channels: Vec::new(),
    };
    graphs.insert(place, filler);
    true
}

/// Frame load equal to the frame, or a firing of one more tick.
fn full(random: &mut Random) -> Vec<u8> {
    for _ in 0..20 {
        let mut graphs = sheet_of_any_size(random);
        if !fill_up(random, &mut graphs) {
            continue;
        }
        if random.once_in(3) {
            let place = random.below(graphs.len());
            let actor = random.below(graphs[place].times.len());
            graphs[place].times[actor] = (graphs[place].times[actor] + 1).min(100_000);
        } else if random.once_in(2) {
            for graph in &mut graphs {
                graph.deadline = graph.deadline.max(graph.period);
            }
        }
        return packed(&graphs);
    }
    packed(&sheet(random, Size::Small))
}

// ---- refused sheets

/// A sheet with a fault for each of these lines of the answer table, 1 to 12; those of lines 7
/// to 11 in any graph or all in one. There the later line's fault comes first, so that the
/// earlier one's is seen to hide it.
pub fn refused(random: &mut Random, lines: &[u64]) -> Vec<u8> {
    let mut graphs = sheet_of_any_size(random);
    let mut in_graphs: Vec<u64> = lines
        .iter()
        .copied()
        .filter(|line| (7..=11).contains(line))
        .collect();
    in_graphs.sort_unstable_by(|a, b| b.cmp(a));
    let one = if random.once_in(2) {
        Some(random.below(graphs.len()))
    } else {
        None
    };
    for line in &in_graphs {
        let mut found = None;
        while found.is_none() {
            let place = one.unwrap_or_else(|| random.below(graphs.len()));
            found = spoil_graph(random, &graphs[place], *line).map(|graph| (place, graph));
            if found.is_none() {
                graphs[place] = {
                    let (actors, channels) = (2 + random.below(4), random.below(8));
                    let mut fresh = valid_graph(random, actors, channels);
                    fresh.period = graphs[place].period;
                    fresh.deadline = graphs[place].deadline;
                    fresh
                };
            }
        }
        let (place, graph) = found.unwrap();
        graphs[place] = graph;
    }
    if lines.contains(&12) {
        spoil_frame(random, &mut graphs);
    }
    let mut sheet = packed(&graphs);
    let fields = fields(&graphs);
    let mut in_bytes: Vec<u64> = lines.iter().copied().filter(|line| *line <= 6).collect();
    in_bytes.sort_unstable_by(|a, b| b.cmp(a));
    for line in in_bytes {
        spoil_bytes(random, &mut sheet, &fields, line);
    }
    sheet
}

fn spoil_graph(random: &mut Random, graph: &Graph, line: u64) -> Option<Graph> {
    for _ in 0..24 {
        let mut spoilt = graph.clone();
        match line {
            7 => break_reach(random, &mut spoilt),
            8 | 9 => break_balance(random, &mut spoilt),
            10 => block(random, &mut spoilt),
            _ => wake(random, &mut spoilt),
        }
        let fits = spoilt.times.len() <= MOST_ACTORS as usize
            && spoilt.channels.len() <= MOST_CHANNELS as usize;
        if fits && answer(std::slice::from_ref(&spoilt)) == line {
            return Some(spoilt);
        }
    }
    None
}

fn break_reach(random: &mut Random, graph: &mut Graph) {
    let actors = graph.times.len();
    let (one, other) = (random.below(actors), random.below(actors));
    let some = if graph.channels.is_empty() {
        None
    } else {
        Some(random.below(graph.channels.len()))
    };
    match (random.below(8), some) {
        (0, _) => graph.times.push(1),
        (1, _) => {
            graph.times.push(1);
            let (tail, head) = if random.once_in(2) {
                (one, actors)
            } else {
                (actors, one)
            };
            graph.channels.push(Channel {
                tail,
                head,
                produce: 1,
                consume: 1,
                tokens: 1,
            });
        }
        (2, _) => graph.input = one,
        (3, _) => graph.output = one,
        (4, Some(index)) => graph.channels[index].head = one,
        (5, Some(index)) => graph.channels[index].tail = other,
        (6, Some(index)) => {
            graph.channels.remove(index);
        }
        (_, Some(index)) => {
            let channel = &mut graph.channels[index];
            std::mem::swap(&mut channel.tail, &mut channel.head);
            std::mem::swap(&mut channel.produce, &mut channel.consume);
        }
        (_, None) => graph.times.push(0),
    }
}

fn break_balance(random: &mut Random, graph: &mut Graph) {
    let actors = graph.times.len();
    let change = |random: &mut Random, rate: i64| {
        let to = match random.below(5) {
            0 => rate + 1,
            1 => rate - 1,
            2 => rate * random.between(2, 5),
            3 => random.between(1, 12),
            _ => random.between(1, MOST_RATE),
        };
        to.clamp(1, MOST_RATE)
    };
    if graph.channels.is_empty() || random.once_in(4) {
        let (tail, head) = (random.below(actors), random.below(actors));
        let rates = (change(random, 2), change(random, 2));
        graph.channels.push(Channel {
            tail,
            head,
            produce: rates.0,
            consume: rates.1,
            tokens: 65_535,
        });
    } else if random.once_in(8) {
        graph.output = random.below(actors);
    } else {
        let index = random.below(graph.channels.len());
        let channel = &mut graph.channels[index];
        if random.once_in(2) {
            channel.produce = change(random, channel.produce);
        } else {
            channel.consume = change(random, channel.consume);
        }
    }
}

/// A channel that closes a cycle with one token too few, or a self-loop with too few.
fn block(random: &mut Random, graph: &mut Graph) {
    let actors = graph.times.len();
    let numbers = repetition_of(graph);
    let index = if graph.channels.is_empty() || random.below(3) > 0 {
        let (tail, head) = (random.below(actors), random.below(actors));
        graph
            .channels
            .push(balanced_channel(random, &numbers, tail, head));
        graph.channels.len() - 1
    } else {
        random.below(graph.channels.len())
    };
    if graph.channels.len() >= MOST_CHANNELS as usize {
        return;
    }
    let least = fewest_tokens(graph, index).unwrap_or(0);
    graph.channels[index].tokens = if random.once_in(3) {
        random.between(0, (least - 1).max(0))
    } else {
        (least - 1).max(0)
    };
    if random.once_in(4) {
        // Another between the same actors that would let it run.
        let mut parallel = graph.channels[index].clone();
        parallel.tokens = 65_535;
        let at = random.below(graph.channels.len() + 1);
        graph.channels.insert(at, parallel);
    }
}

/// Just enough tokens on every channel into some actor.
fn wake(random: &mut Random, graph: &mut Graph) {
    let actor = random.below(graph.times.len());
    let extra = if random.once_in(2) {
        0
    } else {
        random.between(0, 9)
    };
    for channel in graph
        .channels
        .iter_mut()
        .filter(|channel| channel.head == actor)
    {
        channel.tokens = channel.tokens.max(channel.consume + extra);
    }
}

fn spoil_frame(random: &mut Random, graphs: &mut Vec<Graph>) {
    let next = random.between(3_163, 9_999_999);
    let (one, other) = random.pick(&[
        (4_096, 4_099),
        (11, 909_091),
        (6, 1_666_667),
        (9_999_999, 10_000_000),
        (next, next + 1),
    ]);
    if graphs.len() == 1 {
        let mut second = graphs[0].clone();
        second.channels.truncate(0);
        second.times = vec![0];
        second.input = 0;
        second.output = 0;
        graphs.push(second);
    }
    let place = random.below(graphs.len() - 1);
    graphs[place].period = one;
    let later = place + 1 + random.below(graphs.len() - place - 1);
    graphs[later].period = other;
}

#[derive(Clone, Copy, PartialEq)]
enum Kind {
    Actors,
    Channels,
    /// Input or output.
    Port,
    /// Tail or head.
    Actor,
    Ticks,
    Time,
    Rate,
    Tokens,
}

/// Where a field stands in the sheet, and the actor count of its graph.
#[derive(Clone, Copy)]
struct Field {
    kind: Kind,
    at: usize,
    width: usize,
    actors: i64,
}

fn fields(graphs: &[Graph]) -> Vec<Field> {
    let mut list = Vec::new();
    let mut at = 4;
    for graph in graphs {
        let actors = graph.times.len() as i64;
        let mut field = |kind, width| {
            list.push(Field {
                kind,
                at,
                width,
                actors,
            });
            at += width;
        };
        field(Kind::Actors, 1);
        field(Kind::Channels, 1);
        field(Kind::Port, 1);
        field(Kind::Port, 1);
        field(Kind::Ticks, 4);
        field(Kind::Ticks, 4);
        for _ in &graph.times {
            field(Kind::Time, 4);
        }
        for _ in &graph.channels {
            field(Kind::Actor, 1);
            field(Kind::Actor, 1);
            field(Kind::Rate, 2);
            field(Kind::Rate, 2);
            field(Kind::Tokens, 2);
        }
    }
    list
}

fn put(sheet: &mut [u8], field: Field, value: i64) {
    let bytes = (value as u32).to_be_bytes();
    sheet[field.at..field.at + field.width].copy_from_slice(&bytes[4 - field.width..]);
}

/// A value out of bounds that the field's width can hold.
fn out_of_bounds(random: &mut Random, field: Field) -> i64 {
    let choices: Vec<i64> = match field.kind {
        Kind::Actors => vec![0, 33, 34, 64, 255, random.between(33, 255)],
        Kind::Channels => vec![65, 66, 128, 255, random.between(65, 255)],
        Kind::Port | Kind::Actor => vec![
            field.actors,
            field.actors + 1,
            255,
            random.between(field.actors, 255),
        ],
        Kind::Ticks => vec![
            0,
            10_000_001,
            1 << 24,
            1 << 31,
            0xFFFF_FFFF,
            random.between(10_000_001, 0xFFFF_FFFF),
        ],
        Kind::Time => vec![
            100_001,
            1 << 17,
            1 << 31,
            0xFFFF_FFFF,
            random.between(100_001, 0xFFFF_FFFF),
        ],
        Kind::Rate => vec![0, 4_097, 0x8000, 0xFFFF, random.between(4_097, 0xFFFF)],
        Kind::Tokens => vec![0],
    };
    random.pick(&choices)
}

fn spoil_bytes(random: &mut Random, sheet: &mut Vec<u8>, fields: &[Field], line: u64) {
    match line {
        6 => {
            let kinds = [Kind::Port, Kind::Actor, Kind::Ticks, Kind::Time, Kind::Rate];
            let kind = random.pick(&kinds);
            let mut open: Vec<Field> = fields
                .iter()
                .copied()
                .filter(|field| field.kind == kind)
                .collect();
            if open.is_empty() {
                open = fields
                    .iter()
                    .copied()
                    .filter(|field| field.kind == Kind::Ticks)
                    .collect();
            }
            let field = random.pick(&open);
            let value = out_of_bounds(random, field);
            put(sheet, field, value);
        }
        5 => {
            let open: Vec<Field> = fields
                .iter()
                .copied()
                .filter(|field| matches!(field.kind, Kind::Actors | Kind::Channels))
                .collect();
            let field = random.pick(&open);
            let value = out_of_bounds(random, field);
            put(sheet, field, value);
        }
        4 => {
            match random.below(5) {
                0 | 1 => sheet.truncate(4 + random.below(sheet.len() - 4)),
                2 | 3 => {
                    let more = random.pick(&[1, 1, 2, 11, 12, 13, 16, 40]);
                    sheet.extend((0..more).map(|_| random.next() as u8 & 3));
                }
                _ => {
                    sheet[3] = if sheet[3] > 1 && random.once_in(2) {
                        sheet[3] - 1
                    } else {
                        (sheet[3] + 1).min(8)
                    }
                }
            }
            write_length(sheet);
        }
        3 => {
            let other = random.between(9, 255) as u8;
            sheet[3] = random.pick(&[0, 9, 255, other]);
        }
        2 => {
            let other = random.between(2, 255) as u8;
            sheet[2] = random.pick(&[0, 2, 255, other]);
        }
        _ => {
            let length = sheet.len();
            let field = match random.below(7) {
                0 => length + 1,
                1 => length - 1,
                2 => 0,
                3 => 65_535,
                4 => random.below(65_536),
                5 => {
                    sheet.truncate(random.below(4));
                    length
                }
                _ => {
                    if random.once_in(2) {
                        sheet.truncate(random.below(length));
                    } else {
                        sheet.extend((0..1 + random.below(9)).map(|_| 0));
                    }
                    length
                }
            };
            if let Some(place) = sheet.get_mut(..2) {
                place.copy_from_slice(&(field as u16).to_be_bytes());
            }
        }
    }
}

fn cut_or_extended(random: &mut Random) -> Vec<u8> {
    let mut sheet = packed(&sheet_of_any_size(random));
    if random.once_in(2) {
        sheet.truncate(random.below(sheet.len()));
    } else {
        let more = 1 + random.below(30);
        sheet.extend((0..more).map(|_| random.next() as u8));
    }
    if random.below(4) > 0 {
        write_length(&mut sheet);
    }
    sheet
}

fn random_bytes(random: &mut Random) -> Vec<u8> {
    let length = random.pick(&[0, 1, 3, 4, 5, 16, 20, 60, 200]) + random.below(12);
    let small = random.once_in(2);
    let mut sheet: Vec<u8> = (0..length)
        .map(|_| {
            if small {
                random.next() as u8 & 3
            } else {
                random.next() as u8
            }
        })
        .collect();
    if sheet.len() >= 4 && random.below(4) > 0 {
        write_length(&mut sheet);
        sheet[2] = 1;
        sheet[3] = random.between(1, 8) as u8;
    }
    sheet
}

/// A valid sheet with one field at an edge of its bounds or of its width.
fn edge_value(random: &mut Random) -> Vec<u8> {
    let graphs = sheet_of_any_size(random);
    let mut sheet = packed(&graphs);
    let kinds = [
        Kind::Actors,
        Kind::Channels,
        Kind::Port,
        Kind::Actor,
        Kind::Ticks,
        Kind::Ticks,
        Kind::Time,
        Kind::Rate,
        Kind::Tokens,
    ];
    let kind = random.pick(&kinds);
    let open: Vec<Field> = fields(&graphs)
        .into_iter()
        .filter(|field| field.kind == kind)
        .collect();
    if open.is_empty() || random.once_in(12) {
        let at = random.below(4);
        let value = random.pick(&[0, 1, 2, 7, 8, 9, 127, 128, 255]);
        sheet[at] = value;
        return sheet;
    }
    let field = random.pick(&open);
    let edges: Vec<i64> = match kind {
        Kind::Actors => vec![0, 1, 2, 31, 32, 33, field.actors - 1, field.actors + 1],
        Kind::Channels => vec![0, 1, 2, 63, 64, 65],
        Kind::Port | Kind::Actor => vec![0, field.actors - 1, field.actors],
        Kind::Ticks => vec![0, 1, 2, 9_999_999, 10_000_000, 10_000_001],
        Kind::Time => vec![0, 1, 99_999, 100_000, 100_001],
        Kind::Rate => vec![0, 1, 2, 255, 256, 4_095, 4_096, 4_097],
        Kind::Tokens => vec![0, 1, 255, 256, 4_095, 4_096, 32_767, 32_768, 65_535],
    };
    let value = random.pick(&edges);
    put(&mut sheet, field, value);
    sheet
}
