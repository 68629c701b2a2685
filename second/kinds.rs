//! Books of one kind of sheet, to measure speed: what a loader sees every day, the largest
//! sheets, sheets that are hard on the search or on the trial run, and families that grow with a
//! number.

use crate::calls::packed;
use crate::fast;
use crate::literal::{check, gcd, Channel, Form, Graph, MOST_FRAME};
use crate::maker::{self, Size};
use crate::random::Random;

/// What `make` knows; the last three take a number.
pub const NAMES: &str = "typical maximal mixed nested full always end idle primes design bends \
    coprime against zigzag sink rates actors:1..32 channels:31..64 frame:100..10000000";

pub fn make(kind: &str, random: &mut Random) -> Option<Vec<u8>> {
    if let Some((family, number)) = kind.split_once(':') {
        return member(family, number.parse().ok()?, random);
    }
    Some(match kind {
        "typical" => accepted(random, |random| {
            let mut graphs: Vec<Graph> = (0..8)
                .map(|_| {
                    let channels = 8 + random.below(5);
                    maker::valid_graph(random, 8, channels)
                })
                .collect();
            maker::set_times(random, &mut graphs);
            graphs
        }),
        "maximal" => accepted(random, |random| maker::sheet(random, Size::Largest)),
        "mixed" => maker::make(random),
        "nested" => judged(random, nested),
        "full" => judged(random, full),
        "always" => judged(random, always),
        "end" => judged(random, end),
        "idle" => judged(random, idle),
        "primes" => judged(random, primes),
        "design" => judged(random, design),
        "bends" => judged(random, bends),
        "coprime" => packed(&eight(random, |random| coprime(random, false))),
        "against" => packed(&eight(random, |random| coprime(random, true))),
        "zigzag" => packed(&eight(random, zigzag)),
        "sink" => packed(&eight(random, sink)),
        "rates" => rates(random),
        _ => return None,
    })
}

fn member(family: &str, number: usize, random: &mut Random) -> Option<Vec<u8>> {
    Some(match (family, number) {
        ("actors", 1..=32) => accepted(random, |random| light(random, number, 3 * number / 2)),
        ("channels", 31..=64) => accepted(random, |random| light(random, 32, number)),
        ("frame", 100..=10_000_000) => judged(random, |random| close(random, number as i64)),
        _ => return None,
    })
}

fn accepted(random: &mut Random, mut graphs: impl FnMut(&mut Random) -> Vec<Graph>) -> Vec<u8> {
    loop {
        let sheet = packed(&graphs(random));
        if fast::judge(&sheet).answer == 0 {
            return sheet;
        }
    }
}

/// Accepted or late, so that the search has been made.
fn judged(random: &mut Random, mut sheet: impl FnMut(&mut Random) -> Vec<u8>) -> Vec<u8> {
    loop {
        let sheet = sheet(random);
        if matches!(fast::judge(&sheet).answer, 0 | 21) {
            return sheet;
        }
    }
}

fn plain(period: i64, deadline: i64, time: i64) -> Graph {
    Graph {
        input: 0,
        output: 0,
        period,
        deadline,
        times: vec![time],
        channels: Vec::new(),
    }
}

/// A graph with more work per block than one actor's time can hold.
fn heavy(period: i64, deadline: i64, work: i64) -> Graph {
    let mut firings = 1;
    while work / firings > 100_000 {
        firings += 1;
    }
    let rest = (work - work / firings * firings).min(100_000);
    let channel = |tail, head, produce, consume| Channel {
        tail,
        head,
        produce,
        consume,
        tokens: 0,
    };
    Graph {
        input: 0,
        output: 2,
        period,
        deadline,
        times: vec![rest, work / firings, 0],
        channels: vec![channel(0, 1, firings, 1), channel(1, 2, 1, firings)],
    }
}

/// Every deadline in turn at the smallest that passes; then one of them may lose a tick.
fn tightened(random: &mut Random, mut graphs: Vec<Graph>) -> Vec<u8> {
    let mut order: Vec<usize> = (0..graphs.len()).collect();
    random.shuffle(&mut order);
    for place in &order {
        maker::tighten_one(&mut graphs, *place);
    }
    let last = order[order.len() - 1];
    if random.once_in(2) && graphs[last].deadline > 1 {
        graphs[last].deadline -= 1;
    }
    packed(&graphs)
}

/// Periods that divide one another.
fn nested(random: &mut Random) -> Vec<u8> {
    let mut period = random.between(2, 12);
    let mut graphs = Vec::new();
    while graphs.len() < 7 {
        let time = (period / 8).clamp(1, 100_000);
        graphs.push(plain(period, period, random.between((time + 1) / 2, time)));
        let next = period * random.between(2, 9);
        if next > MOST_FRAME {
            break;
        }
        period = next;
    }
    maker::fill_up(random, &mut graphs);
    tightened(random, graphs)
}

/// 1/2 + 1/3 + 1/7 + 1/43 + 1/1807 + 1/3263442 = 1: full load, hardly any slack anywhere. The
/// longest may be three graphs that take turns, over a frame three times as long.
fn full(random: &mut Random) -> Vec<u8> {
    let longest = 3_263_442;
    let turns = random.once_in(2);
    let times = if turns { 1 } else { random.pick(&[1, 1, 2, 3]) };
    let mut graphs: Vec<Graph> = [2, 3, 7, 43, 1_807]
        .map(|period| plain(period * times, period * times, times))
        .to_vec();
    if turns {
        for turn in 1..=3 {
            graphs.push(plain(3 * longest, turn * longest, times));
        }
    } else {
        graphs.push(plain(longest * times, longest * times, times));
    }
    random.shuffle(&mut graphs);
    tightened(random, graphs)
}

/// Late at every rise from the first late one on.
fn always(random: &mut Random) -> Vec<u8> {
    let period = random.between(2, 9);
    let long = MOST_FRAME / period * period;
    let mut graphs = vec![plain(period, period, period - 1), heavy(long, 1, 1)];
    let work = long / period - 1;
    graphs[1] = heavy(long, random.between(work / 2, work), work);
    random.shuffle(&mut graphs);
    packed(&graphs)
}

/// Late, if at all, only near the end of a long frame.
fn end(random: &mut Random) -> Vec<u8> {
    let period = random.pick(&[2, 4, 5, 8, 10, 16, 25]);
    let time = period - 1;
    let work = MOST_FRAME - MOST_FRAME / period * time;
    let graphs = vec![
        plain(period, period, time),
        heavy(MOST_FRAME, MOST_FRAME, work),
    ];
    tightened(random, graphs)
}

/// Graphs of time 0 that stretch the frame of a few small ones.
fn idle(random: &mut Random) -> Vec<u8> {
    let mut graphs = vec![
        plain(2, 2, 1),
        plain(8, 8, 2),
        plain(16, 16, 4),
        plain(MOST_FRAME, MOST_FRAME, 0),
    ];
    for _ in 0..3 {
        graphs.push(plain(random.pick(&[5, 125, 625, 3_125]), 7, 0));
    }
    random.shuffle(&mut graphs);
    tightened(random, graphs)
}

/// Small coprime periods with a long frame, full load where that can be had.
fn primes(random: &mut Random) -> Vec<u8> {
    loop {
        let mut pool = [4, 5, 7, 9, 11, 13, 16, 17, 19, 23, 25, 27, 29, 31];
        random.shuffle(&mut pool);
        let mut graphs: Vec<Graph> = Vec::new();
        let mut frame = 1;
        for period in pool {
            let next = frame / gcd(frame, period) * period;
            if next <= MOST_FRAME && graphs.len() < 7 {
                frame = next;
                graphs.push(plain(
                    period,
                    period,
                    random.between(1, (period / 4).max(1)),
                ));
            }
        }
        if maker::fill_up(random, &mut graphs) {
            return tightened(random, graphs);
        }
    }
}

/// Eight periods at a load two ticks below their frame, and sheets next to that one.
fn design(random: &mut Random) -> Vec<u8> {
    let mut graphs: Vec<Graph> = [
        (40, 40, 1),
        (63, 60, 1),
        (44, 44, 3),
        (26, 17, 3),
        (34, 34, 12),
        (30, 30, 8),
        (45, 31, 3),
        (56, 46, 5),
    ]
    .map(|(period, deadline, time)| plain(period, deadline, time))
    .to_vec();
    for _ in 0..random.below(4) {
        let graph = &mut graphs[random.below(8)];
        let by = random.pick(&[-1, 1]);
        match random.below(6) {
            0 => graph.period += by,
            1 => graph.times[0] = (graph.times[0] + by).max(1),
            _ => graph.deadline += by * random.between(1, 8),
        }
    }
    if random.once_in(4) {
        maker::tighten_one(&mut graphs, random.below(8));
    }
    random.shuffle(&mut graphs);
    packed(&graphs)
}

/// Skips that are used up only far into the frame, actor by actor, at a load at or just below it.
fn bends(random: &mut Random) -> Vec<u8> {
    let frame = random.pick(&[9_979_200, 9_699_690, 8_648_640, 10_000_000]);
    let count = random.between(1, 7);
    let most = random.pick(&[20, 60, 400]);
    let short: Vec<i64> = (count.max(4)..most)
        .filter(|period| frame % period == 0)
        .collect();
    let mut graphs = Vec::new();
    if random.once_in(2) {
        for _ in 0..count {
            let period = random.pick(&short);
            graphs.push(bending(random, frame, period, period / count));
        }
    } else {
        // Little work is skipped, so that demand stays close to the length all along.
        for _ in 0..5 {
            let period = random.pick(&short);
            graphs.push(plain(period, period, (period / 6).max(1)));
        }
        for _ in 0..2 {
            let period = frame / gcd(frame, random.between(2, 3_000));
            graphs.push(bending(random, frame, period, 40));
        }
    }
    if graphs.len() < 7 {
        graphs.push(plain(frame, frame, 0));
    }
    if random.below(4) > 0 {
        maker::fill_up(random, &mut graphs);
    }
    tightened(random, graphs)
}

/// A chain whose channels hold so many tokens that its first actor comes in near the frame's end.
/// The input holds all of it back, and takes what work the chain leaves.
fn bending(random: &mut Random, frame: i64, period: i64, work: i64) -> Graph {
    let chain = random.between(1, 30) as usize;
    let most = random.pick(&[1, 3, 3, 5]);
    let mut numbers = vec![1; chain + 2];
    for number in &mut numbers[1..=chain] {
        *number = random.between(1, most);
    }
    let step = frame / period / chain as i64 + 1;
    let mut channels = vec![link(&numbers, 0, chain + 1)];
    let mut times = vec![0; chain + 2];
    times[0] = work;
    for actor in 1..=chain {
        channels.push(link(&numbers, 0, actor));
        let mut channel = link(&numbers, actor, actor + 1);
        let blocks = random.between(step - step / 3, step);
        channel.tokens = (blocks * channel.produce * numbers[actor]).min(65_535);
        channels.push(channel);
        if (actor == 1 || random.once_in(2)) && numbers[actor] <= times[0] {
            times[actor] = 1;
            times[0] -= numbers[actor];
        }
    }
    if random.once_in(2) {
        channels.reverse();
    }
    Graph {
        input: 0,
        output: chain + 1,
        period,
        deadline: period,
        times,
        channels,
    }
}

fn link(numbers: &[i64], tail: usize, head: usize) -> Channel {
    let common = gcd(numbers[tail], numbers[head]);
    Channel {
        tail,
        head,
        produce: numbers[head] / common,
        consume: numbers[tail] / common,
        tokens: 0,
    }
}

/// Eight graphs that no search follows. The last may have a token less, and deadlock.
fn eight(random: &mut Random, mut graph: impl FnMut(&mut Random) -> Graph) -> Vec<Graph> {
    let mut graphs = Vec::new();
    while graphs.len() < 8 {
        let made = graph(random);
        if fast::judge(&packed(std::slice::from_ref(&made))).answer == 0 {
            graphs.push(made);
        }
    }
    let channel = &mut graphs[7].channels[0];
    if channel.tokens > 0 && random.once_in(3) {
        channel.tokens -= 1;
    }
    graphs
}

/// A graph of actors with these repetition numbers, the first of them the input and the last the
/// output, one tick each and in no hurry.
fn slow(numbers: &[i64], channels: Vec<Channel>) -> Graph {
    Graph {
        input: 0,
        output: numbers.len() - 1,
        period: MOST_FRAME,
        deadline: MOST_FRAME,
        times: vec![1; numbers.len()],
        channels,
    }
}

/// A ring through the actors `order`, from the input and on to the output. The first channel
/// closes it.
fn ring(numbers: &[i64], order: &[usize]) -> Vec<Channel> {
    let mut tail = order[order.len() - 1];
    let mut channels = Vec::new();
    for head in order {
        channels.push(link(numbers, tail, *head));
        tail = *head;
    }
    channels.push(link(numbers, 0, order[0]));
    channels.push(link(numbers, tail, numbers.len() - 1));
    channels
}

/// The first channel with hardly more tokens than the graph needs there.
fn closed(random: &mut Random, mut graph: Graph) -> Graph {
    let least = maker::fewest_tokens(&graph, 0).unwrap_or(65_535);
    graph.channels[0].tokens = (least + random.pick(&[0, 0, 0, 1, 100])).min(65_535);
    graph
}

/// Rings of coprime repetition numbers near 4,096.
fn coprime(random: &mut Random, against: bool) -> Graph {
    let around = random.pick(&[2, 3, 5, 14, 30]);
    let mut numbers = vec![1; around + 2];
    for number in &mut numbers[1..=around] {
        *number = match random.below(3) {
            0 => 4_096,
            1 => 4_095,
            _ => random.between(3_500, 4_096),
        };
    }
    let mut order: Vec<usize> = (1..=around).collect();
    if against {
        order.reverse();
    }
    let channels = ring(&numbers, &order);
    closed(random, slow(&numbers, channels))
}

/// A ring of one token or few, numbered so that it goes up and down in turn; every channel of it
/// may be there twice.
fn zigzag(random: &mut Random) -> Graph {
    let around = 30;
    let mut numbers = vec![random.pick(&[4_096, 4_096, 4_095]); around + 2];
    (numbers[0], numbers[around + 1]) = (1, 1);
    match random.below(4) {
        0 => numbers[1 + random.below(around)] = random.between(4_090, 4_096),
        1 => numbers[1 + random.below(around)] /= 3,
        _ => (),
    }
    let order: Vec<usize> = match random.below(3) {
        0 => (0..around)
            .map(|place| 1 + place / 2 + place % 2 * 15)
            .collect(),
        1 => (0..around).map(|place| 1 + place * 13 % around).collect(),
        _ => {
            let turn = |place| {
                if place % 2 == 0 {
                    place / 2
                } else {
                    around - 1 - place / 2
                }
            };
            (0..around).map(|place| 1 + turn(place)).collect()
        }
    };
    let mut graph = closed(random, slow(&numbers, ring(&numbers, &order)));
    if random.once_in(2) {
        let twice = graph.channels[..around].to_vec();
        graph.channels.extend(twice);
    }
    graph
}

/// A ring of one token whose every actor also feeds one more, the output or the last before it.
fn sink(random: &mut Random) -> Graph {
    let around = 15 + random.below(15);
    let number = random.between(4_090, 4_096);
    let once = random.once_in(2);
    let mut numbers = vec![number; if once { around + 2 } else { around + 3 }];
    let output = numbers.len() - 1;
    (numbers[0], numbers[output]) = (1, 1);
    let mut order: Vec<usize> = (1..=around).collect();
    match random.below(3) {
        0 => order.reverse(),
        1 => random.shuffle(&mut order),
        _ => (),
    }
    let mut channels = ring(&numbers, &order);
    channels.pop();
    for actor in 1..=around {
        channels.push(link(&numbers, actor, around + 1));
    }
    if !once {
        channels.push(link(&numbers, around + 1, output));
    }
    closed(random, slow(&numbers, channels))
}

/// Rates 4,095 and 4,096 one after the other. The last graph may pass the bound of repetition
/// numbers (answer 8), at the end of its chain.
fn rates(random: &mut Random) -> Vec<u8> {
    let mut graphs = eight(random, rated);
    if random.once_in(4) {
        let graph = &mut graphs[7];
        let last = graph.channels.len() - 1;
        let channel = &mut graph.channels[last];
        (channel.produce, channel.consume) = random.pick(&[(4_095, 4_094), (4_096, 4_093), (2, 1)]);
    }
    packed(&graphs)
}

fn rated(random: &mut Random) -> Graph {
    let between = 2 + random.below(29);
    let mut numbers = vec![1];
    for place in 0..between {
        numbers.push(4_096 - place as i64 % 2);
    }
    numbers.push(1);
    let order: Vec<usize> = (1..=between).collect();
    let mut channels = ring(&numbers, &order);
    if random.once_in(2) {
        channels.remove(0);
        return slow(&numbers, channels);
    }
    closed(random, slow(&numbers, channels))
}

/// Eight graphs of one size at half the load they may have.
fn light(random: &mut Random, actors: usize, channels: usize) -> Vec<Graph> {
    (0..8)
        .map(|_| {
            let mut graph = maker::valid_graph(random, actors, channels);
            graph.period = random.pick(&[2_000_000, 2_500_000, 5_000_000, 10_000_000]);
            graph.deadline = graph.period / 2;
            graph.times = vec![1; actors];
            graph
        })
        .collect()
}

/// Six periods within a frame, at a load close to it and with every deadline tightened.
fn close(random: &mut Random, frame: i64) -> Vec<u8> {
    let periods: Vec<i64> = (4..=frame.min(400))
        .filter(|period| frame % period == 0)
        .collect();
    let mut graphs = vec![plain(frame, frame, (frame / 50).clamp(1, 100_000))];
    for _ in 0..5 {
        let period = random.pick(&periods);
        graphs.push(plain(period, period, (period / 6).max(1)));
    }
    maker::fill_up(random, &mut graphs);
    tightened(random, graphs)
}

/// A sheet next to one of these, to search for slower ones; the same where none is found that is
/// judged as far.
pub fn vary(random: &mut Random, sheets: &[Vec<u8>]) -> Vec<u8> {
    let sheet = random.pick(sheets);
    let Ok(judged) = check(Form::Sheet(&sheet), 0) else {
        return sheet;
    };
    for _ in 0..20 {
        let mut graphs = judged.graphs.clone();
        for _ in 0..random.between(1, 3) {
            let place = random.below(graphs.len());
            change(random, &mut graphs[place]);
        }
        let varied = packed(&graphs);
        if matches!(fast::judge(&varied).answer, 0 | 10 | 21) {
            return varied;
        }
    }
    sheet
}

fn change(random: &mut Random, graph: &mut Graph) {
    let actor = random.below(graph.times.len());
    let channel = random.below(graph.channels.len().max(1));
    let step = |random: &mut Random, value: &mut i64, least: i64| {
        let most = random.pick(&[1, 1, 1, 10, *value / 4 + 1]);
        *value = (*value + random.pick(&[-1, 1]) * random.between(1, most)).max(least);
    };
    match random.below(6) {
        0 => step(random, &mut graph.period, 1),
        1 => step(random, &mut graph.times[actor], 0),
        2 if !graph.channels.is_empty() => step(random, &mut graph.channels[channel].tokens, 0),
        3 => graph.times[actor] = random.pick(&[0, 1]),
        _ => step(random, &mut graph.deadline, 1),
    }
}
