//! Search on small graphs, to show that the other two paths mean what document 01 says:
//! repetition numbers and skips by trying every vector, deadlock and fewest firings by walking
//! through every legal order, lengths one by one.

use crate::book::Progress;
use crate::calls::packed;
use crate::fast;
use crate::literal::{check, gcd, judge, Channel, Form, Graph};
use crate::random::Random;

const MOST_REPETITION: i64 = 9;
const MOST_SKIP: i64 = 8;
const MOST_STATES: i64 = 60_000;

#[derive(Default)]
struct Counts {
    reach: [usize; 2],
    balance: [usize; 2],
    once: [usize; 2],
    deadlock: [usize; 2],
    restless: [usize; 2],
    beyond: usize,
    skips: usize,
    positive_skips: usize,
    fewest: usize,
    spared: usize,
    together: usize,
    sheets: [usize; 3],
    lengths: usize,
    tasks: usize,
}

pub fn run(seed: u64, count: usize) -> Result<(), String> {
    let mut random = Random::new(seed);
    let mut counts = Counts::default();
    let mut progress = Progress::new("brute", count);
    let mut accepted = Vec::new();
    for done in 0..count {
        let graph = small_graph(&mut random);
        if confirm_graph(&graph, &mut counts).map_err(|what| format!("{what}: {graph:?}"))? {
            accepted.push(graph);
        }
        if !accepted.is_empty() {
            let mut sheet: Vec<Graph> = (0..random.between(1, 3))
                .map(|_| random.pick(&accepted))
                .collect();
            small_times(&mut random, &mut sheet);
            confirm_sheet(&sheet, &mut counts).map_err(|what| format!("{what}: {sheet:?}"))?;
        }
        progress.at(done + 1);
    }
    let c = counts;
    println!("{count} graphs");
    println!("reach: {} whole, {} not", c.reach[0], c.reach[1]);
    println!(
        "repetition by search: {} found, {} none, {} beyond the search",
        c.balance[0], c.balance[1], c.beyond
    );
    println!("once: {} yes, {} no", c.once[0], c.once[1]);
    println!(
        "deadlock by search over legal orders: {} run through, {} get stuck",
        c.deadlock[0], c.deadlock[1]
    );
    println!("at rest: {} yes, {} no", c.restless[0], c.restless[1]);
    println!(
        "skips by search: {} vectors, {} with a skip above 0",
        c.skips, c.positive_skips
    );
    println!(
        "fewest firings by search over legal orders: {} numbers, {} below K x repetition, {} vectors reached together",
        c.fewest, c.spared, c.together
    );
    println!(
        "sheets, every length one by one: {} accepted, {} overload, {} late, {} lengths, {} task demands",
        c.sheets[0], c.sheets[1], c.sheets[2], c.lengths, c.tasks
    );
    println!("all confirmed");
    Ok(())
}

fn small_graph(random: &mut Random) -> Graph {
    let actors = 1 + random.below(4);
    let (input, mut output) = (random.below(actors), random.below(actors));
    let mut channels = Vec::new();
    if random.once_in(4) {
        for _ in 0..random.below(6) {
            channels.push(Channel {
                tail: random.below(actors),
                head: random.below(actors),
                produce: random.between(1, 3),
                consume: random.between(1, 3),
                tokens: random.between(0, 4),
            });
        }
    } else {
        let mut numbers: Vec<i64> = (0..actors).map(|_| random.between(1, 3)).collect();
        if random.below(8) > 0 {
            numbers[input] = 1;
            numbers[output] = 1;
        }
        // Along a line from the input to the output, then anywhere.
        let mut line: Vec<usize> = (0..actors).filter(|actor| *actor != input).collect();
        random.shuffle(&mut line);
        line.insert(0, input);
        if random.below(3) > 0 {
            output = line[actors - 1];
            numbers[output] = numbers[input];
        }
        let mut ends: Vec<(usize, usize)> =
            line.windows(2).map(|pair| (pair[0], pair[1])).collect();
        let along = ends.len();
        if output != line[actors - 1] {
            ends.push((line[actors - 1], output));
        }
        for _ in 0..random.below(4) {
            ends.push((random.below(actors), random.below(actors)));
        }
        for (place, (tail, head)) in ends.into_iter().enumerate() {
            let common = gcd(numbers[tail], numbers[head]);
            let times = random.pick(&[1, 1, 1, 2, 3]);
            let spoilt = i64::from(random.once_in(30));
            let consume = numbers[tail] / common * times;
            // Too few to fire along the line, mostly; enough to close a cycle, mostly.
            let tokens = if place < along && random.below(12) > 0 {
                random.between(0, consume - 1)
            } else {
                random.pick(&[0, 1, 2, 3, 4, 6, consume, 2 * consume])
            };
            channels.push(Channel {
                tail,
                head,
                produce: numbers[head] / common * times + spoilt,
                consume,
                tokens,
            });
        }
        random.shuffle(&mut channels);
    }
    Graph {
        input,
        output,
        period: 1,
        deadline: 1,
        times: vec![0; actors],
        channels,
    }
}

fn small_times(random: &mut Random, sheet: &mut [Graph]) {
    for graph in sheet {
        graph.period = random.between(1, 12) * random.pick(&[1, 1, 2, 3]);
        graph.deadline = random.between(1, 3 * graph.period / 2 + 1);
        let most = random.between(0, 4);
        for time in &mut graph.times {
            *time = if random.once_in(3) {
                0
            } else {
                random.between(0, most)
            };
        }
    }
}

/// Every vector with entries from `low` to `high`.
fn vectors(length: usize, low: i64, high: i64, mut each: impl FnMut(&[i64])) {
    let mut vector = vec![low; length];
    loop {
        each(&vector);
        let Some(place) = vector.iter().position(|entry| *entry < high) else {
            return;
        };
        vector[place] += 1;
        vector[..place].fill(low);
    }
}

fn path(graph: &Graph, from: usize, to: usize, passed: &mut Vec<usize>) -> bool {
    if from == to {
        return true;
    }
    passed.push(from);
    let found = graph.channels.iter().any(|channel| {
        channel.tail == from
            && !passed.contains(&channel.head)
            && path(graph, channel.head, to, passed)
    });
    passed.pop();
    found
}

fn balanced(graph: &Graph, vector: &[i64]) -> bool {
    graph
        .channels
        .iter()
        .all(|c| vector[c.tail] * c.produce == vector[c.head] * c.consume)
}

fn least_balanced(graph: &Graph) -> Option<Vec<i64>> {
    let mut least: Option<Vec<i64>> = None;
    vectors(graph.times.len(), 1, MOST_REPETITION, |vector| {
        if balanced(graph, vector) {
            let least = least.get_or_insert_with(|| vector.to_vec());
            least
                .iter_mut()
                .zip(vector)
                .for_each(|(least, entry)| *least = (*least).min(*entry));
        }
    });
    least
}

/// Tokens after these firings, in whatever order.
fn tokens(graph: &Graph, fired: &[i64], channel: &Channel) -> i64 {
    debug_assert_eq!(fired.len(), graph.times.len());
    channel.tokens + fired[channel.tail] * channel.produce - fired[channel.head] * channel.consume
}

/// Every vector of firings that some legal order reaches without passing `most`.
fn reached(graph: &Graph, most: &[i64]) -> Vec<Vec<i64>> {
    let place = |fired: &[i64]| {
        fired
            .iter()
            .zip(most)
            .fold(0, |at, (entry, most)| at * (most + 1) + entry) as usize
    };
    let states: i64 = most.iter().map(|most| most + 1).product();
    let mut seen = vec![false; states as usize];
    let mut found = vec![vec![0; most.len()]];
    seen[0] = true;
    let mut next = 0;
    while next < found.len() {
        for actor in 0..most.len() {
            let fired = &found[next];
            let into = graph
                .channels
                .iter()
                .filter(|channel| channel.head == actor);
            let enabled = into
                .into_iter()
                .all(|channel| tokens(graph, fired, channel) >= channel.consume);
            if enabled && fired[actor] < most[actor] {
                let mut after = fired.clone();
                after[actor] += 1;
                if !std::mem::replace(&mut seen[place(&after)], true) {
                    found.push(after);
                }
            }
        }
        next += 1;
    }
    found
}

fn greatest_skips(graph: &Graph) -> Vec<i64> {
    let mut greatest = vec![0; graph.times.len()];
    vectors(greatest.len(), 0, MOST_SKIP, |vector| {
        let within =
            |c: &Channel| vector[c.tail] <= (c.tokens + vector[c.head] * c.consume) / c.produce;
        if vector[graph.output] == 0 && graph.channels.iter().all(within) {
            greatest
                .iter_mut()
                .zip(vector)
                .for_each(|(greatest, entry)| *greatest = (*greatest).max(*entry));
        }
    });
    greatest
}

/// The lines 7 to 11 by search against both paths; whether the graph is accepted.
fn confirm_graph(graph: &Graph, counts: &mut Counts) -> Result<bool, String> {
    let actors = graph.times.len();
    let sheet = packed(std::slice::from_ref(graph));
    let given = judge(Form::Sheet(&sheet), 0).answer;
    if fast::judge(&sheet).answer != given {
        return Err("the paths differ".to_string());
    }
    let expect = |answer: u64| {
        if given == answer {
            Ok(false)
        } else {
            Err(format!("search says {answer}, program {given}"))
        }
    };

    let whole = (0..actors).all(|actor| {
        path(graph, graph.input, actor, &mut Vec::new())
            && path(graph, actor, graph.output, &mut Vec::new())
    });
    counts.reach[usize::from(!whole)] += 1;
    if !whole {
        return expect(7);
    }
    let Some(repetition) = least_balanced(graph) else {
        let program = check(Form::Sheet(&sheet), 0)
            .ok()
            .map(|judged| judged.repetition[0].clone());
        if given != 8 && program.is_none_or(|numbers| numbers.iter().any(|n| *n > MOST_REPETITION))
        {
            counts.beyond += 1;
            return Ok(false);
        }
        counts.balance[1] += 1;
        return expect(8);
    };
    counts.balance[0] += 1;
    if !balanced(graph, &repetition) {
        return Err("no least balanced vector".to_string());
    }
    let once = repetition[graph.input] == 1 && repetition[graph.output] == 1;
    counts.once[usize::from(!once)] += 1;
    if !once {
        return expect(9);
    }
    let stuck = !reached(graph, &repetition).contains(&repetition);
    counts.deadlock[usize::from(stuck)] += 1;
    if stuck {
        return expect(10);
    }
    let one_each = vec![1; actors];
    let first = reached(graph, &one_each);
    let restless = first
        .iter()
        .any(|fired| fired.iter().sum::<i64>() == 1 && fired[graph.input] == 0);
    counts.restless[usize::from(restless)] += 1;
    if restless {
        return expect(11);
    }
    expect(0)?;

    let judged = check(Form::Sheet(&sheet), 0).map_err(|_| "refused after all".to_string())?;
    if judged.repetition[0] != repetition {
        return Err(format!(
            "repetition {:?}, by search {repetition:?}",
            judged.repetition[0]
        ));
    }
    if judged.skips[0].iter().all(|skip| *skip <= MOST_SKIP) {
        let skips = greatest_skips(graph);
        if judged.skips[0] != skips {
            return Err(format!("skips {:?}, by search {skips:?}", judged.skips[0]));
        }
        counts.skips += 1;
        counts.positive_skips += usize::from(skips.iter().any(|skip| *skip > 0));
    }
    for k in 0..=3 {
        let most: Vec<i64> = repetition.iter().map(|number| (k + 1) * number).collect();
        if most.iter().map(|most| most + 1).product::<i64>() > MOST_STATES {
            break;
        }
        let states = reached(graph, &most);
        let enough = || states.iter().filter(|fired| fired[graph.output] >= k);
        let fewest: Vec<i64> = (0..actors)
            .map(|actor| enough().map(|fired| fired[actor]).min().unwrap_or(-1))
            .collect();
        for actor in 0..actors {
            let program = judged.fewest(0, actor, k, 0);
            if program != fewest[actor] {
                return Err(format!(
                    "fewest firings of {actor} for {k}: {program}, by search {}",
                    fewest[actor]
                ));
            }
            counts.fewest += 1;
            counts.spared += usize::from(program < k * repetition[actor]);
        }
        if !states.contains(&fewest) {
            return Err(format!(
                "fewest firings {fewest:?} for {k} not reached together"
            ));
        }
        counts.together += 1;
    }
    Ok(true)
}

/// The verdict by walking through every length for three frames and more.
fn confirm_sheet(sheet: &[Graph], counts: &mut Counts) -> Result<(), String> {
    let bytes = packed(sheet);
    let verdict = judge(Form::Sheet(&bytes), 0);
    if fast::judge(&bytes) != verdict {
        return Err(format!(
            "the paths differ: {verdict}, {}",
            fast::judge(&bytes)
        ));
    }
    let judged = check(Form::Sheet(&bytes), 0).map_err(|_| "refused".to_string())?;
    let frame = (1..)
        .find(|frame| sheet.iter().all(|graph| frame % graph.period == 0))
        .unwrap_or(0);
    let mut load = 0;
    let mut late = None;
    let greatest = sheet.iter().map(|graph| graph.deadline).max().unwrap_or(0);
    for length in 0..3 * frame + greatest {
        let mut demand = 0;
        for (place, graph) in sheet.iter().enumerate() {
            let due = (0..)
                .take_while(|block| graph.deadline + block * graph.period <= length)
                .count() as i64;
            let mut of_graph = 0;
            for (actor, time) in graph.times.iter().enumerate() {
                of_graph += time * judged.fewest(place, actor, due, 0);
                if length > 0 && length <= frame && length % graph.period == 0 {
                    load += time * judged.repetition[place][actor];
                }
            }
            let tasks: i64 = judged
                .tasks(place)
                .chunks(3)
                .map(|task| {
                    let (work, deadline, period) = (task[0] as i64, task[1] as i64, task[2] as i64);
                    work * (0..)
                        .take_while(|release| deadline + release * period <= length)
                        .count() as i64
                })
                .sum();
            if tasks != of_graph {
                return Err(format!(
                    "demand of the task list at {length}: {tasks}, of the graph {of_graph}"
                ));
            }
            counts.tasks += 1;
            demand += of_graph;
        }
        if demand != judged.demand(length, 0) {
            return Err(format!(
                "demand at {length}: {}, one by one {demand}",
                judged.demand(length, 0)
            ));
        }
        if demand > length && late.is_none() {
            late = Some(length);
        }
        counts.lengths += 1;
    }
    let answer = if load > frame {
        20
    } else if late.is_some() {
        21
    } else {
        0
    };
    let length = if answer == 21 { late.unwrap_or(0) } else { 0 };
    let expected = (answer, load as u64, frame as u64, length as u64);
    if (verdict.answer, verdict.load, verdict.frame, verdict.length) != expected {
        return Err(format!("verdict {verdict}, one by one {expected:?}"));
    }
    counts.sheets[match answer {
        0 => 0,
        20 => 1,
        _ => 2,
    }] += 1;
    Ok(())
}
