//! Writes calls with their expected results for harness.c, which makes them through the C
//! entries. Numbers are big-endian. Records:
//!
//! - `S` none(1) count(4) bytes: the sheet of the following calls. With none = 1 the count is 0
//!   and the pointer NULL.
//! - `L` none(1) count(4) numbers(4 each): the unpacked list of the following calls.
//! - `C` call(1) graph(8) actor(8) question(8) room(8) none(1), then the expected answer(8)
//!   place(8) value(8) load(8) frame(8) length(8) count(4) and that many numbers(8 each), the
//!   start of the lent room afterwards. With none = 1 the room is 0 and the pointer NULL.
//! - `E` calls(8): the end.

use crate::answer::{Reply, Verdict};
use crate::book::Progress;
use crate::calls::{self, packed, Checked};
use crate::fast;
use crate::literal::{check, judge, Form};
use crate::maker;
use crate::random::Random;
use std::io::{Result, Write};

/// In harness.c's order; those from 8 on take the list.
const JUDGE: u8 = 0;
const DEMAND: u8 = 1;
const FEWEST: u8 = 2;
const REPETITION: u8 = 3;
const SKIPS: u8 = 4;
const TASKS: u8 = 5;
const UNPACK: u8 = 6;
const PACK: u8 = 7;
const OF_LIST: u8 = 8;

#[derive(Clone, Copy, Default)]
struct Question {
    graph: u64,
    actor: u64,
    asked: u64,
    room: u64,
    none: bool,
}

struct Stream<W: Write> {
    out: W,
    calls: u64,
}

impl<W: Write> Stream<W> {
    fn sheet(&mut self, sheet: &[u8], none: bool) -> Result<()> {
        self.out.write_all(&[b'S', u8::from(none)])?;
        self.out.write_all(&(sheet.len() as u32).to_be_bytes())?;
        self.out.write_all(sheet)
    }

    fn list(&mut self, list: &[u32], none: bool) -> Result<()> {
        self.out.write_all(&[b'L', u8::from(none)])?;
        self.out.write_all(&(list.len() as u32).to_be_bytes())?;
        list.iter()
            .try_for_each(|number| self.out.write_all(&number.to_be_bytes()))
    }

    fn call(
        &mut self,
        call: u8,
        question: Question,
        reply: &Reply,
        verdict: Verdict,
    ) -> Result<()> {
        self.calls += 1;
        self.out.write_all(&[b'C', call])?;
        for number in [
            question.graph,
            question.actor,
            question.asked,
            question.room,
        ] {
            self.out.write_all(&number.to_be_bytes())?;
        }
        self.out.write_all(&[u8::from(question.none)])?;
        let expected = [
            reply.answer,
            reply.place,
            reply.value,
            verdict.load,
            verdict.frame,
            verdict.length,
        ];
        for number in expected {
            self.out.write_all(&number.to_be_bytes())?;
        }
        self.out
            .write_all(&(reply.written.len() as u32).to_be_bytes())?;
        reply
            .written
            .iter()
            .try_for_each(|number| self.out.write_all(&number.to_be_bytes()))
    }

    fn verdict(&mut self, call: u8, verdict: Verdict) -> Result<()> {
        let reply = Reply {
            answer: verdict.answer,
            place: verdict.place,
            value: 0,
            written: Vec::new(),
        };
        self.call(call, Question::default(), &reply, verdict)
    }

    /// Any call but the verdict, on the sheet (`of` 0) or the list (`of` 8).
    fn ask(&mut self, checked: &Checked, of: u8, call: u8, question: Question) -> Result<()> {
        let reply = match call {
            DEMAND => calls::demand(checked, question.asked),
            FEWEST => calls::fewest(checked, question.graph, question.actor, question.asked),
            REPETITION => calls::repetition(checked, question.graph, question.room),
            SKIPS => calls::skips(checked, question.graph, question.room),
            TASKS => calls::tasks(checked, question.graph, question.room),
            UNPACK => calls::unpack(checked, question.room),
            _ => calls::pack(checked, question.room),
        };
        let number = if call >= UNPACK { call } else { call + of };
        self.call(number, question, &reply, Verdict::default())
    }
}

pub fn run(seed: u64, count: usize) -> std::result::Result<(), String> {
    let mut stream = Stream {
        out: std::io::BufWriter::with_capacity(1 << 16, std::io::stdout()),
        calls: 0,
    };
    let mut random = Random::new(seed);
    let mut progress = Progress::new("cases", count);
    let mut write = || -> Result<()> {
        nothing_lent(&mut stream)?;
        too_long(&mut stream, &mut random)?;
        for made in 0..count {
            one_sheet(&mut stream, &mut random)?;
            progress.at(made + 1);
        }
        stream.out.write_all(b"E")?;
        stream.out.write_all(&stream.calls.to_be_bytes())?;
        stream.out.flush()
    };
    write().map_err(|error| error.to_string())?;
    eprintln!("{count} sheets, {} calls", stream.calls);
    Ok(())
}

fn all_calls<W: Write>(
    stream: &mut Stream<W>,
    checked: &Checked,
    of: u8,
    question: Question,
) -> Result<()> {
    for call in DEMAND..=TASKS {
        stream.ask(checked, of, call, question)?;
    }
    stream.ask(checked, of, if of == 0 { UNPACK } else { PACK }, question)
}

/// NULL and length 0 for every input and every lent room.
fn nothing_lent<W: Write>(stream: &mut Stream<W>) -> Result<()> {
    for none in [true, false] {
        let question = Question {
            none,
            ..Question::default()
        };
        stream.sheet(&[], none)?;
        stream.verdict(JUDGE, judge(Form::Sheet(&[]), 0))?;
        all_calls(stream, &check(Form::Sheet(&[]), 0), 0, question)?;
        stream.list(&[], none)?;
        stream.verdict(JUDGE + OF_LIST, judge(Form::List(&[]), 0))?;
        all_calls(stream, &check(Form::List(&[]), 0), OF_LIST, question)?;
    }
    Ok(())
}

/// More bytes than the length field can say, and lists far longer than any sheet.
fn too_long<W: Write>(stream: &mut Stream<W>, random: &mut Random) -> Result<()> {
    for more in [65_516, 65_535, 65_536, 70_000, 131_072] {
        let mut graphs = maker::sheet(random, maker::Size::Small);
        graphs.truncate(1);
        let mut sheet = packed(&graphs);
        let length = sheet.len();
        sheet.resize(length + more, 0);
        // The field holds the low 16 bits, or still says how long the sheet in front is.
        let says = random.pick(&[length, length + more]);
        sheet[..2].copy_from_slice(&(says as u16).to_be_bytes());
        stream.sheet(&sheet, false)?;
        stream.verdict(JUDGE, both_paths(Form::Sheet(&sheet)))?;
        all_calls(
            stream,
            &check(Form::Sheet(&sheet), 0),
            0,
            Question {
                room: 9,
                ..Question::default()
            },
        )?;
        let mut list = calls::unpacked(&graphs);
        list.resize(list.len() + more, 1);
        stream.list(&list, false)?;
        stream.verdict(JUDGE + OF_LIST, both_paths(Form::List(&list)))?;
        all_calls(
            stream,
            &check(Form::List(&list), 0),
            OF_LIST,
            Question {
                room: 9,
                ..Question::default()
            },
        )?;
    }
    Ok(())
}

fn both_paths(form: Form) -> Verdict {
    let verdict = judge(form, 0);
    let fast = match form {
        Form::Sheet(sheet) => fast::judge(sheet),
        Form::List(list) => fast::judge_list(list),
    };
    assert_eq!(verdict, fast, "the paths differ");
    verdict
}

fn one_sheet<W: Write>(stream: &mut Stream<W>, random: &mut Random) -> Result<()> {
    let sheet = maker::make(random);
    stream.sheet(&sheet, false)?;
    stream.verdict(JUDGE, both_paths(Form::Sheet(&sheet)))?;
    questions(stream, random, &check(Form::Sheet(&sheet), 0), 0)?;

    let mut list = unpacked_as_far_as(&sheet);
    if random.once_in(3) {
        spoil(random, &mut list);
    }
    stream.list(&list, false)?;
    stream.verdict(JUDGE + OF_LIST, both_paths(Form::List(&list)))?;
    questions(stream, random, &check(Form::List(&list), 0), OF_LIST)
}

/// The fields of a sheet one by one, whatever they say, as far as it goes.
fn unpacked_as_far_as(sheet: &[u8]) -> Vec<u32> {
    let mut at = 3;
    let mut list = Vec::new();
    let mut take = |width: usize, list: &mut Vec<u32>| -> Option<u32> {
        let field = sheet.get(at..at + width)?;
        at += width;
        let value = field
            .iter()
            .fold(0, |value, byte| value << 8 | u32::from(*byte));
        list.push(value);
        Some(value)
    };
    let mut walk = || -> Option<()> {
        for _ in 0..take(1, &mut list)? {
            let (actors, channels) = (take(1, &mut list)?, take(1, &mut list)?);
            for width in [1, 1, 4, 4] {
                take(width, &mut list)?;
            }
            for _ in 0..actors {
                take(4, &mut list)?;
            }
            for _ in 0..channels {
                for width in [1, 1, 2, 2, 2] {
                    take(width, &mut list)?;
                }
            }
        }
        Some(())
    };
    let _ = walk();
    list
}

/// One number changed, mostly to one above its field's width; or the list cut or extended.
fn spoil(random: &mut Random, list: &mut Vec<u32>) {
    if list.is_empty() {
        return;
    }
    let near = random.below(list.len().min(8));
    let any = random.below(list.len());
    let at = random.pick(&[0, near, any, any, any]);
    match random.below(8) {
        0 => list.truncate(any),
        1 => list.extend((0..1 + random.below(9)).map(|_| random.next() as u32)),
        2 => list[at] = random.pick(&[u32::MAX, 1 << 31, 1 << 16, 1 << 8, 257, 65_536, 65_537]),
        3 => list[at] = list[at].wrapping_sub(1),
        4 => list[at] = list[at].wrapping_add(1),
        5 => list[at] |= 1 << random.between(8, 31),
        6 => list[at] = list[at].wrapping_add(256),
        _ => list[at] = list[at].wrapping_add(65_536),
    }
}

fn questions<W: Write>(
    stream: &mut Stream<W>,
    random: &mut Random,
    checked: &Checked,
    of: u8,
) -> Result<()> {
    let whole = if of == 0 { UNPACK } else { PACK };
    let Ok(judged) = checked else {
        // The refusal comes before anything asked.
        for _ in 0..2 {
            let call = random.pick(&[DEMAND, FEWEST, REPETITION, SKIPS, TASKS, whole]);
            let odd = random.pick(&[0, 1, 8, u64::MAX]);
            let room = random.pick(&[0, 1, 3, 40, 400]);
            let question = Question {
                graph: odd,
                actor: odd,
                asked: odd,
                room,
                none: room == 0 && random.once_in(2),
            };
            stream.ask(checked, of, call, question)?;
        }
        return Ok(());
    };

    let count = judged.graphs.len() as u64;
    let beyond = [count, count + 1, 8, 255, 256, 1 << 32, u64::MAX];
    for _ in 0..4 {
        let graph = random.pick(&judged.graphs);
        let rise = graph.deadline + graph.period * random.pick(&[0, 0, 1, 2, 7, 100]);
        let near = (rise + random.between(-1, 1)).max(0) as u64;
        let edge = random.pick(&[
            0,
            10_000_000,
            10_000_001,
            1 << 32,
            (1 << 32) + near,
            u64::MAX,
        ]);
        let asked = random.pick(&[near, near, near, edge]);
        stream.ask(
            checked,
            of,
            DEMAND,
            Question {
                asked,
                ..Question::default()
            },
        )?;
    }
    for _ in 0..4 {
        let place = random.below(judged.graphs.len());
        let actors = judged.graphs[place].times.len();
        let skip = judged.skips[place].iter().max().copied().unwrap_or(0) as u64;
        let small = random.below(6) as u64;
        let large = random.pick(&[10_000_000, 10_000_001, 1 << 32, u64::MAX, 9_999_999]);
        let asked = random.pick(&[small, small, small, skip, large]);
        let mut question = Question {
            graph: place as u64,
            actor: random.below(actors) as u64,
            asked,
            ..Question::default()
        };
        match random.below(8) {
            0 => question.graph = random.pick(&beyond),
            1 => question.actor = random.pick(&[actors as u64, 32, 256, 1 << 32, u64::MAX]),
            _ => {}
        }
        stream.ask(checked, of, FEWEST, question)?;
    }
    for call in [REPETITION, SKIPS, TASKS, whole] {
        let place = random.below(judged.graphs.len());
        let graph = place as u64;
        let full = match call {
            REPETITION => calls::repetition(checked, graph, u64::MAX).value,
            SKIPS => calls::skips(checked, graph, u64::MAX).value,
            TASKS => calls::tasks(checked, graph, u64::MAX).value,
            UNPACK => calls::unpack(checked, u64::MAX).value,
            _ => calls::pack(checked, u64::MAX).value,
        };
        let more = full + random.between(1, 40) as u64;
        let other = random.below(full as usize) as u64;
        let room = random.pick(&[full, full, more, full - 1, other, 0]);
        for room in [full, room] {
            let none = room == 0 && random.once_in(2);
            let graph = if random.once_in(12) {
                random.pick(&beyond)
            } else {
                graph
            };
            stream.ask(
                checked,
                of,
                call,
                Question {
                    graph,
                    room,
                    none,
                    ..Question::default()
                },
            )?;
        }
    }
    Ok(())
}
