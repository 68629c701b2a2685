//! Every call but the verdict, by the literal judgement. A call checks its input through 12,
//! then 15, 13, 14 as far as they can arise; with any refusal the value is 0 and nothing lent
//! changes. `checked` is the outcome of lines 1 to 12 for the sheet or the list.

use crate::answer::{Refusal, Reply};
use crate::literal::{Graph, Judged};

pub type Checked = Result<Judged, Refusal>;

pub const MOST_QUESTION: u64 = 10_000_000;

fn refused(refusal: Refusal) -> Reply {
    Reply {
        answer: refusal.answer,
        place: refusal.place,
        value: 0,
        written: Vec::new(),
    }
}

fn refused_with(answer: u64) -> Reply {
    refused(Refusal { answer, place: 0 })
}

fn value(value: i64) -> Reply {
    Reply {
        answer: 0,
        place: 0,
        value: value as u64,
        written: Vec::new(),
    }
}

fn filled(written: Vec<u64>, room: u64) -> Reply {
    if room < written.len() as u64 {
        return refused_with(14);
    }
    Reply {
        answer: 0,
        place: 0,
        value: written.len() as u64,
        written,
    }
}

pub fn demand(checked: &Checked, length: u64) -> Reply {
    match checked {
        Err(refusal) => refused(*refusal),
        Ok(_) if length > MOST_QUESTION => refused_with(13),
        Ok(judged) => value(judged.demand(length as i64, 0)),
    }
}

pub fn fewest(checked: &Checked, graph: u64, actor: u64, k: u64) -> Reply {
    match checked {
        Err(refusal) => refused(*refusal),
        Ok(judged) if graph >= judged.graphs.len() as u64 => refused_with(15),
        Ok(judged) if actor >= judged.graphs[graph as usize].times.len() as u64 => refused_with(15),
        Ok(_) if k > MOST_QUESTION => refused_with(13),
        Ok(judged) => value(judged.fewest(graph as usize, actor as usize, k as i64, 0)),
    }
}

fn of_graph(
    checked: &Checked,
    graph: u64,
    room: u64,
    numbers: impl Fn(&Judged, usize) -> Vec<u64>,
) -> Reply {
    match checked {
        Err(refusal) => refused(*refusal),
        Ok(judged) if graph >= judged.graphs.len() as u64 => refused_with(15),
        Ok(judged) => filled(numbers(judged, graph as usize), room),
    }
}

fn unsigned(numbers: &[i64]) -> Vec<u64> {
    numbers.iter().map(|number| *number as u64).collect()
}

pub fn repetition(checked: &Checked, graph: u64, room: u64) -> Reply {
    of_graph(checked, graph, room, |judged, graph| {
        unsigned(&judged.repetition[graph])
    })
}

pub fn skips(checked: &Checked, graph: u64, room: u64) -> Reply {
    of_graph(checked, graph, room, |judged, graph| {
        unsigned(&judged.skips[graph])
    })
}

pub fn tasks(checked: &Checked, graph: u64, room: u64) -> Reply {
    of_graph(checked, graph, room, |judged, graph| judged.tasks(graph))
}

/// `checked` is of the sheet.
pub fn unpack(checked: &Checked, room: u64) -> Reply {
    match checked {
        Err(refusal) => refused(*refusal),
        Ok(judged) => filled(
            unpacked(&judged.graphs)
                .into_iter()
                .map(u64::from)
                .collect(),
            room,
        ),
    }
}

/// `checked` is of the list.
pub fn pack(checked: &Checked, room: u64) -> Reply {
    match checked {
        Err(refusal) => refused(*refusal),
        Ok(judged) => filled(
            packed(&judged.graphs).into_iter().map(u64::from).collect(),
            room,
        ),
    }
}

/// The unpacked form: graph count, then every field in the sheet's order.
pub fn unpacked(graphs: &[Graph]) -> Vec<u32> {
    let mut list = vec![graphs.len() as u32];
    for graph in graphs {
        list.extend([
            graph.times.len() as u32,
            graph.channels.len() as u32,
            graph.input as u32,
            graph.output as u32,
            graph.period as u32,
            graph.deadline as u32,
        ]);
        list.extend(graph.times.iter().map(|time| *time as u32));
        for channel in &graph.channels {
            list.extend([
                channel.tail as u32,
                channel.head as u32,
                channel.produce as u32,
                channel.consume as u32,
                channel.tokens as u32,
            ]);
        }
    }
    list
}

/// The sheet, byte by byte; each field keeps only the bits of its width.
pub fn packed(graphs: &[Graph]) -> Vec<u8> {
    let mut sheet = vec![0, 0, 1, graphs.len() as u8];
    for graph in graphs {
        sheet.extend([
            graph.times.len() as u8,
            graph.channels.len() as u8,
            graph.input as u8,
            graph.output as u8,
        ]);
        sheet.extend((graph.period as u32).to_be_bytes());
        sheet.extend((graph.deadline as u32).to_be_bytes());
        for time in &graph.times {
            sheet.extend((*time as u32).to_be_bytes());
        }
        for channel in &graph.channels {
            sheet.extend([channel.tail as u8, channel.head as u8]);
            for field in [channel.produce, channel.consume, channel.tokens] {
                sheet.extend((field as u16).to_be_bytes());
            }
        }
    }
    write_length(&mut sheet);
    sheet
}

/// Makes the length field say the number of bytes, as far as its two bytes can.
pub fn write_length(sheet: &mut [u8]) {
    let length = (sheet.len() as u16).to_be_bytes();
    if let Some(field) = sheet.get_mut(..2) {
        field.copy_from_slice(&length);
    }
}
