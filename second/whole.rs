//! Every number of one sheet, by the literal judgement.

use crate::calls::{self, packed, unpacked};
use crate::literal::{blocks_due, check, Form};
use std::fmt::Write;

/// Rises of demand looked at, at most.
const RISES: usize = 64;

pub fn numbers(sheet: &[u8]) -> String {
    let mut text = String::new();
    let checked = check(Form::Sheet(sheet), 0);
    let judged = match &checked {
        Err(refusal) => return format!("refused {} at {}\n", refusal.answer, refusal.place),
        Ok(judged) => judged,
    };
    let mut line = |words: String, numbers: &[u64]| {
        let _ = write!(text, "{words}");
        for number in numbers {
            let _ = write!(text, " {number}");
        }
        text.push('\n');
    };
    for (place, graph) in judged.graphs.iter().enumerate() {
        let asked = place as u64;
        line(
            format!("graph {place} repetition"),
            &calls::repetition(&checked, asked, u64::MAX).written,
        );
        line(
            format!("graph {place} skips"),
            &calls::skips(&checked, asked, u64::MAX).written,
        );
        for k in [0, 1, 2, 3, 10, 10_000_000] {
            let fewest: Vec<u64> = (0..graph.times.len() as u64)
                .map(|actor| calls::fewest(&checked, asked, actor, k).value)
                .collect();
            line(format!("graph {place} fewest for {k}"), &fewest);
        }
        line(
            format!("graph {place} tasks"),
            &calls::tasks(&checked, asked, u64::MAX).written,
        );
    }

    let mut lengths = vec![0, 1];
    for graph in &judged.graphs {
        for block in 0..RISES as i64 {
            let rise = graph.deadline + block * graph.period;
            debug_assert_eq!(blocks_due(graph, rise, 0), block + 1);
            lengths.extend([rise - 1, rise, rise + 1]);
        }
    }
    lengths.retain(|length| *length <= 10_000_000);
    lengths.sort_unstable();
    lengths.dedup();
    lengths.truncate(3 * RISES);
    for length in lengths {
        line(
            format!("demand {length}"),
            &[calls::demand(&checked, length as u64).value],
        );
    }
    let list: Vec<u64> = unpacked(&judged.graphs)
        .into_iter()
        .map(u64::from)
        .collect();
    line("unpacked".to_string(), &list);
    let _ = writeln!(text, "packed {}", crate::hex(&packed(&judged.graphs)));
    text
}
