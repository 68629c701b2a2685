//! A book of sheets in one file: each sheet after its byte count in 4 bytes, big-endian.

use std::fs;
use std::io::{Error, ErrorKind, Result};
use std::time::Instant;

pub fn read(path: &str) -> Result<Vec<Vec<u8>>> {
    let bytes = fs::read(path)?;
    let cut = || {
        Error::new(
            ErrorKind::UnexpectedEof,
            format!("{path}: the last sheet is cut"),
        )
    };
    let mut sheets = Vec::new();
    let mut at = 0;
    while at < bytes.len() {
        let count = bytes.get(at..at + 4).ok_or_else(cut)?;
        let count = u32::from_be_bytes([count[0], count[1], count[2], count[3]]) as usize;
        sheets.push(bytes.get(at + 4..at + 4 + count).ok_or_else(cut)?.to_vec());
        at += 4 + count;
    }
    Ok(sheets)
}

pub fn write(path: &str, sheets: &[Vec<u8>]) -> Result<()> {
    let mut bytes = Vec::new();
    for sheet in sheets {
        bytes.extend((sheet.len() as u32).to_be_bytes());
        bytes.extend(sheet);
    }
    fs::write(path, bytes)
}

/// A line on standard error every few seconds: how far a long run is, and how fast.
pub struct Progress {
    what: &'static str,
    total: usize,
    begun: Instant,
    said: u64,
}

impl Progress {
    pub fn new(what: &'static str, total: usize) -> Progress {
        Progress {
            what,
            total,
            begun: Instant::now(),
            said: 0,
        }
    }

    pub fn at(&mut self, done: usize) {
        let seconds = self.begun.elapsed().as_secs();
        if seconds >= self.said + 5 {
            self.said = seconds;
            let rate = done as f64 / self.begun.elapsed().as_secs_f64();
            eprintln!(
                "{}: {} of {}, {:.0} per second",
                self.what, done, self.total, rate
            );
        }
    }
}
