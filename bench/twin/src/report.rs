//! The totals as text, each line a row of spaces that numbers are put into.

use crate::arena::Arena;
use crate::loaders::{Loader, Loaders, SPACES};
use crate::pool::{size_of, LEVELS, NODE_WORDS};
use crate::reading::Space;
use crate::replies::put_number;

/// Appends a report.
pub fn append(text: &mut Vec<u8>, loaders: &Loaders) {
    text.extend_from_slice(b"Metaspace\n");
    number_line(text, b"loaders", loaders.count() as u64);
    append_space(text, loaders, Space::NonClass, b"Chunks by level\n");
    if loaders.pool.areas[Space::Class as usize].nodes() > 0 {
        text.extend_from_slice(b"Class space\n");
        append_space(text, loaders, Space::Class, b"Class chunks by level\n");
    }
    text.extend_from_slice(b"Loaders\n   name        kind  chunks  capacity      used      live\n");
    loaders
        .by_name()
        .for_each(|(name, loader)| loader_line(text, name, loader));
}

fn append_space(text: &mut Vec<u8>, loaders: &Loaders, space: Space, title: &[u8]) {
    let area = &loaders.pool.areas[space as usize];
    let sum = |amount: fn(&Arena) -> u64| -> u64 {
        loaders
            .by_name()
            .map(|(_, loader)| amount(&loader.arenas[space as usize]))
            .sum()
    };
    let (used, live, free) = (
        sum(|arena| arena.used),
        sum(|arena| arena.live),
        sum(Arena::free_words),
    );
    let numbers: [(&[u8], u64); 11] = [
        (b"nodes", area.nodes().into()),
        (b"reserved", u64::from(area.nodes()) * u64::from(NODE_WORDS)),
        (b"granules", area.granules.into()),
        (
            b"committed",
            u64::from(area.granules) * loaders.pool.granule_words(),
        ),
        (b"chunks", area.held.iter().copied().map(u64::from).sum()),
        (b"capacity", area.capacity),
        (b"fronts", area.fronts),
        (b"used", used),
        (b"live", live),
        (b"free blocks", free),
        (b"waste", used - live - free),
    ];
    numbers
        .into_iter()
        .for_each(|(label, number)| number_line(text, label, number));
    text.extend_from_slice(title);
    text.extend_from_slice(b"  level   words    held    free\n");
    for level in 0..LEVELS {
        let words = size_of(level as u32);
        let numbers = [
            level as u64,
            words.into(),
            area.held[level].into(),
            area.free_parts(level).into(),
        ];
        line(text, numbers.into_iter().zip([7, 15, 23, 31]));
    }
}

fn number_line(text: &mut Vec<u8>, label: &[u8], number: u64) {
    let from = text.len() + 2;
    line(text, [(number, 26)].into_iter());
    text[from..from + label.len()].copy_from_slice(label);
}

fn loader_line(text: &mut Vec<u8>, name: usize, loader: &Loader) {
    let sum = |amount: fn(&Arena) -> u64| -> u64 {
        SPACES
            .map(|space| amount(&loader.arenas[space as usize]))
            .iter()
            .sum()
    };
    let chunks = sum(|arena| arena.chunks() as u64);
    let numbers = [
        name as u64,
        chunks,
        sum(Arena::capacity),
        sum(|arena| arena.used),
        sum(|arena| arena.live),
    ];
    let to = text.len() + 19;
    line(text, numbers.into_iter().zip([7, 27, 37, 47, 57]));
    let kind = loader.kind.word().as_bytes();
    text[to - kind.len()..to].copy_from_slice(kind);
}

/// Appends a line of numbers, each with the column that it ends in; the last one ends the line.
fn line(text: &mut Vec<u8>, numbers: impl Iterator<Item = (u64, usize)>) {
    let mut bytes = [b' '; 58];
    let mut end = 0;
    for (number, column) in numbers {
        put_number(&mut bytes, column, number);
        end = column;
    }
    bytes[end] = b'\n';
    text.extend_from_slice(&bytes[..=end]);
}
