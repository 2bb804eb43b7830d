//! Which slots of a segment are drawn, and what stands where others are left out.

use crate::segments::Segment;
use std::collections::BTreeSet;

/// The most slots of a segment that are drawn, unless marks stand on more.
const DRAWN: u32 = 32;

/// A cell of a row.
#[derive(Debug, Clone, Copy, PartialEq, Eq)]
pub enum Cell {
    Slot(u64),
    /// Slots that are left out, as a segment of their own.
    Gap(Segment),
}

/// The cells of a segment, in its order. `marks` are the places that must be seen; those elsewhere do not count.
pub fn cells(segment: Segment, marks: impl Iterator<Item = u64>) -> Vec<Cell> {
    let marks = marks.filter_map(|place| segment.number(place)).collect();
    let mut cells = Vec::new();
    let mut next = 0;
    for number in drawn(segment.size, marks) {
        cells.extend(segment.part(next, number).map(Cell::Gap));
        cells.push(Cell::Slot(segment.slot(number)));
        next = number + 1;
    }
    cells.extend(segment.part(next, segment.size).map(Cell::Gap));
    cells
}

/// The slots with marks, however many; then the first one and those nearest to a mark, while there is room: for all of
/// them, if they are no more than that.
fn drawn(size: u32, marks: BTreeSet<u32>) -> BTreeSet<u32> {
    let from = match marks.is_empty() {
        true => BTreeSet::from([0]),
        false => marks.clone(),
    };
    let around = |away| {
        let pair = move |mark: &u32| [mark.checked_sub(away), mark.checked_add(away)];
        from.iter().flat_map(pair).flatten()
    };
    let near = (1..size).flat_map(around).filter(|number| *number < size);
    let mut drawn = marks;
    for number in [0].into_iter().chain(near) {
        if drawn.len() >= DRAWN as usize {
            break;
        }
        drawn.insert(number);
    }
    drawn
}

#[cfg(test)]
mod tests {
    use super::*;

    /// The cells of a segment at 0x100, as numbers of slots and, in brackets, of slots left out.
    fn row(size: u32, marks: &[u64]) -> String {
        let segment = Segment { base: 0x100, size };
        let places = marks.iter().map(|mark| 0x100 + 16 * mark);
        let words = |cell: Cell| match cell {
            Cell::Slot(slot) => format!("{} ", (slot - 0x100) / 16),
            Cell::Gap(gap) => format!("[{}+{}] ", (gap.base - 0x100) / 16, gap.size),
        };
        cells(segment, places).into_iter().map(words).collect()
    }

    fn numbers(range: std::ops::Range<u32>) -> String {
        range.map(|number| format!("{number} ")).collect()
    }

    #[test]
    fn a_segment_that_has_room_is_drawn_whole() {
        for size in [1, 2, 31, 32] {
            assert_eq!(row(size, &[0]), numbers(0..size));
        }
    }

    #[test]
    fn without_a_mark_the_first_slots_are_drawn() {
        assert_eq!(row(33, &[]), numbers(0..32) + "[32+1] ");
        assert_eq!(row(4096, &[]), numbers(0..32) + "[32+4064] ");
        // A mark behind the last slot is in another segment.
        assert_eq!(row(64, &[64]), numbers(0..32) + "[32+32] ");
    }

    #[test]
    fn around_a_mark() {
        // Slot 100, the first one, and 15 on either side.
        let around = numbers(85..116);
        assert_eq!(
            row(200, &[100]),
            format!("0 [1+84] {around}[116+84] "),
            "in the middle"
        );
        // At the end there is nothing behind the mark: 30 before it.
        assert_eq!(
            row(200, &[199]),
            format!("0 [1+168] {}", numbers(169..200)),
            "at the end"
        );
        assert_eq!(row(33, &[32]), format!("0 [1+1] {}", numbers(2..33)));
    }

    #[test]
    fn more_marks_than_room() {
        // Every second slot: 40 marks, and nothing beside them, the first slot neither.
        let marks: Vec<u64> = (0..40).map(|n| 2 * n + 1).collect();
        let all: String = (0..40)
            .map(|n| format!("[{}+1] {} ", 2 * n, 2 * n + 1))
            .collect();
        assert_eq!(row(81, &marks), all + "[80+1] ");
        assert_eq!(row(33, &(0..33).collect::<Vec<_>>()), numbers(0..33));
    }

    #[test]
    fn the_cells_are_the_segment() {
        for size in 1..80 {
            for marks in (0..size).map(|n| [n, (7 * n) % size, n / 2]) {
                let segment = Segment { base: 0x40, size };
                let places = marks.map(|n| 0x40 + 16 * u64::from(n));
                let cells = cells(segment, places.into_iter());
                let slots = cells.iter().flat_map(|cell| match *cell {
                    Cell::Slot(slot) => vec![slot],
                    Cell::Gap(gap) => gap.slots().collect(),
                });
                assert!(slots.eq(segment.slots()), "{size} {marks:?}");
                let seen = |place| cells.contains(&Cell::Slot(place));
                assert!(places.into_iter().all(seen), "{size} {marks:?}");
                let slots = cells.iter().filter(|cell| matches!(cell, Cell::Slot(_)));
                assert_eq!(slots.count(), size.min(DRAWN) as usize);
            }
        }
    }
}
