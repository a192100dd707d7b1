//! The tape as a strip of characters.

use crate::tape::survey::Kind;

/// Cells of a long tape; a shorter one has a cell for each element.
const CELLS: usize = 64;
const MARGIN: &str = "  ";

pub struct Tape<'a> {
    pub capacity: usize,
    pub kinds: &'a [Kind],
    /// The first place whose write warns, where the tape has a warning.
    pub warning: Option<usize>,
}

/// The strip, and below it the places that are pointed out, a line each.
pub fn draw(tape: &Tape) -> Vec<String> {
    let cells: String = (0..tape.cells()).map(|c| tape.cell(c)).collect();
    let mut lines = vec![format!("{MARGIN}[{cells}]")];
    lines.push(tape.point(0, "position 0"));
    let end = tape.kinds.len();
    lines.push(tape.point(end, &format!("end of data, {end}")));
    if let Some(place) = tape.warning {
        lines.push(tape.point(place, &format!("early warning, {place}")));
    }
    lines
}

/// What the characters and a cell stand for, a line each; marked blocks are told of where there are any.
pub fn legend(tape: &Tape) -> Vec<String> {
    let long = tape.capacity > CELLS;
    let mut lines = vec![if long {
        "# data   | filemarks   + data and filemarks   ! some unreadable   . blank".into()
    } else {
        "# data   | filemark   ! unreadable   . blank".into()
    }];
    if tape.kinds.contains(&Kind::Marked) {
        let marked = if long { "some marked" } else { "marked" };
        lines.push(format!("* {marked}: data with a deleted address mark"));
    }
    lines.push(if long {
        let elements = tape.capacity as f64 / CELLS as f64;
        format!("one cell for about {elements:.0} elements")
    } else {
        "one cell for each element".into()
    });
    lines
}

impl Tape<'_> {
    fn cells(&self) -> usize {
        self.capacity.min(CELLS)
    }

    /// What a cell's elements are; one that is unreadable counts before all others, then one that is marked: few blocks of a tape are
    /// marked, and those are its headers.
    fn cell(&self, cell: usize) -> char {
        let first = self.first_of(cell).min(self.kinds.len());
        let beyond = self.first_of(cell + 1).min(self.kinds.len());
        let holds = |kind: Kind| self.kinds[first..beyond].contains(&kind);
        match (holds(Kind::Data), holds(Kind::Filemark)) {
            _ if holds(Kind::Unreadable) => '!',
            _ if holds(Kind::Marked) => '*',
            (true, true) => '+',
            (false, true) => '|',
            (true, false) => '#',
            (false, false) => '.',
        }
    }

    fn first_of(&self, cell: usize) -> usize {
        (cell * self.capacity).div_ceil(self.cells().max(1))
    }

    fn column_of(&self, place: usize) -> usize {
        place * self.cells() / self.capacity.max(1)
    }

    /// A caret under the place's cell, its words on the side that has room.
    fn point(&self, place: usize, words: &str) -> String {
        let column = MARGIN.len() + 1 + self.column_of(place);
        if column + words.len() > CELLS && column > words.len() {
            let left = column - words.len() - 1;
            format!("{:left$}{words} ^", "")
        } else {
            format!("{:column$}^ {words}", "")
        }
    }
}

#[cfg(test)]
mod tests {
    use super::*;
    use Kind::{Data, Filemark, Marked, Unreadable};

    #[test]
    fn a_short_tape_has_a_cell_for_each_element() {
        let tape = Tape {
            capacity: 8,
            kinds: &[Data, Filemark, Unreadable, Data],
            warning: Some(6),
        };
        let drawn = draw(&tape);
        assert_eq!(drawn[0], "  [#|!#....]");
        assert_eq!(drawn[1], "   ^ position 0");
        assert_eq!(drawn[2], "       ^ end of data, 4");
        assert_eq!(drawn[3], "         ^ early warning, 6");
    }

    #[test]
    fn a_long_tape_is_scaled_and_every_element_has_a_cell() {
        let mut kinds = vec![Data; 1000];
        kinds[999] = Filemark;
        let tape = Tape {
            capacity: 65_535,
            kinds: &kinds,
            warning: None,
        };
        assert_eq!(draw(&tape)[0], format!("  [+{}]", ".".repeat(63)));
        for place in 0..tape.capacity {
            let cell = tape.column_of(place);
            assert!(tape.first_of(cell) <= place && place < tape.first_of(cell + 1));
        }
    }

    #[test]
    fn a_marked_block_has_a_character_of_its_own() {
        let mut tape = Tape {
            capacity: 6,
            kinds: &[Marked, Data, Filemark, Unreadable, Marked],
            warning: None,
        };
        assert_eq!(draw(&tape)[0], "  [*#|!*.]");
        let told = "* marked: data with a deleted address mark";
        assert_eq!(legend(&tape)[1], told);
        tape.kinds = &[Data, Filemark, Unreadable];
        assert_eq!(legend(&tape).len(), 2);
    }

    /// One marked block is seen among a thousand others, but for an unreadable one.
    #[test]
    fn a_long_tape_shows_where_a_marked_block_is() {
        let mut kinds = vec![Data; 640];
        kinds[15] = Marked;
        kinds[16] = Filemark;
        kinds[25] = Marked;
        kinds[26] = Unreadable;
        kinds[35] = Filemark;
        let tape = Tape {
            capacity: 640,
            kinds: &kinds,
            warning: None,
        };
        assert_eq!(draw(&tape)[0], format!("  [#*!+{}]", "#".repeat(60)));
        let told = "* some marked: data with a deleted address mark";
        assert_eq!(legend(&tape)[1], told);
    }

    #[test]
    fn a_place_near_the_end_has_its_words_before_it() {
        let kinds = vec![Data; 64];
        let tape = Tape {
            capacity: 64,
            kinds: &kinds,
            warning: None,
        };
        let drawn = draw(&tape);
        assert_eq!(drawn[2].find('^'), drawn[0].find(']'));
        assert!(drawn[2].ends_with("end of data, 64 ^"));
    }
}
