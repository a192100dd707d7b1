//! A file that is cut at every byte.

use super::{Case, Cases, answer, refusal};
use crate::{Part, TapeFile};

pub fn cases() -> Vec<Case> {
    let mut all = Vec::new();
    for size in [512, 1024] {
        all.extend(cut_everywhere(size));
    }
    all
}

/// A block, a mark, an unreadable block and the end mark: behind each of them the file may end, and nowhere else.
fn cut_everywhere(size: u16) -> Vec<Case> {
    let mut cases = Cases::of(size);
    let parts = [cases.block(1), Part::MARK, cases.unreadable(2), Part::END];
    let file = TapeFile::of(&parts).bytes();
    let whole = usize::from(size) + 8;
    let ends = [
        (0, 0),
        (whole, 1),
        (whole + 4, 2),
        (2 * whole + 4, 3),
        (2 * whole + 8, 3),
    ];
    for length in 0..=file.len() {
        let end = ends.iter().find(|(end, _)| *end == length);
        let told = match end {
            Some(&(_, elements)) => answer(elements, length),
            None => refusal(11),
        };
        cases.imported(
            &format!("cut to {length} bytes"),
            file[..length].to_vec(),
            told,
        );
    }
    cases.cases
}
