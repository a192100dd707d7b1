//! Every case of `exchange_cases`.

use compare::{Exchange, ExchangeBench, FileEnd, agree, exchange_cases, say};
use model::Bug;

#[test]
fn every_case_is_answered_as_it_must_be() {
    let mut bench = ExchangeBench::new(Bug::None, 0);
    for case in exchange_cases::all() {
        agree(case.run(&mut bench));
        assert_eq!(bench.stream.answer(), &case.answer, "{}", case.what);
    }
    for (call, numbers) in [
        (Exchange::Export, &[0, 2, 4][..]),
        (Exchange::Import, &[0, 2, 11, 12, 13]),
    ] {
        let met = bench.seen.numbers.keys().filter(|(of, _)| *of == call);
        let met: Vec<u8> = met.map(|(_, number)| *number).collect();
        assert_eq!(met, numbers, "{call:?}");
    }
    assert_eq!(bench.seen.ends.len(), FileEnd::ALL.len());
    say(&format!(
        "tape files: {} cases compared",
        bench.stream.seen.calls
    ));
}
