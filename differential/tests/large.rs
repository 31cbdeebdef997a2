//! A pane at the end of the longest buffer, whose parts share bytes: written back it would end beyond what a call takes.
use bidlomeqa::layout::*;
use differential::compare::Comparison;
use differential::fault::Fault;
use differential::oracle::LIMIT;
use differential::whole::TXT1;

// A text box whose text and label are the same four letters, the label with its NUL. The bytes are the same in both byte orders but for the fixed ones.
fn shared() -> (Vec<u8>, usize) {
    let (mut data, body) = (vec![0; LIMIT], LIMIT - 165);
    data[body + 78] = 4; // text_length
    data[body + 92] = 168; // text offset
    data[body + 120] = 168; // label offset
    data[body + 160..body + 164].fill(0x41);
    (data, body)
}

#[test]
fn an_output_beyond_the_limit_is_refused() {
    let (data, body) = shared();
    for order in [LITTLE, BIG] {
        let mut c = Comparison::new(order, true, Fault::none());
        // One case in sixteen is written back by the Rust crate.
        for _ in 0..64 {
            assert_eq!(c.body(TXT1, &data, body), (PANE, [body as u64 + 160, 0, LIMIT as u64]));
        }
        assert!(c.tally.of("typed body", REFUSED, 1) > 0 && c.tally.differences == 0);
    }
}
