//! One party's session, ours beside the Rust's; see oracle/bench-session.

use std::env;

use beside::{Care, End, other_shares, wrong_heads};
use oracle::{End as Rust, Session, SplitMix, honest, run};

fn main() {
    let words: Vec<usize> = env::args()
        .skip(1)
        .map(|w| w.parse().expect("a number"))
        .collect();
    let (cases, times) = match words[..] {
        [] => (vec![(2, 3100), (3, 3100), (8, 310)], 5),
        [times] => (vec![(2, 3100), (3, 3100), (8, 310)], times),
        [n, l] => (vec![(n, l)], 5),
        [n, l, times, ..] => (vec![(n, l)], times),
    };
    for (n, l) in cases {
        // r lent as strings, and drawn from a seed: by ours, and by the Rust itself
        let strings = Session::generate(n, l, 1);
        let mut seed = strings.clone();
        seed.draw_r(seed.tossed_seed());
        let forms = [("lent as strings", &strings), ("drawn from a seed", &seed)];
        let mut lists = [const { [vec![], vec![], vec![]] }; 2];
        // in turn, so that what else the machine does meets all
        for turn in 0..times.max(1) {
            for ((_, s), [rust, ours, fresh]) in forms.iter().zip(&mut lists) {
                let o = run(s, &mut honest);
                let u = beside::run(s, &mut honest, Care::Time, &mut SplitMix(1), None);
                let v = beside::run(s, &mut honest, Care::TimeFresh, &mut SplitMix(1), None);
                if turn == 0 {
                    for (i, (mine, theirs)) in u.ends.iter().zip(&o.ends).enumerate() {
                        let (End::Done(mine), Rust::Done(theirs)) = (mine, theirs) else {
                            panic!("somebody refused: {mine:?}")
                        };
                        assert!(other_shares(mine, theirs, n).is_empty(), "other results");
                        assert!(wrong_heads(mine, n, i).is_empty(), "wrong heads");
                    }
                }
                rust.extend(o.nanoseconds);
                ours.extend(u.nanoseconds);
                fresh.extend(v.nanoseconds);
            }
        }
        let ms = |ns: u64| ns as f64 / 1e6;
        // the median and the least
        let both = |list: &mut Vec<u64>| {
            list.sort();
            (list[list.len() / 2], list[0])
        };
        let mut kept = vec![];
        for ((form, _), [rust, ours, fresh]) in forms.iter().zip(&mut lists) {
            let (theirs, theirs_least) = both(rust);
            println!(
                "n {n} l {l}, r {form}: the Rust {:.2} ms (least {:.2}); {} sessions each",
                ms(theirs),
                ms(theirs_least),
                rust.len()
            );
            for (what, list) in [("kept", &mut *ours), ("fresh", &mut *fresh)] {
                let (mine, least) = both(list);
                println!(
                    "    ours, {what} memory: {:.2} ms (least {:.2}); ratio {:.2} (of the least {:.2})",
                    ms(mine),
                    ms(least),
                    mine as f64 / theirs as f64,
                    least as f64 / theirs_least as f64
                );
            }
            kept.push(both(ours));
        }
        println!(
            "    ours, a seed against strings: {:.2} (of the least {:.2})",
            kept[1].0 as f64 / kept[0].0 as f64,
            kept[1].1 as f64 / kept[0].1 as f64
        );
    }
}
