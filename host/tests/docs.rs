//! The numbers in docs/INTEGRATION.md are the library's.

use nuzsdike_host::{record_len, Plan, Reason};

fn doc(name: &str) -> String {
    std::fs::read_to_string(format!("{}/../docs/{name}", env!("CARGO_MANIFEST_DIR"))).unwrap()
}

/// The cells of each row of a table whose header starts like this.
fn table(text: &str, header: &str) -> Vec<Vec<String>> {
    let rows = text.lines().skip_while(|line| !line.starts_with(header)).skip(2).take_while(|line| line.starts_with('|'));
    rows.map(|row| row.trim_matches('|').split('|').map(|cell| cell.trim().to_string()).collect()).collect()
}

fn number(cell: &str) -> usize {
    cell.replace(',', "").parse().unwrap_or_else(|_| panic!("'{cell}' is no number"))
}

/// 1234567 as 1,234,567.
fn grouped(number: usize) -> String {
    match number / 1000 {
        0 => number.to_string(),
        thousands => format!("{},{:03}", grouped(thousands), number % 1000),
    }
}

#[test]
fn the_memory_budget() {
    let rows = table(&doc("INTEGRATION.md"), "| n | l | work area |");
    assert_eq!(rows.len(), 18);
    for row in rows {
        let plan = Plan::new(number(&row[0]), number(&row[1]));
        let inputs = 16 + 32 + plan.pairs_len() + plan.bits_len() + 2 * plan.shares_len() + plan.masks_len();
        let incoming = plan.rounds().iter().map(|round| (plan.n - 1) * plan.message_len(*round)).max().unwrap();
        let found: Vec<usize> = row[2..6].iter().map(|cell| number(cell)).collect();
        assert_eq!(found, [plan.work_len(), inputs, plan.r_total(), incoming], "{row:?}");
        let mib = (plan.work_len() + inputs) as f64 / 1048576.0;
        assert!((mib - row[6].replace(',', "").parse::<f64>().unwrap()).abs() <= 0.5, "{row:?}");
        assert_eq!(number(&row[7]), plan.traffic());
        // what the text says of later calls
        let outgoing = plan.rounds().iter().map(|round| plan.out_len(*round)).max().unwrap();
        assert!(plan.r_total() + incoming + outgoing <= inputs, "{row:?}");
    }
}

/// Two boxes and one AND: out and message of each call.
#[test]
fn the_worked_example() {
    let plan = Plan::new(2, 1);
    let rows = table(&doc("INTEGRATION.md"), "| call | out | message received |");
    let mut rounds = vec![];
    for row in &rows[1..] {
        for round in row[0].split(", ").map(number) {
            rounds.push(round);
            assert_eq!(number(row[1].split(' ').next().unwrap()), plan.out_len(round), "{row:?}");
            assert_eq!(number(&row[2]), plan.message_len(round), "{row:?}");
        }
    }
    assert_eq!(rounds, plan.rounds());
    assert_eq!(number(&rows[0][1]), plan.out_len(0));
    let (bits, shares, masks, pairs) = (grouped(plan.bits_len()), plan.shares_len(), plan.masks_len(), plan.pairs_len());
    let lent = format!("bits (3·5 + 160)·{} = {bits}; alpha, beta {shares}; masks {masks}; pairs {pairs}", record_len(2));
    assert_eq!(rows[0][3], format!("{lent}; work area {}", grouped(plan.work_len())));
    // and what the text below says of three boxes and 1,000 ANDs
    let three = Plan::new(3, 1000);
    let text = doc("INTEGRATION.md").split_whitespace().collect::<Vec<_>>().join(" ");
    for says in [
        format!("R = {}; bits (15,000 + 160)·{} = {};", record_len(3), record_len(3), grouped(three.bits_len())),
        format!("alpha, beta {} each; masks {};", grouped(three.shares_len()), grouped(three.masks_len())),
        format!("work area {};", grouped(three.work_len())),
        format!("that of round 17, {} bytes,", grouped(three.message_len(17))),
        format!("A box sends {} bytes.", grouped(three.traffic())),
    ] {
        assert!(text.contains(&says), "the text lacks '{says}'");
    }
}

/// docs/REFUSALS.md has every number that the kit knows, under the same name.
#[test]
fn the_names_of_refusals() {
    let rows = table(&doc("REFUSALS.md"), "| no. | name |");
    for number in 1..=23u8 {
        let row = rows.iter().find(|row| row[0] == number.to_string()).unwrap_or_else(|| panic!("no {number}"));
        assert!(row[1].is_empty() || row[1] == Reason(number).name(), "{row:?}");
    }
    assert_eq!(rows.len(), 23);
    assert_eq!((Reason(23).name(), Reason(24).name()), ("BadBatches", "Unknown"));
}
