//! Prints the bench's tables: `bench`, or `bench NAME` for one. Times are the
//! least of some rounds in which the calls take turns; instructions are counted
//! by `valgrind --tool=callgrind`, over this program started again for a single
//! call: `bench NAME ROW CALL`.

use differential::bench::measure::{counted, instructions, least, micros, ratio};
use differential::bench::{tables, Columns, Table};

fn main() {
    let words: Vec<String> = std::env::args().skip(1).collect();
    let chosen = |name: &str| tables().into_iter().find(|table| table.name == name);
    match words.as_slice() {
        [] => tables().iter().for_each(print),
        [name] => print(&chosen(name).expect("a table")),
        [name, row, call] => {
            let table = chosen(name).expect("a table");
            let mut row = table.rows[row.parse::<usize>().unwrap()]();
            counted(&mut row.calls[call.parse::<usize>().unwrap()]);
        }
        _ => panic!("bench [NAME [ROW CALL]]"),
    }
}

fn print(table: &Table) {
    let head = match table.columns {
        Columns::Calls(third) => format!(
            "what | bytes | gives | archive, time | Rust, time | ratio | {third} \
             | archive, instructions | Rust, instructions | ratio"
        ),
        Columns::Growth => "what | bytes | gives | archive, time | a byte | Rust, time | a byte \
             | ratio | archive, instructions a byte | Rust, instructions a byte | ratio"
            .to_string(),
    };
    println!("| {head} |");
    println!("|{}", "---|".repeat(head.matches(" | ").count() + 1));
    for (number, row) in table.rows.iter().enumerate() {
        let mut row = row();
        let times = least(&mut row.calls);
        let counts =
            [0, 1].map(|call| instructions(&[table.name, &number.to_string(), &call.to_string()]));
        let cells = match table.columns {
            Columns::Calls(_) => calls_cells(&times, counts),
            Columns::Growth => growth_cells(row.sheet.len(), &times, counts),
        };
        let (label, bytes, gives) = (row.label, row.sheet.len(), row.gives);
        println!("| {label} | {bytes} | {gives} | {} |", cells.join(" | "));
    }
    println!();
}

fn calls_cells(times: &[f64], counts: [Option<f64>; 2]) -> Vec<String> {
    let third = times.get(2).map_or("-".to_string(), |&time| micros(time));
    let whole = |count: Option<f64>| count.map_or("-".to_string(), |count| format!("{count}"));
    vec![
        micros(times[0]),
        micros(times[1]),
        format!("{:.2}", times[0] / times[1]),
        third,
        whole(counts[0]),
        whole(counts[1]),
        ratio(counts),
    ]
}

fn growth_cells(bytes: usize, times: &[f64], counts: [Option<f64>; 2]) -> Vec<String> {
    let bytes = bytes as f64;
    let nanos = |time: f64| format!("{:.2} ns", time * 1e9 / bytes);
    let each =
        |count: Option<f64>| count.map_or("-".to_string(), |count| format!("{:.1}", count / bytes));
    vec![
        micros(times[0]),
        nanos(times[0]),
        micros(times[1]),
        nanos(times[1]),
        format!("{:.2}", times[0] / times[1]),
        each(counts[0]),
        each(counts[1]),
        ratio(counts),
    ]
}
