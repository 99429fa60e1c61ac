//! Compares the proved functions with the supplied Rust. The source's module stands beside this
//! file as `ssa` only in the temporary folder in which this is built (tests/oracle/build).
mod against;
mod balances;
mod bench;
mod binomials;
mod carried;
mod carry_cases;
mod carry_refusals;
mod changes;
mod diffusions;
mod draw;
mod ensembles;
mod games;
mod halts;
mod indexes;
mod kept;
mod leaves;
#[allow(dead_code)]
mod nets;
mod paths;
mod player;
mod rattle;
mod reasons;
mod report;
mod runs;
mod sample;
mod soaks;
#[allow(dead_code, unused_imports)]
mod ssa;
mod timers;

fn main() {
    let words: Vec<String> = std::env::args().skip(1).collect();
    let words: Vec<&str> = words.iter().map(String::as_str).collect();
    match words[..] {
        ["compare", seed, inputs] => {
            let mut report = report::Report::default();
            leaves::compare(&mut report, number(seed), number(inputs));
            runs::compare(&mut report, number(seed), number(inputs) / 1000);
            diffusions::compare(&mut report, number(seed), number(inputs) / 1000);
            reasons::compare(&mut report, number(seed), number(inputs) / 100);
            soaks::compare(&mut report, number(seed), number(inputs) / 1000);
            games::compare(&mut report, number(seed), number(inputs) / 200);
            balances::compare(&mut report, number(seed), number(inputs) / 100);
            timers::compare(&mut report, number(seed), number(inputs) / 100);
            indexes::compare(&mut report, number(seed), number(inputs) / 50);
            kept::compare(&mut report, number(seed), 2 * kept::LEAST + number(inputs) / 2);
            order_8(&mut report, number(seed), number(inputs));
            report.end();
        }
        ["halts", seed, inputs] => {
            let mut report = report::Report::default();
            order_8(&mut report, number(seed), number(inputs));
            report.end();
        }
        ["paths", seed, count, file] => paths::batch(number(seed), number(count), file),
        ["carries", seed, count, file] => carry_cases::batch(number(seed), number(count), file),
        ["ensembles", seed, count, folder] => ensembles::texts(number(seed), number(count), folder),
        ["record", leaves, paths, carries, diffusions, ensembles] => {
            sample::record(leaves);
            paths::record(paths);
            carry_cases::record(carries);
            diffusions::record(diffusions);
            ensembles::record(ensembles);
        }
        ["bench", folder] => bench::bench(folder),
        ["bench-paths", folder] => bench::bench_paths(folder),
        ["bench-against", folder, ref files @ ..] if files.len() % 2 == 0 => against::bench(folder, files),
        ["bench-reader", folder] => bench::bench_reader(folder),
        ["bench-game"] => bench::bench_game(),
        ["bench-combinations"] => bench::bench_combinations(),
        ["bench-carry"] => bench::bench_carry(),
        _ => {
            eprintln!("compare SEED INPUTS | halts SEED INPUTS | paths SEED COUNT FILE | carries SEED COUNT FILE | ensembles SEED COUNT FOLDER | record FOLDER FOLDER FOLDER FOLDER FILE | bench NETS | bench-paths NETS | bench-against NETS LIBRARY.. LIBRARY.. | bench-reader FOLDER | bench-game | bench-combinations | bench-carry");
            std::process::exit(2);
        }
    }
}

/// Halting and carrying.
fn order_8(report: &mut report::Report, seed: u64, inputs: u64) {
    let count = 300 + inputs / 10_000;
    halts::compare(report, seed, count);
    changes::compare(report, seed, count);
    carry_refusals::compare(report, seed, count);
}

fn number(word: &str) -> u64 {
    word.parse().unwrap_or_else(|_| {
        eprintln!("{word} is not a number");
        std::process::exit(2)
    })
}
