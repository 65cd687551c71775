//! Shows a day of the cluster: exchanges over two shards, a trunk cut half-way through one, recovery, stations down for hours, and what the stations count in the end.
//!
//! `--seed N` shows another day. `--live` is for a terminal: the clock runs, in a line that moves.

mod outcome;
mod screen;
mod watcher;
mod words;

use chance::Chance;
use engine::Tested;
use outcome::{outcome, table};
use screen::Screen;
use simulator::calm::calm_down;
use simulator::cluster::Cluster;
use simulator::day::pass_shown;
use std::process::ExitCode;
use watcher::Watcher;

/// The day that is shown unless another is asked for.
const SEED: u64 = 428;

fn main() -> ExitCode {
    let arguments: Vec<String> = std::env::args().skip(1).collect();
    let seed = match arguments.iter().position(|argument| argument == "--seed") {
        None => SEED,
        Some(place) => arguments.get(place + 1).and_then(|seed| seed.parse().ok()).expect("--seed and a number"),
    };
    let live = arguments.iter().any(|argument| argument == "--live");

    println!("A day of four shards at twelve stations: 0 to 2 hold shard 0, 3 to 5 shard 1, and so on.");
    println!("Coordinators 0 to 7 sit at the stations of these numbers. Seed {seed}.");
    println!(
        "{}\n",
        if cfg!(feature = "archive") { "Every step is the library's." } else { "Every step is the model's." }
    );
    let mut cluster = Cluster::fresh(&Tested {}, false);
    let mut watcher = Watcher::new(Screen::new(live));
    pass_shown(&mut cluster, &mut Chance::of(seed), &mut |time, cluster| watcher.watch(time, cluster));
    watcher.night(&mut cluster);
    let day = cluster.tally;
    calm_down(&mut cluster);
    cluster.check();
    watcher.close(&mut cluster);

    let servers = cluster.see();
    table(&servers).iter().for_each(|line| println!("{line}"));
    println!("\n{}", words::tally(&day));
    let fault = cluster.fault.as_ref().map(|fault| format!("{}: {}", fault.check, fault.what));
    match fault.or_else(|| outcome(&servers, cluster.transactions())) {
        None => {
            let many = cluster.transactions().len();
            println!("The day ends well: {many} numbers have run at all their stations, and the three of every shard count the same.");
            ExitCode::SUCCESS
        }
        Some(fault) => {
            println!("THE DAY IS BROKEN: {fault}");
            ExitCode::FAILURE
        }
    }
}
