//! Measures the static library `boards`: decoding beside a peer, with pieces false in all stripes and in some, coding as blocks grow, the star,
//! whole runs beside the reference, with the feature `isal` encoding beside ISA-L, and with the feature `earlier` coding and the star beside an
//! earlier version. Every answer is compared. Arguments name the tables to print, by their numbers; with none all are printed.
mod coding;
#[cfg(feature = "earlier")]
mod earlier;
#[cfg(feature = "isal")]
mod isal;
mod peer;
mod random;
mod runs;
mod stars;
mod timing;

const TABLES: &[(&str, fn())] = &[
    ("1", coding::against_peer),
    ("2", coding::by_length),
    ("3", stars::of_sixteen),
    ("4", stars::by_controllers),
    ("5", runs::whole_runs),
    #[cfg(feature = "earlier")]
    ("7", earlier::against_earlier),
    #[cfg(feature = "earlier")]
    ("8", earlier::stars_against_earlier),
    ("9", coding::partly_false),
    // last: once ISA-L's wide instructions have run, the library's loops take longer in the same process
    #[cfg(feature = "isal")]
    ("6", isal::against_isal),
];

/// The value behind the first line of a file of /proc that starts with a name; the file's first line where the name is empty.
fn of_machine(file: &str, name: &str) -> String {
    let text = std::fs::read_to_string(file).unwrap_or_default();
    let line = text.lines().find(|line| line.starts_with(name));
    let value = line.map(|line| line.rsplit(": ").next().unwrap_or(line));
    value.unwrap_or("unknown").to_string()
}

fn main() {
    if cfg!(debug_assertions) {
        eprintln!("benchmark: times are those of release mode: cargo run --release");
        std::process::exit(1);
    }
    let wanted: Vec<String> = std::env::args().skip(1).collect();
    for name in &wanted {
        if !TABLES.iter().any(|(number, _)| number == name) {
            let numbers: Vec<&str> = TABLES.iter().map(|(number, _)| *number).collect();
            eprintln!(
                "benchmark: there is no table {name}; there are {}",
                numbers.join(", ")
            );
            std::process::exit(1);
        }
    }
    println!("Processor: {}", of_machine("/proc/cpuinfo", "model name"));
    println!(
        "Load average at the start: {}",
        of_machine("/proc/loadavg", "")
    );
    println!(
        "Times are medians, with the least and the most, of {} repetitions, each of so many calls that it takes 5 ms or more;
in table 5 of as many runs as it says. Ratios are of medians.",
        timing::REPETITIONS
    );
    for (number, print) in TABLES {
        if wanted.is_empty() || wanted.iter().any(|name| name == number) {
            print();
        }
    }
}
