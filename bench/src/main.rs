//! Compares the library with an independent implementation, and its speed with other tools.
//!
//! `bench all DOCS` runs everything and writes DOCS/benchmarks.csv and
//! DOCS/BENCHMARK_TABLES.md; `bench agree ROUNDS` only compares answers;
//! `bench clean library` and `bench clean hand` clean standard input.
mod agree;
mod cleaning;
mod growth;
mod library;
mod measure;
mod model;
mod openfst;
mod random;
mod report;
mod speed;
mod variants;

use report::Report;
use std::path::Path;

const ROUNDS: usize = 20_000;

fn all(docs: &Path) -> std::io::Result<()> {
    let dir = std::env::temp_dir().join(format!("cutamllay-bench-{}", std::process::id()));
    std::fs::create_dir_all(&dir)?;
    let mut report = Report::default();
    report.line("# Tables of one run of `bench/run`\n");
    let kit = std::process::Command::new("rt").arg("version").output()?;
    let kit = String::from_utf8_lossy(&kit.stdout);
    report.line(&format!("The library as `{}` builds it.", kit.trim()));
    let cpu = std::fs::read_to_string("/proc/cpuinfo")?;
    let name = cpu
        .lines()
        .find_map(|line| line.strip_prefix("model name"))
        .unwrap_or_default();
    let count = cpu
        .lines()
        .filter(|line| line.starts_with("processor"))
        .count();
    let load = || {
        std::fs::read_to_string("/proc/loadavg")
            .map(|text| text.split(' ').take(3).collect::<Vec<_>>().join(" "))
    };
    report.line(&format!(
        "{count} processors, {}. Load averages at the start: {}.\n",
        name.trim_start_matches([' ', '\t', ':']),
        load()?
    ));
    report.line("## Answers\n");
    let counts = agree::run(ROUNDS);
    report.line(&format!("```text\n{counts:#?}\n```"));
    let (same, different) = speed::agree(&dir, 60);
    report.line(&format!(
        "\nOpenFst agrees on {same} equivalent and {different} other pairs."
    ));
    report.line("\n## Cleaning 16 MB\n");
    cleaning::run(&mut report, &dir);
    report.line("\n| the same steps in plain Rust, on symbols | ms |\n|---|---|");
    variants::run(&mut report);
    report.line("\n## Growth\n");
    growth::run(&mut report);
    report.line("\n## Equivalence\n");
    speed::run(&mut report, &dir, Path::new("bench/target/openfst"));
    std::fs::write(
        docs.join("benchmarks.csv"),
        format!("curve,number,microseconds\n{}", report.points),
    )?;
    report.line(&format!("\nLoad averages at the end: {}.\n", load()?));
    report.line("## Targets\n\n| ratio of the library's time to the other's | measured | at most | |\n|---|---|---|---|");
    let targets = report.targets.trim_end().to_string();
    report.line(&targets);
    std::fs::write(docs.join("BENCHMARK_TABLES.md"), &report.text)?;
    std::fs::remove_dir_all(&dir)
}

fn main() -> std::io::Result<()> {
    let words: Vec<String> = std::env::args().skip(1).collect();
    match words
        .iter()
        .map(String::as_str)
        .collect::<Vec<_>>()
        .as_slice()
    {
        ["all", docs] => all(Path::new(docs))?,
        ["agree", rounds] => println!("{:#?}", agree::run(rounds.parse().unwrap_or(ROUNDS))),
        ["clean", how] => cleaning::program(how),
        _ => eprintln!(
            "bench all DOCS | bench agree ROUNDS | bench clean library | bench clean hand"
        ),
    }
    Ok(())
}
