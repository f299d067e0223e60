//! Where and when it was measured.

use std::process::Command;

fn said(program: &str, words: &[&str]) -> Option<String> {
    let output = Command::new(program).args(words).output().ok()?;
    String::from_utf8(output.stdout).ok()
}

fn processor() -> String {
    let listed = said("lscpu", &[]).unwrap_or_default();
    let named = |key: &str| {
        let line = listed.lines().find(|line| line.trim().starts_with(key))?;
        Some(line.split_once(':')?.1.trim().to_string())
    };
    named("Model name")
        .filter(|name| name != "-")
        .or_else(|| named("Vendor ID"))
        .unwrap_or_else(|| "processor without a name".to_string())
}

pub fn today() -> String {
    let day = said("date", &["-u", "+%Y-%m-%d"]).unwrap_or_default();
    day.trim().to_string()
}

/// Processor, architecture, cores and day, in one line.
pub fn described(day: &str) -> String {
    let cores = std::thread::available_parallelism().map_or(0, |n| n.get());
    let arch = std::env::consts::ARCH;
    format!("{}, {arch}, {cores} cores, {day}", processor())
}
