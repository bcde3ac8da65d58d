//! Counting requests and answers that stand in two files, line by line.

use std::collections::{BTreeMap, HashSet};
use std::fs;

use crate::request::{NUMBERS, Request};

pub fn tally(requests_path: &str, answers_path: &str) -> Result<bool, String> {
    let requests = read(requests_path)?;
    let answers = read(answers_path)?;
    if requests.lines().count() != answers.lines().count() {
        return Err(format!(
            "{} requests but {} answers",
            requests.lines().count(),
            answers.lines().count()
        ));
    }

    let mut cards = HashSet::new();
    let mut parts = 0;
    let mut left_out: BTreeMap<&str, u64> = BTreeMap::new();
    let mut loud = 0;
    let mut numbers = [0_u64; NUMBERS];
    for (line, answer) in requests.lines().zip(answers.lines()) {
        let request = Request::parse(line)?;
        if let Some(card) = request.card() {
            cards.insert(card.to_string());
        }
        if let Request::Part { .. } = request {
            parts += 1;
        }
        let (first, rest) = answer.split_once(' ').unwrap_or((answer, ""));
        match first.parse::<usize>() {
            Ok(number) if number < numbers.len() => numbers[number] += 1,
            _ if first == "-" => *left_out.entry(rest).or_default() += 1,
            _ => loud += 1,
        }
    }

    println!(
        "{} requests, {parts} of them parts",
        requests.lines().count()
    );
    println!("{} different cards", cards.len());
    println!("{} left out", left_out.values().sum::<u64>());
    for (reason, count) in left_out {
        println!("left out, {reason}: {count}");
    }
    if loud > 0 {
        println!("{loud} answers without a number");
    }
    for (number, count) in numbers.iter().enumerate() {
        if number <= 6 || *count > 0 {
            println!("number {number}: {count}");
        }
    }
    Ok(true)
}

fn read(path: &str) -> Result<String, String> {
    fs::read_to_string(path).map_err(|error| format!("{path}: {error}"))
}
