//! Recorded answers: a sample of the Rust's answers in the domain of docs/SPEC.md, for a replay with no Rust at hand.

use crate::cases::{self, Sink};
use crate::rng::Rng;
use crate::lines;
use crate::request::{Outcome, Request, Request::*};
use crate::rust::{BUILDS, Body, body};
use std::collections::BTreeMap;

/// No longer line than this.
const LINE: usize = 1000;

/// Call, answer, depth, form: so many lines are kept of each.
type Sort = (usize, u32, u64, u64);

struct Sample {
    kept: BTreeMap<Sort, Vec<String>>,
    asked: u64,
    failed: Option<String>,
}

fn sort(request: &Request, answer: u32) -> Sort {
    let (depth, form) = match request {
        Encode { kind, .. } | Decode { kind, .. } | Extract { kind, .. } | Merge { kind, .. } => (kind[0], kind[1]),
        PartialDecode { width, place, .. } => (0, width + place),
        _ => (0, 0),
    };
    (request.call(), answer, depth, form)
}
fn wanted(sort: Sort) -> usize {
    match sort {
        (2, ..) => 120,
        (6, ..) => 150,
        (5, 7, ..) => 8,
        (1, 7, ..) => 25,
        _ => 36,
    }
}

impl Sink for Sample {
    fn ask(&mut self, request: Request) {
        self.asked += 1;
        let judged = request.judged();
        if !crate::in_domain(&request, &judged) || body(&request) == Body::None || self.failed.is_some() {
            return;
        }
        let sort = sort(&request, judged.as_ref().err().copied().unwrap_or(0));
        let list = self.kept.entry(sort).or_default();
        if list.len() >= wanted(sort) {
            return;
        }
        // What is recorded is the Rust's: all four builds agree. Where they refuse, the number is that of docs/SPEC.md.
        let answers: Vec<_> = BUILDS.iter().map(|build| build.answer(&request)).collect();
        let rust: Outcome = match &answers[0] {
            Ok(results) => Ok(results.clone()),
            Err(_) => judged.clone(),
        };
        let same = answers.iter().all(|answer| answer.is_ok() == rust.is_ok() && (answer.is_err() || answer == &answers[0]));
        let line = lines::line(&request, &rust);
        if !same || rust != judged {
            self.failed = Some(line);
        } else if line.len() <= LINE && !list.contains(&line) {
            list.push(line);
        }
    }
    fn asked(&self) -> u64 {
        self.asked
    }
}

pub fn record(args: &[String]) -> Result<bool, String> {
    let [seed] = args else { return Err("record SEED".into()) };
    let rng = &mut Rng(seed.parse().map_err(|_| "SEED is a number")?);
    let mut sample = Sample { kept: BTreeMap::new(), asked: 0, failed: None };
    while sample.asked < 400_000 {
        cases::random(&mut sample, rng);
    }
    if let Some(line) = sample.failed {
        return Err(format!("the builds of the Rust do not agree, or not with the judge: {line}"));
    }
    println!("# Answers of the Rust, zarrs 0.23.14: stand-in chain and listed chain, debug and release, all four alike.");
    println!("# Made by make record, seed {seed}. Where it gives an error or a panic, the number is that of docs/SPEC.md.");
    println!("# The form is told in README.md beside this file.");
    for line in sample.kept.values().flatten() {
        println!("{line}");
    }
    Ok(true)
}
