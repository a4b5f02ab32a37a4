//! Times the proved evaluation of a script of 4,096 definitions on sampled states against the same loop in plain Rust.
use std::hint::black_box;
use std::time::{Duration, Instant};

unsafe extern "C" {
    safe fn bench_evaluate(rounds: u64, seed: u64) -> u64;
}

#[derive(Clone, Copy)]
enum Operand {
    #[allow(dead_code)]
    Never,
    #[allow(dead_code)]
    Always,
    Works(u8),
    Out(u8),
    Defined(u16),
}

#[derive(Clone, Copy)]
enum Operator {
    Meet,
    Join,
}

#[derive(Clone, Copy)]
struct Definition {
    operator: Operator,
    first: Operand,
    second: Operand,
}

fn operand_element(operand: Operand, settings: &[u64], done: &[u64]) -> u64 {
    match operand {
        Operand::Never => 0,
        Operand::Always => u64::MAX,
        Operand::Works(part) => settings[part as usize],
        Operand::Out(part) => !settings[part as usize],
        Operand::Defined(number) => {
            let place = (number as usize).saturating_sub(1);
            if place < done.len() { done[place] } else { 0 }
        }
    }
}

fn evaluate(definitions: &[Definition], settings: &[u64], elements: &mut [u64]) -> (u64, usize) {
    let mut operations = 0;
    for (i, definition) in definitions.iter().enumerate() {
        let first = operand_element(definition.first, settings, &elements[..i]);
        let second = operand_element(definition.second, settings, &elements[..i]);
        elements[i] = match definition.operator {
            Operator::Meet => first & second,
            Operator::Join => first | second,
        };
        operations += 1;
    }
    (elements[definitions.len() - 1], operations)
}

/// The same definitions that the proved function writes.
fn script() -> Vec<Definition> {
    let mut last = Operand::Works(255);
    let mut definitions = Vec::new();
    for i in 0..4096usize {
        let part = (i % 256) as u8;
        let first = if i % 2 == 1 { Operand::Defined((i / 2 + 1) as u16) } else { last };
        let second = if i % 3 == 0 { Operand::Out(part) } else { Operand::Works(part) };
        let operator = if i % 5 < 2 { Operator::Join } else { Operator::Meet };
        definitions.push(Definition { operator, first, second });
        last = Operand::Defined((i + 1) as u16);
    }
    definitions
}

#[inline(never)]
fn plain(definitions: &[Definition], rounds: u64, seed: u64) -> u64 {
    let mut settings = [seed; 256];
    let mut elements = [0; 4096];
    let mut sum = seed;
    for round in 0..rounds {
        settings[(round % 256) as usize] = sum.wrapping_mul(0x9E37_79B9_7F4A_7C15) ^ round;
        let (answer, operations) = evaluate(definitions, &settings, &mut elements);
        black_box(operations);
        sum = sum.rotate_left(7) ^ answer;
    }
    sum
}

fn timed<X>(run: impl FnOnce() -> X) -> (Duration, X) {
    let start = Instant::now();
    let answer = run();
    (start.elapsed(), answer)
}

fn main() {
    const ROUNDS: u64 = 20_000;
    let definitions = black_box(script());
    let mut proved_best = Duration::MAX;
    let mut plain_best = Duration::MAX;
    for seed in 1..=7 {
        // the proved function builds its script first: what that takes is taken off
        let (build, _) = timed(|| black_box(bench_evaluate(0, seed)));
        let (whole, proved_answer) = timed(|| bench_evaluate(ROUNDS, seed));
        let (loop_only, plain_answer) = timed(|| plain(&definitions, ROUNDS, seed));
        assert_eq!(proved_answer, plain_answer, "the two loops disagree");
        proved_best = proved_best.min(whole.saturating_sub(build));
        plain_best = plain_best.min(loop_only);
    }
    let each = |time: Duration| time.as_secs_f64() * 1e6 / ROUNDS as f64;
    println!("proved: {:.2} us an evaluation", each(proved_best));
    println!("plain:  {:.2} us an evaluation", each(plain_best));
    println!("ratio:  {:.2}", proved_best.as_secs_f64() / plain_best.as_secs_f64());
}
