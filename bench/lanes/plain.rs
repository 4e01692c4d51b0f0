//! The same plain loops as in `main.rt`.
use std::hint::black_box;

const NUMBERS: usize = 1_048_576;
const TURNS: u64 = 200;

#[derive(Clone, Copy)]
enum Op {
    Plus,
    Multiplies,
    Min,
    Max,
    Less,
    LessEqual,
    Equal,
    Greater,
}

fn numbers(seed: u64) -> Vec<u64> {
    let mut state = seed;
    let next = || {
        state = state.wrapping_mul(6_364_136_223_846_793_005).wrapping_add(1_442_695_040_888_963_407);
        if state >> 63 == 0 { state >> 43 } else { state }
    };
    std::iter::repeat_with(next).take(NUMBERS).collect()
}

fn number(op: Op, x: u64, y: u64) -> u64 {
    match op {
        Op::Plus => x.wrapping_add(y),
        Op::Multiplies => x.wrapping_mul(y),
        Op::Min => x.min(y),
        _ => x.max(y),
    }
}

fn truth(op: Op, x: u64, y: u64) -> bool {
    match op {
        Op::Less => x < y,
        Op::LessEqual => x <= y,
        Op::Equal => x == y,
        _ => x > y,
    }
}

#[inline(never)]
fn fold(op: Op, init: u64, xs: &[u64]) -> u64 {
    xs.iter().fold(init, |value, x| number(op, value, *x))
}

#[inline(never)]
fn map2(op: Op, xs: &[u64], ys: &[u64], out: &mut [u64]) {
    for ((place, x), y) in out.iter_mut().zip(xs).zip(ys) {
        *place = number(op, *x, *y);
    }
}

#[inline(never)]
fn compare(op: Op, xs: &[u64], ys: &[u64], out: &mut [bool]) {
    for ((place, x), y) in out.iter_mut().zip(xs).zip(ys) {
        *place = truth(op, *x, *y);
    }
}

#[inline(never)]
fn select(mask: &[bool], xs: &[u64], ys: &[u64], out: &mut [u64]) {
    for (((place, truth), x), y) in out.iter_mut().zip(mask).zip(xs).zip(ys) {
        *place = if *truth { *x } else { *y };
    }
}

#[inline(never)]
fn count(mask: &[bool]) -> u64 {
    mask.iter().map(|truth| u64::from(*truth)).sum()
}

#[inline(never)]
fn min_max(xs: &[i64]) -> u64 {
    let ends = xs.iter().fold((i64::MAX, i64::MIN), |ends, x| (ends.0.min(*x), ends.1.max(*x)));
    ends.0.cast_unsigned() ^ ends.1.cast_unsigned()
}

#[inline(never)]
fn gather(xs: &[u64], at: &[u64], out: &mut [u64], found: &mut [bool]) {
    for ((place, cell), hit) in at.iter().zip(out).zip(found) {
        let read = xs.get(*place as usize);
        *hit = read.is_some();
        *cell = read.copied().unwrap_or(0);
    }
}

fn main() {
    let words: Vec<String> = std::env::args().skip(1).collect();
    let (xs, ys) = (numbers(1), numbers(2));
    let signed: Vec<i64> = xs.iter().map(|x| x.cast_signed()).collect();
    let mask: Vec<bool> = ys.iter().map(|y| y % 2 == 1).collect();
    let mut out = vec![0; NUMBERS];
    let mut truths = vec![false; NUMBERS];
    let reduction = black_box(if words.len() > 2 { Op::Max } else { Op::Plus });
    let comparison = black_box(if words.len() > 2 { Op::Equal } else { Op::Less });
    black_box([Op::Multiplies, Op::Min, Op::LessEqual, Op::Greater]);
    let Some(kernel) = words.first() else { return };
    let mut seen = 0u64;
    for turn in 0..TURNS {
        seen = seen.wrapping_add(match kernel.as_str() {
            "fold_u64" => fold(reduction, turn, &xs),
            "map2_u64" => {
                map2(reduction, &xs, &ys, &mut out);
                out[NUMBERS / 2]
            }
            "compare_u64" => {
                compare(comparison, &xs, &ys, &mut truths);
                u64::from(truths[NUMBERS / 2])
            }
            "select_u64" => {
                select(&mask, &xs, &ys, &mut out);
                out[NUMBERS / 2]
            }
            "count_true" => count(&mask),
            "min_max_i64" => min_max(&signed),
            "gather_u64" => {
                gather(&xs, &ys, &mut out, &mut truths);
                out[NUMBERS / 2]
            }
            _ => 0,
        });
    }
    println!("{seen}");
}
