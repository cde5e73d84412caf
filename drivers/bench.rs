// Times this library and the crate's own code in one run on the same inputs, and prints a table. bin/bench builds it.
#![allow(non_snake_case, dead_code, unused, non_camel_case_types)]

mod floats;
mod knobs;
mod outline;
mod pairs;
mod rs;
mod sets;

use outline::{Sheet, COUNTERCLOCKWISE, POLYGON};
use pairs::{Dice, Pair};
use rs::geodesic::Geodesic;
use rs::polygon_area::{PolygonArea, Winding};
use std::hint::black_box;
use std::time::Instant;

// The least of several runs, in nanoseconds a turn.
fn least(runs: usize, turns: usize, mut run: impl FnMut()) -> f64 {
    let mut best = f64::INFINITY;
    for _ in 0..runs {
        let start = Instant::now();
        run();
        best = best.min(start.elapsed().as_nanos() as f64 / turns as f64);
    }
    best
}

fn row(what: &str, here: f64, there: f64) {
    println!("| {what} | {here:.0} | {there:.0} | {:.2} |", here / there);
}

fn inverses(geodesic: &Geodesic) {
    for (name, kind) in &pairs::KINDS[..3] {
        let mut dice = Dice::new(7);
        let list: Vec<Pair> = (0..20_000).map(|_| kind(&mut dice)).collect();
        let here = || for p in &list { black_box(outline::inverse(p[0], p[1], p[2], p[3], POLYGON).unwrap()); };
        let there = || for p in &list { black_box(geodesic._gen_inverse(p[0], p[1], p[2], p[3], POLYGON)); };
        // the two in turn, so that neither has the machine to itself
        let (mut a, mut b) = (f64::INFINITY, f64::INFINITY);
        for _ in 0..15 {
            a = a.min(least(1, list.len(), here));
            b = b.min(least(1, list.len(), there));
        }
        row(&format!("inverse, {name}"), a, b);
    }
}

// A star-shaped outline of n points over a continent.
fn ring(n: usize) -> Vec<(f64, f64)> {
    let mut dice = Dice::new(11);
    (0..n).map(|i| {
        let turn = i as f64 / n as f64 * std::f64::consts::TAU;
        let far = dice.between(10.0, 14.0);
        (10.0 + far * turn.sin(), 20.0 + far * turn.cos())
    }).collect()
}

// n points anywhere.
fn scattered(n: usize) -> Vec<(f64, f64)> {
    let mut dice = Dice::new(12);
    (0..n).map(|_| (dice.lat(), dice.lon())).collect()
}

fn fresh(geodesic: &Geodesic, points: &[(f64, f64)]) -> (u64, u64) {
    let mut polygon = PolygonArea::new(geodesic, Winding::CounterClockwise);
    for &(lat, lon) in points {
        polygon.add_point(lat, lon);
    }
    let (perimeter, area, _) = polygon.compute(true);
    (perimeter.to_bits(), area.to_bits())
}

const CALLS: [&str; 6] = ["add", "move", "drop", "take back a move", "measure", "move and measure"];

// The time since a moment, in nanoseconds, added to a sum.
fn spend(sum: &mut u128, since: Instant) {
    *sum += since.elapsed().as_nanos();
}

// What a turn spends on each of the calls; afterwards the outline is as it was.
fn turn(sheet: &mut Sheet, dice: &mut Dice, points: &[(f64, f64)], spent: &mut [u128; 6]) {
    let place = dice.below(points.len());
    let (lat, lon) = (points[place].0 * 0.999, points[place].1 + dice.between(-0.1, 0.1));
    let t = Instant::now();
    sheet.move_to(place, lat, lon).unwrap();
    spend(&mut spent[1], t);
    let t = Instant::now();
    black_box(sheet.measure(true).unwrap());
    spend(&mut spent[4], t);
    let t = Instant::now();
    sheet.take_back().unwrap();
    spend(&mut spent[3], t);
    let t = Instant::now();
    sheet.drop_at(place).unwrap();
    spend(&mut spent[2], t);
    let t = Instant::now();
    sheet.add(lat, lon).unwrap();
    spend(&mut spent[0], t);
    sheet.take_back().unwrap();
    sheet.take_back().unwrap();
    let t = Instant::now();
    sheet.move_to(place, lat, lon).unwrap();
    black_box(sheet.measure(true).unwrap());
    spend(&mut spent[5], t);
    sheet.take_back().unwrap();
}

fn outlines(geodesic: &Geodesic, name: &str, points: &[(f64, f64)]) {
    let n = points.len();
    let mut sheet = Sheet::wgs84(COUNTERCLOCKWISE, 4096, 1024).unwrap();
    for &(lat, lon) in points {
        sheet.add(lat, lon).unwrap();
    }
    let figures = sheet.measure(true).unwrap().figures;
    assert_eq!((figures.perimeter.to_bits(), figures.area.to_bits()), fresh(geodesic, points));
    let mut dice = Dice::new(13);
    let turns = 500;
    let (mut best, mut whole) = ([f64::INFINITY; 6], f64::INFINITY);
    for _ in 0..15 {
        let mut spent = [0u128; 6];
        for _ in 0..turns {
            turn(&mut sheet, &mut dice, points, &mut spent);
        }
        for (least, sum) in best.iter_mut().zip(spent) {
            *least = least.min(sum as f64 / turns as f64);
        }
        whole = whole.min(least(3, 1, || { black_box(fresh(geodesic, points)); }));
    }
    let clock = least(9, 10000, || for _ in 0..10000 { black_box(Instant::now().elapsed()); });
    for (what, spent) in CALLS.iter().zip(best) {
        println!("| {what}, {n} stations, {name} | {:.0} | {whole:.0} | 1/{:.0} |", spent - clock, whole / (spent - clock));
    }
}

fn main() {
    let geodesic = Geodesic::new(rs::geodesic::WGS84_A, rs::geodesic::WGS84_F);
    println!("| | here, ns | the crate, ns | ratio |");
    println!("|---|---|---|---|");
    inverses(&geodesic);
    println!();
    println!("| | here, ns | a fresh PolygonArea of the crate, ns | ratio |");
    println!("|---|---|---|---|");
    for n in [10, 1000, 4096] {
        outlines(&geodesic, "a ring", &ring(n));
    }
    outlines(&geodesic, "scattered", &scattered(4096));
}
