// Compares this library with the crate's own code and with plain lists, bit by bit, on many inputs. bin/compare builds it.
#![allow(non_snake_case, dead_code, unused, non_camel_case_types)]

mod floats;
mod knobs;
mod model;
mod outline;
mod pairs;
mod rs;
mod sets;

use model::{accepted, fresh, Book, Call, Ground, Point};
use outline::{EditRecord, Fault, Geodesic as Solved, Outline, Sheet, Station};
use pairs::{Dice, KINDS};
use rs::geodesic::Geodesic;

// The pattern of a float; every NaN has one.
fn pattern(x: f64) -> u64 {
    if x.is_nan() { 0x7ff8_0000_0000_0000 } else { x.to_bits() }
}

fn bytes_of<T>(row: &[T]) -> &[u8] {
    unsafe { std::slice::from_raw_parts(row.as_ptr() as *const u8, std::mem::size_of_val(row)) }
}

// Counts cases, and tells the first few that differ.
#[derive(Default)]
struct Tally {
    cases: u64,
    differ: u64,
}

impl Tally {
    fn case(&mut self, same: bool, tell: impl FnOnce() -> String) {
        self.cases += 1;
        if !same {
            self.differ += 1;
            if self.differ <= 5 {
                println!("  differs: {}", tell());
            }
        }
    }

    fn end(&self, what: &str) {
        println!("{what}: {} cases, {} differ", self.cases, self.differ);
    }
}

fn inverse_patterns(s: &Solved) -> [u64; 11] {
    [s.a12, s.s12, s.salp1, s.calp1, s.salp2, s.calp2, s.m12, s.M12, s.M21, s.S12, s.evaluations as f64].map(pattern)
}

fn pairs_agree(geodesic: &Geodesic, total: usize) {
    for (index, (name, kind)) in KINDS.iter().enumerate() {
        let seed = 100 + index as u64;
        let mut dice = Dice::new(seed);
        let mut tally = Tally::default();
        for turn in 0..total.div_ceil(KINDS.len()) {
            let p = kind(&mut dice);
            let mask = [outline::ALL, outline::POLYGON][turn % 2];
            let t = geodesic._gen_inverse(p[0], p[1], p[2], p[3], mask);
            let there = [t.0, t.1, t.2, t.3, t.4, t.5, t.6, t.7, t.8, t.9, knobs::evals() as f64].map(pattern);
            let here = outline::inverse(p[0], p[1], p[2], p[3], mask).map(|s| inverse_patterns(&s));
            tally.case(here == Ok(there), || format!("{:016x?} mask {mask:x}: {here:x?} {there:x?}", p.map(f64::to_bits)));
        }
        tally.end(&format!("pairs, {name}, seed {seed}"));
    }
}

// A latitude or longitude of any kind, mostly accepted ones.
fn any_point(dice: &mut Dice) -> Point {
    match dice.below(40) {
        0 => (f64::NAN, dice.lon()),
        1 => (90.00000000000001, dice.lon()),
        2 => (-1e300, dice.lon()),
        3 => (dice.lat(), f64::INFINITY),
        4 => (dice.lat(), f64::NAN),
        5 => (90.0, dice.lon()),
        6 => (-90.0, dice.lon()),
        7 => (dice.lat(), dice.sized(2.0, 308.0)),
        8 => (0.0, -0.0),
        9 => (dice.lat().round(), 180.0),
        10 => (dice.lat().round(), -180.0),
        11 => (dice.sized(-320.0, -3.0), dice.lon()),
        12..=20 => (dice.lat().round(), dice.lon().round()),
        _ => (dice.lat(), dice.lon()),
    }
}

fn refusals_agree(total: usize) {
    let seed = 200;
    let mut dice = Dice::new(seed);
    let mut tally = Tally::default();
    for _ in 0..total {
        let (a, b) = (any_point(&mut dice), any_point(&mut dice));
        let good = accepted(a.0, a.1) && accepted(b.0, b.1);
        let before = Solved { a12: 1.5, s12: 2.5, evaluations: 7, ..Solved::default() };
        let mut figures = before;
        let code = unsafe { outline::outline_inverse(a.0, a.1, b.0, b.1, outline::ALL, &mut figures) };
        let same = if good { code == 0 } else { code == 3 && figures == before };
        tally.case(same, || format!("{a:?} {b:?}: {code}"));
    }
    tally.end(&format!("refused points of the inverse, seed {seed}"));
}

// Points of one polygon: near each other, over the whole surface, about a pole, or of one of the kinds of pairs.
fn polygon_points(dice: &mut Dice) -> Vec<Point> {
    let n = match dice.below(20) {
        0 => dice.below(3),
        1 => 40 + dice.below(80),
        _ => 3 + dice.below(20),
    };
    match dice.below(5) {
        0 => (0..n).map(|_| (dice.lat(), dice.lon())).collect(),
        1 => {
            let (lat, lon, far) = (dice.between(-80.0, 80.0), dice.lon(), dice.sized(-5.0, 0.8).abs());
            (0..n).map(|i| (i as f64 / n as f64 * std::f64::consts::TAU).sin_cos()).map(|(s, c)| (lat + far * s, lon + far * c)).collect()
        }
        2 => {
            let lat = dice.between(-89.0, 89.0);
            (0..n).map(|i| (lat, -180.0 + 360.0 * i as f64 / n as f64)).collect()
        }
        3 => (0..n).map(|_| (dice.lat().round(), dice.lon().round())).collect(),
        _ => {
            let kind = KINDS[dice.below(KINDS.len())].1;
            (0..n.div_ceil(2)).flat_map(|_| { let p = kind(dice); [(p[0], p[1]), (p[2], p[3])] }).collect()
        }
    }
}

fn polygons_agree(geodesic: &Geodesic, total: usize) {
    let seed = 300;
    let mut dice = Dice::new(seed);
    let mut tally = Tally::default();
    for _ in 0..total {
        let points = polygon_points(&mut dice);
        let (clockwise, sign) = (dice.below(2) == 0, dice.below(2) == 0);
        let mut sheet = Sheet::wgs84(!clockwise as u8, points.len(), 0).unwrap();
        for p in &points {
            sheet.add(p.0, p.1).unwrap();
        }
        let f = sheet.measure(sign).unwrap().figures;
        let (perimeter, area, count) = fresh(geodesic, Ground::Earth, clockwise, sign, &points);
        let same = (pattern(f.perimeter), pattern(f.area), f.count) == (pattern(perimeter), pattern(area), count);
        tally.case(same, || format!("{points:?} clockwise {clockwise} sign {sign}: {f:?} {perimeter} {area} {count}"));
    }
    tally.end(&format!("polygons, seed {seed}"));
}

fn any_call(dice: &mut Dice, count: usize, room: usize) -> Call {
    let place = match dice.below(30) {
        0 => usize::MAX,
        1 => 4096 + dice.below(100000),
        2 => count,
        _ => dice.below(count + 1),
    };
    let (lat, lon) = any_point(dice);
    match dice.below(20) {
        0..=6 => Call::Add(lat, lon),
        7..=10 => Call::Move(place, lat, lon),
        11..=12 => Call::Drop(place),
        13..=15 => Call::Back,
        _ => Call::Measure(dice.below(2) == 0),
    }
}

// Makes a call on rows of these lengths, which may not be the rows' own. Answers the code, the edges, and the figures of a measure.
fn make(sheet: &mut Sheet, slots: (usize, usize), call: Call) -> (u32, u32, Option<(u64, u64, u32)>) {
    let mut cost = outline::Cost { edges: 77, evaluations: 78 };
    let mut m = outline::Measurement::default();
    let (o, s, e) = (&mut sheet.outline as *mut Outline, sheet.stations.as_mut_ptr(), sheet.edits.as_mut_ptr());
    let code = unsafe {
        match call {
            Call::Add(lat, lon) => outline::outline_add(o, s, slots.0, e, slots.1, lat, lon, &mut cost),
            Call::Move(place, lat, lon) => outline::outline_move(o, s, slots.0, e, slots.1, place, lat, lon, &mut cost),
            Call::Drop(place) => outline::outline_drop(o, s, slots.0, e, slots.1, place, &mut cost),
            Call::Back => outline::outline_take_back(o, s, slots.0, e, slots.1, &mut cost),
            Call::Measure(sign) => {
                let code = outline::outline_measure(o, s, slots.0, e, slots.1, sign, &mut m);
                if code == 0 { cost = m.cost }
                code
            }
        }
    };
    let figures = match call {
        Call::Measure(_) if code == 0 => Some((pattern(m.figures.perimeter), pattern(m.figures.area), m.figures.count)),
        _ => None,
    };
    (code, cost.edges, figures)
}

fn calls_agree(geodesic: &Geodesic, name: &str, seed: u64, earth: bool, total: usize) {
    let mut dice = Dice::new(seed);
    let (mut answers, mut measures, mut stayed, mut costs) = (Tally::default(), Tally::default(), Tally::default(), Tally::default());
    let mut refused = [0u64; 16];
    while (answers.cases as usize) < total {
        // rows with a few slots more than the outline is opened for, so that a wrong length stays within them
        let long = dice.below(200) == 0;
        let (room, most) = if long { (200 + dice.below(100), dice.below(100)) } else { (dice.below(24), dice.below(8)) };
        let clockwise = dice.below(2) == 0;
        let ground = if earth { Ground::Earth } else { Ground::Plate([1.0, 1e6, dice.between(1.0, 1000.0)][dice.below(3)]) };
        let mut sheet = match ground {
            Ground::Earth => Sheet::wgs84(!clockwise as u8, room, most),
            Ground::Plate(k) => Sheet::plate(k, !clockwise as u8, room, most),
        }.unwrap();
        sheet.stations.resize(room + 2, Station { lat: 7.0, ..Station::default() });
        sheet.edits.resize(most + 2, EditRecord::default());
        let mut book = Book::default();
        for _ in 0..if long { 3000 } else { 300 } {
            let call = any_call(&mut dice, book.standing.len(), room);
            let wrong = dice.below(25) == 0;
            let slots = if wrong { [(room + 1, most), (room, most + 2), (room.saturating_sub(1), most + 1)][dice.below(3)] } else { (room, most) };
            let expected = if wrong { 4 } else { book.refusal(room, call) };
            let kept = (expected != 0 || matches!(call, Call::Measure(_))).then(|| (sheet.outline, bytes_of(&sheet.stations).to_vec(), bytes_of(&sheet.edits).to_vec()));
            let (code, edges, figures) = make(&mut sheet, slots, call);
            answers.case(code == expected, || format!("{ground:?} {call:?} {slots:?}: {code} {expected}"));
            refused[code.min(15) as usize] += 1;
            if let Some((o, s, e)) = &kept {
                stayed.case(*o == sheet.outline && s == bytes_of(&sheet.stations) && e == bytes_of(&sheet.edits) && (code == 0 || edges == 77), || format!("{ground:?} {call:?}"));
            }
            if code != 0 {
                continue;
            }
            match call {
                Call::Back => {}
                _ => costs.case(edges == book.edges(call), || format!("{call:?} on {}: {edges}", book.standing.len())),
            }
            if let Call::Measure(sign) = call {
                let (perimeter, area, count) = fresh(geodesic, ground, clockwise, sign, &book.standing);
                let there = Some((pattern(perimeter), pattern(area), count));
                measures.case(figures == there, || format!("{ground:?} {:?} sign {sign}: {figures:x?} {there:x?}", book.standing));
            }
            book.follow(most, call);
        }
    }
    answers.end(&format!("calls on outlines, {name}, seed {seed}: done or refused"));
    measures.end("  of these, measures against a fresh polygon");
    stayed.end("  of these, refused calls and measures that leave everything");
    costs.end("  of these, edges solved");
    println!("  codes: {}", refused.iter().enumerate().filter(|(_, n)| **n > 0).map(|(c, n)| format!("{c}: {n}")).collect::<Vec<_>>().join(", "));
}

// The code for an outline that is kept, whatever stands in it: 0 where it can be taken up.
fn kept_code(o: &Outline) -> u32 {
    if o.surface > 1 { return 10; }
    if o.surface == 1 && !(o.scale >= 1.0 && o.scale <= 1e6) { return 1; }
    if o.winding > 1 { return 10; }
    if o.lengths.stations > 4096 || o.lengths.edits > 1024 || o.counts.stations > o.lengths.stations || o.counts.edits > o.lengths.edits { return 4; }
    0
}

// Whether the newest record can be taken back.
fn fits(r: &EditRecord, count: usize, room: usize) -> bool {
    let place = r.place as usize;
    match r.kind {
        1 => place + 1 == count,
        2 => place < count && accepted(r.lat, r.lon),
        3 => place <= count && count < room && accepted(r.lat, r.lon),
        _ => false,
    }
}

// Outlines and rows of any content: the code is that of the rules, and nothing crashes.
fn tampered_agree(total: usize) {
    let seed = 500;
    let mut dice = Dice::new(seed);
    let mut tally = Tally::default();
    let mut codes = [0u64; 16];
    for _ in 0..total {
        let (room, most) = (dice.below(12), dice.below(6));
        let mut sheet = Sheet::plate(1.0, 0, room, most).unwrap();
        for s in sheet.stations.iter_mut() {
            let (lat, lon) = any_point(&mut dice);
            *s = Station { lat, lon, s12: dice.sized(-300.0, 300.0), S12: f64::from_bits(dice.next()), crossing: dice.next() as i8, evaluations: dice.next() as u8 };
        }
        for r in sheet.edits.iter_mut() {
            let (lat, lon) = any_point(&mut dice);
            *r = EditRecord { kind: dice.below(5) as u8, place: if dice.below(4) == 0 { dice.next() as u16 } else { dice.below(13) as u16 }, lat, lon };
        }
        let o = &mut sheet.outline;
        let small = |d: &mut Dice, n: usize| if d.below(10) == 0 { d.next() as u16 } else { d.below(n + 1) as u16 };
        o.counts.stations = small(&mut dice, room);
        o.counts.edits = small(&mut dice, most);
        match dice.below(12) {
            0 => o.surface = dice.next() as u8,
            1 => o.winding = dice.next() as u8,
            2 => o.scale = f64::from_bits(dice.next()),
            3 => o.lengths.stations = dice.next() as u16,
            4 => o.lengths.edits = dice.next() as u16,
            5 => o.scale = [f64::NAN, 0.5, 1e6, 1000001.0][dice.below(4)],
            6 => o.surface = 0,
            _ => {}
        }
        let o = sheet.outline;
        let count = o.counts.stations as usize;
        let call = any_call(&mut dice, count.min(room), room);
        let expected = match kept_code(&o) {
            0 if (o.lengths.stations as usize, o.lengths.edits as usize) != (room, most) => 4,
            0 => match call {
                Call::Back if o.counts.edits == 0 => 7,
                Call::Back if !fits(&sheet.edits[o.counts.edits as usize - 1], count, room) => 8,
                Call::Back => 0,
                _ => Book { standing: vec![(0.0, 0.0); count], past: vec![] }.refusal(room, call),
            },
            code => code,
        };
        let (s, e) = (bytes_of(&sheet.stations).to_vec(), bytes_of(&sheet.edits).to_vec());
        let (code, edges, _) = make(&mut sheet, (room, most), call);
        let left = code == 0 || (bytes_of(&[o]) == bytes_of(&[sheet.outline]) && s == bytes_of(&sheet.stations) && e == bytes_of(&sheet.edits) && edges == 77);
        tally.case(code == expected && left, || format!("{o:?} rows {room} {most} {call:?}: {code} {expected}"));
        codes[code.min(15) as usize] += 1;
    }
    tally.end(&format!("outlines and rows of any content, seed {seed}"));
    println!("  codes: {}", codes.iter().enumerate().filter(|(_, n)| **n > 0).map(|(c, n)| format!("{c}: {n}")).collect::<Vec<_>>().join(", "));
}

// Writes fields of bits.
#[derive(Default)]
struct Writer {
    bytes: Vec<u8>,
    at: usize,
}

impl Writer {
    fn put(&mut self, value: u64, width: usize) {
        for bit in (0..width).rev() {
            if self.at % 8 == 0 {
                self.bytes.push(0);
            }
            *self.bytes.last_mut().unwrap() |= ((value >> bit & 1) as u8) << (7 - self.at % 8);
            self.at += 1;
        }
    }
}

// A sheet of random edits, most of which are not refused.
fn sheet_bytes(dice: &mut Dice) -> Vec<u8> {
    let count = match dice.below(10) {
        0 => 0,
        1 => dice.below(60),
        _ => 1 + dice.below(12),
    };
    let mut w = Writer::default();
    w.put(1, 4);
    w.put(dice.below(2) as u64, 1);
    w.put(dice.below(2) as u64, 1);
    w.put((dice.below(3) > 0) as u64, 2);
    w.put(count as u64, 16);
    let mut book = Book::default();
    for _ in 0..count {
        let call = loop {
            let call = any_call(dice, book.standing.len(), 1024);
            let bad = dice.below(60) == 0;
            if !matches!(call, Call::Measure(_)) && (bad || book.refusal(1024, call) == 0) {
                break call;
            }
        };
        match call {
            Call::Add(lat, lon) => { w.put(0, 2); w.put(lat.to_bits(), 64); w.put(lon.to_bits(), 64); }
            Call::Move(place, lat, lon) => { w.put(1, 2); w.put(place as u64 & 4095, 12); w.put(lat.to_bits(), 64); w.put(lon.to_bits(), 64); }
            Call::Drop(place) => { w.put(2, 2); w.put(place as u64 & 4095, 12); }
            _ => w.put(3, 2),
        }
        if book.refusal(1024, call) == 0 {
            book.follow(256, call);
        }
    }
    w.bytes
}

fn damaged(dice: &mut Dice, mut bytes: Vec<u8>) -> Vec<u8> {
    for _ in 0..dice.below(3) {
        match dice.below(7) {
            0 | 1 | 2 if !bytes.is_empty() => { let i = dice.below(bytes.len()); bytes[i] ^= 1 << dice.below(8); }
            3 => bytes.truncate(dice.below(bytes.len() + 1)),
            4 => (0..1 + dice.below(4)).for_each(|_| bytes.push(dice.next() as u8)),
            5 if !bytes.is_empty() => { let i = dice.below(bytes.len().min(4)); bytes[i] = dice.next() as u8; }
            _ => { let n = dice.below(64); bytes = (0..n).map(|_| dice.next() as u8).collect(); }
        }
    }
    if dice.below(2000) == 0 {
        bytes.resize(65535 + dice.below(3), 0);
    }
    bytes
}

fn sheets_agree(geodesic: &Geodesic, total: usize) {
    let seed = 600;
    let mut dice = Dice::new(seed);
    let mut tally = Tally::default();
    let mut drawn = 0u64;
    let mut faults = std::collections::BTreeMap::new();
    let (mut stations, mut edits) = (vec![Station::default(); 5000], vec![EditRecord::default(); 1200]);
    for _ in 0..total {
        let bytes = sheet_bytes(&mut dice);
        let bytes = damaged(&mut dice, bytes);
        let (room, most) = match dice.below(20) {
            0 => (dice.below(10), dice.below(4)),
            1 => (4095 + dice.below(3), 1023 + dice.below(3)),
            _ => (1024, 256),
        };
        let here = outline::draw(&bytes, &mut stations[..room], &mut edits[..most]);
        let here = here.map(|m| (pattern(m.figures.perimeter), pattern(m.figures.area), m.figures.count)).map_err(|f| (f.layer, f.number, f.edit, f.bit));
        let there = model::sheet(geodesic, &bytes, room, most).map(|f| (pattern(f.0), pattern(f.1), f.2));
        tally.case(here == there, || format!("{bytes:02x?} on {room} and {most}: {here:x?} {there:x?}"));
        match there {
            Ok(_) => drawn += 1,
            Err((layer, number, _, _)) => *faults.entry((layer, number)).or_insert(0u64) += 1,
        }
    }
    tally.end(&format!("damaged sheets, seed {seed}"));
    println!("  drawn {drawn}; faults by layer and number: {}", faults.iter().map(|((l, n), c)| format!("{l}/{n}: {c}")).collect::<Vec<_>>().join(", "));
}

fn main() {
    let scale: f64 = std::env::args().nth(1).map_or(1.0, |s| s.parse().unwrap());
    let many = |n: usize| (n as f64 * scale) as usize;
    let geodesic = Geodesic::new(rs::geodesic::WGS84_A, rs::geodesic::WGS84_F);
    pairs_agree(&geodesic, many(1_000_000));
    refusals_agree(many(100_000));
    polygons_agree(&geodesic, many(100_000));
    calls_agree(&geodesic, "plate", 400, false, many(9_000_000));
    calls_agree(&geodesic, "WGS84", 401, true, many(1_000_000));
    tampered_agree(many(500_000));
    sheets_agree(&geodesic, many(100_000));
}
