// A plain model of an outline, after docs/RULES.md: the book as lists, a plate's edges, the refusals, and a packed sheet.
#![allow(dead_code)]

use crate::rs::geodesic::Geodesic;
use crate::rs::geomath::ang_diff;
use crate::rs::polygon_area::{PolygonArea, Winding};

pub type Point = (f64, f64);

#[derive(Clone, Copy, Debug, PartialEq)]
pub enum Ground {
    Earth,
    Plate(f64),
}

#[derive(Clone, Copy, Debug)]
pub enum Call {
    Add(f64, f64),
    Move(usize, f64, f64),
    Drop(usize),
    Back,
    Measure(bool),
}

pub fn accepted(lat: f64, lon: f64) -> bool {
    lat >= -90.0 && lat <= 90.0 && lon.is_finite()
}

// The plate's edge: its length and the area below it.
fn plate_edge(k: f64, a: Point, b: Point) -> (f64, f64) {
    let d = ang_diff(a.1, b.1).0;
    let h = b.0 - a.0;
    (k * (d * d + h * h).sqrt(), k * k * (d * ((a.0 + b.0) / 2.0)))
}

// The sum of edge areas on the whole surface.
fn reduced(whole: f64, sum: f64, crossings: i64, clockwise: bool, sign: bool) -> f64 {
    let mut area = sum % whole;
    if crossings % 2 != 0 {
        area += if area < 0.0 { whole / 2.0 } else { -(whole / 2.0) };
    }
    if !clockwise {
        area = -area;
    }
    if sign {
        if area > whole / 2.0 { area - whole } else if area <= -whole / 2.0 { area + whole } else { area }
    } else if area < 0.0 {
        area + whole
    } else {
        area
    }
}

// Perimeter, area and count of a new polygon with these points.
pub fn fresh(geodesic: &Geodesic, ground: Ground, clockwise: bool, sign: bool, points: &[Point]) -> (f64, f64, u32) {
    match ground {
        Ground::Earth => {
            let winding = if clockwise { Winding::Clockwise } else { Winding::CounterClockwise };
            let mut polygon = PolygonArea::new(geodesic, winding);
            for p in points {
                polygon.add_point(p.0, p.1);
            }
            let (perimeter, area, count) = polygon.compute(sign);
            (perimeter, area, count as u32)
        }
        Ground::Plate(k) => {
            let (mut perimeter, mut sum, mut crossings) = (0.0, 0.0, 0i64);
            let first = points.first().copied().unwrap_or((0.0, 0.0));
            let last = points.last().copied().unwrap_or((0.0, 0.0));
            let mut step = |a: Point, b: Point| {
                let (length, area) = plate_edge(k, a, b);
                perimeter += length;
                sum += area;
                crossings += PolygonArea::transit(a.1, b.1) as i64;
            };
            for pair in points.windows(2) {
                step(pair[0], pair[1]);
            }
            step(last, first);
            (perimeter, reduced(k * k * 64800.0, sum, crossings, clockwise, sign), points.len() as u32)
        }
    }
}

// The book: the standing points, and the lists that stood before, the newest last.
#[derive(Clone, Default)]
pub struct Book {
    pub standing: Vec<Point>,
    pub past: Vec<Vec<Point>>,
}

impl Book {
    // Why a call is refused, if it is; `room` and `most` are the lengths of the rows.
    pub fn refusal(&self, room: usize, call: Call) -> u32 {
        let count = self.standing.len();
        match call {
            Call::Add(lat, lon) if !accepted(lat, lon) => 3,
            Call::Add(..) if count == room => 5,
            Call::Move(place, ..) | Call::Drop(place) if place >= count => 6,
            Call::Move(_, lat, lon) if !accepted(lat, lon) => 3,
            Call::Back if self.past.is_empty() => 7,
            _ => 0,
        }
    }

    // The edges that a call which is not refused solves.
    pub fn edges(&self, call: Call) -> u32 {
        let count = self.standing.len();
        let neighbours = |place: usize, count: usize| (place > 0) as u32 + (place + 1 < count) as u32;
        match call {
            Call::Add(..) => (count > 0) as u32,
            Call::Move(place, ..) => neighbours(place, count),
            Call::Drop(place) => (place > 0 && place + 1 < count) as u32,
            Call::Measure(_) => 1,
            Call::Back => 0,
        }
    }

    // A call that is not refused.
    pub fn follow(&mut self, most: usize, call: Call) {
        let mut next = self.standing.clone();
        match call {
            Call::Add(lat, lon) => next.push((lat, lon)),
            Call::Move(place, lat, lon) => next[place] = (lat, lon),
            Call::Drop(place) => {
                next.remove(place);
            }
            Call::Back => {
                self.standing = self.past.pop().unwrap();
                return;
            }
            Call::Measure(_) => return,
        }
        self.past.push(std::mem::replace(&mut self.standing, next));
        if self.past.len() > most {
            self.past.remove(0);
        }
    }
}

// A fault: layer (1 bits, 2 field, 3 outline), number, edit, bit.
pub type Fault = (u8, u8, u16, usize);

pub struct Bits<'a> {
    bytes: &'a [u8],
}

impl Bits<'_> {
    fn field(&self, at: usize, width: usize) -> Option<u64> {
        if at + width > 8 * self.bytes.len() {
            return None;
        }
        let mut value = 0u64;
        for bit in at..at + width {
            value = value << 1 | (self.bytes[bit / 8] >> (7 - bit % 8) & 1) as u64;
        }
        Some(value)
    }
}

// What a sheet comes to on rows of these lengths: the figures of a new polygon, or the first fault.
pub fn sheet(geodesic: &Geodesic, bytes: &[u8], room: usize, most: usize) -> Result<(f64, f64, u32), Fault> {
    if bytes.len() > 65536 {
        return Err((1, 11, 0, 524288));
    }
    let bits = Bits { bytes };
    let read = |at: usize, width: usize, edit: u16| bits.field(at, width).ok_or((1, 9, edit, at));
    if read(0, 4, 0)? != 1 {
        return Err((2, 10, 0, 0));
    }
    let winding = read(4, 1, 0)?;
    let sign = read(5, 1, 0)? == 1;
    let ground = match read(6, 2, 0)? {
        0 => Ground::Earth,
        1 => Ground::Plate(1.0),
        _ => return Err((2, 10, 0, 6)),
    };
    let count = read(8, 16, 0)? as u16;
    if room > 4096 || most > 1024 {
        return Err((3, 4, 0, 0));
    }
    let mut book = Book::default();
    let mut at = 24;
    for edit in 1..=count {
        let begins = at;
        let kind = read(at, 2, edit)?;
        at += 2;
        let mut place = 0;
        if kind == 1 || kind == 2 {
            place = read(at, 12, edit)? as usize;
            at += 12;
        }
        let (mut lat, mut lon) = (0.0, 0.0);
        if kind < 2 {
            lat = f64::from_bits(read(at, 64, edit)?);
            lon = f64::from_bits(read(at + 64, 64, edit)?);
            at += 128;
        }
        let call = match kind {
            0 => Call::Add(lat, lon),
            1 => Call::Move(place, lat, lon),
            2 => Call::Drop(place),
            _ => Call::Back,
        };
        match book.refusal(room, call) {
            0 => book.follow(most, call),
            number => return Err((3, number as u8, edit, begins)),
        }
    }
    while at % 8 != 0 {
        if read(at, 1, count)? == 1 {
            return Err((2, 10, count, at));
        }
        at += 1;
    }
    if at < 8 * bytes.len() {
        return Err((2, 10, count, at));
    }
    Ok(fresh(geodesic, ground, winding == 0, sign, &book.standing))
}
