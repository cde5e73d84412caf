// Random numbers from a seed, and pairs of points of several kinds.
#![allow(dead_code)]

// xorshift64*: the state is never 0.
pub struct Dice(u64);

impl Dice {
    pub fn new(seed: u64) -> Dice {
        let mut dice = Dice(seed.wrapping_mul(0x9e37_79b9_7f4a_7c15) | 1);
        for _ in 0..8 {
            dice.next();
        }
        dice
    }

    pub fn next(&mut self) -> u64 {
        self.0 ^= self.0 >> 12;
        self.0 ^= self.0 << 25;
        self.0 ^= self.0 >> 27;
        self.0.wrapping_mul(0x2545_f491_4f6c_dd1d)
    }

    pub fn below(&mut self, n: usize) -> usize {
        ((self.next() >> 32) as usize) % n
    }

    // From 0 up to 1.
    pub fn unit(&mut self) -> f64 {
        (self.next() >> 11) as f64 / 9007199254740992.0
    }

    pub fn between(&mut self, low: f64, high: f64) -> f64 {
        low + (high - low) * self.unit()
    }

    // Of any size between two powers of ten, of either sign.
    pub fn sized(&mut self, low: f64, high: f64) -> f64 {
        let size = 10f64.powf(self.between(low, high));
        if self.next() & 1 == 0 { size } else { -size }
    }

    pub fn lat(&mut self) -> f64 {
        self.between(-90.0, 90.0)
    }

    pub fn lon(&mut self) -> f64 {
        self.between(-180.0, 180.0)
    }
}

pub type Pair = [f64; 4];

pub const KINDS: [(&str, fn(&mut Dice) -> Pair); 7] = [
    ("random", random),
    ("short", short),
    ("near-antipodal", antipodal),
    ("meridional", meridional),
    ("equatorial", equatorial),
    ("tiny latitudes", tiny),
    ("huge longitudes", huge),
];

pub fn random(d: &mut Dice) -> Pair {
    [d.lat(), d.lon(), d.lat(), d.lon()]
}

fn clamp(lat: f64) -> f64 {
    lat.max(-90.0).min(90.0)
}

// From a hundredth of a nanometre to ten kilometres apart.
pub fn short(d: &mut Dice) -> Pair {
    let (lat, lon) = (d.lat(), d.lon());
    let reach = 10f64.powf(d.between(-16.0, -1.0));
    [lat, lon, clamp(lat + d.between(-reach, reach)), lon + d.between(-reach, reach)]
}

// The other end within a degree of the antipode, or far nearer.
pub fn antipodal(d: &mut Dice) -> Pair {
    let (lat, lon) = (d.lat(), d.lon());
    let reach = 10f64.powf(d.between(-14.0, 0.0));
    [lat, lon, clamp(-lat + d.between(-reach, reach)), lon + 180.0 + d.between(-reach, reach)]
}

pub fn meridional(d: &mut Dice) -> Pair {
    let lon = d.lon();
    let other = match d.below(3) {
        0 => lon,
        1 => lon + 180.0,
        _ => lon - 360.0,
    };
    let pole = |d: &mut Dice| if d.below(8) == 0 { 90.0 } else { d.lat() };
    [pole(d), lon, pole(d), other]
}

pub fn equatorial(d: &mut Dice) -> Pair {
    let zero = |d: &mut Dice| if d.below(2) == 0 { 0.0 } else { -0.0 };
    let lon = if d.below(2) == 0 { d.lon() } else { d.between(-180.0, 180.0).round() };
    let gap = if d.below(2) == 0 { d.between(178.0, 182.0) } else { d.lon() };
    [zero(d), lon, zero(d), lon + gap]
}

pub fn tiny(d: &mut Dice) -> Pair {
    let gap = if d.below(2) == 0 { d.between(178.0, 180.5) } else { d.lon() };
    let lon = d.lon();
    [d.sized(-320.0, -3.0), lon, d.sized(-320.0, -3.0), lon + gap]
}

pub fn huge(d: &mut Dice) -> Pair {
    [d.lat(), d.sized(2.0, 308.0), d.lat(), d.sized(2.0, 308.0)]
}
