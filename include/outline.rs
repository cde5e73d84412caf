// The calls of include/outline.h for a program in Rust: `#[path = "../include/outline.rs"] mod outline;`.
// What is asked of the caller is told there.
#![allow(dead_code, non_snake_case)]

pub const CLOCKWISE: u8 = 0;
pub const COUNTERCLOCKWISE: u8 = 1;

pub const ALL: u64 = 0x7f9f;
pub const POLYGON: u64 = 0xc599;

#[derive(Clone, Copy, Debug, Default, PartialEq)]
#[repr(C)]
pub struct Station {
    pub lat: f64,
    pub lon: f64,
    pub s12: f64,
    pub S12: f64,
    pub crossing: i8,
    pub evaluations: u8,
}

#[derive(Clone, Copy, Debug, Default, PartialEq)]
#[repr(C)]
pub struct EditRecord {
    pub kind: u8,
    pub place: u16,
    pub lat: f64,
    pub lon: f64,
}

#[derive(Clone, Copy, Debug, Default, PartialEq)]
#[repr(C)]
pub struct Sizes {
    pub stations: u16,
    pub edits: u16,
}

#[derive(Clone, Copy, Debug, Default, PartialEq)]
#[repr(C)]
pub struct Outline {
    pub scale: f64,
    pub surface: u8,
    pub winding: u8,
    pub lengths: Sizes,
    pub counts: Sizes,
}

#[derive(Clone, Copy, Debug, Default, PartialEq)]
#[repr(C)]
pub struct Cost {
    pub edges: u32,
    pub evaluations: u32,
}

#[derive(Clone, Copy, Debug, Default, PartialEq)]
#[repr(C)]
pub struct Figures {
    pub perimeter: f64,
    pub area: f64,
    pub count: u32,
}

#[derive(Clone, Copy, Debug, Default, PartialEq)]
#[repr(C)]
pub struct Measurement {
    pub figures: Figures,
    pub cost: Cost,
}

#[derive(Clone, Copy, Debug, Default, PartialEq)]
#[repr(C)]
pub struct Geodesic {
    pub a12: f64,
    pub s12: f64,
    pub salp1: f64,
    pub calp1: f64,
    pub salp2: f64,
    pub calp2: f64,
    pub m12: f64,
    pub M12: f64,
    pub M21: f64,
    pub S12: f64,
    pub evaluations: u8,
}

#[derive(Clone, Copy, Debug, Default, PartialEq)]
#[repr(C)]
pub struct Fault {
    pub layer: u8,
    pub number: u8,
    pub edit: u16,
    pub bit: usize,
}

extern "C" {
    pub fn outline_open_wgs84(outline: *mut Outline, winding: u8, station_slots: usize, edit_slots: usize) -> u32;
    pub fn outline_open_plate(outline: *mut Outline, scale: f64, winding: u8, station_slots: usize, edit_slots: usize) -> u32;
    pub fn outline_add(outline: *mut Outline, stations: *mut Station, station_slots: usize, edits: *mut EditRecord, edit_slots: usize, lat: f64, lon: f64, cost: *mut Cost) -> u32;
    pub fn outline_move(outline: *mut Outline, stations: *mut Station, station_slots: usize, edits: *mut EditRecord, edit_slots: usize, place: usize, lat: f64, lon: f64, cost: *mut Cost) -> u32;
    pub fn outline_drop(outline: *mut Outline, stations: *mut Station, station_slots: usize, edits: *mut EditRecord, edit_slots: usize, place: usize, cost: *mut Cost) -> u32;
    pub fn outline_take_back(outline: *mut Outline, stations: *mut Station, station_slots: usize, edits: *const EditRecord, edit_slots: usize, cost: *mut Cost) -> u32;
    pub fn outline_measure(outline: *const Outline, stations: *const Station, station_slots: usize, edits: *const EditRecord, edit_slots: usize, sign: bool, measurement: *mut Measurement) -> u32;
    pub fn outline_draw(bytes: *const u8, length: usize, stations: *mut Station, station_slots: usize, edits: *mut EditRecord, edit_slots: usize, drawn: *mut Measurement, fault: *mut Fault) -> u32;
    pub fn outline_inverse(lat1: f64, lon1: f64, lat2: f64, lon2: f64, mask: u64, figures: *mut Geodesic) -> u32;
}

// An outline with its rows.
pub struct Sheet {
    pub outline: Outline,
    pub stations: Vec<Station>,
    pub edits: Vec<EditRecord>,
}

// What a call answers: its answer, or the number of its refusal.
pub type Answer<T> = Result<T, u32>;

fn told<T>(code: u32, answer: T) -> Answer<T> {
    if code == 0 { Ok(answer) } else { Err(code) }
}

impl Sheet {
    // An outline on the WGS84 ellipsoid, over rows of these lengths.
    pub fn wgs84(winding: u8, stations: usize, edits: usize) -> Answer<Sheet> {
        let mut outline = Outline::default();
        let code = unsafe { outline_open_wgs84(&mut outline, winding, stations, edits) };
        told(code, Sheet { outline, stations: vec![Station::default(); stations], edits: vec![EditRecord::default(); edits] })
    }

    // An outline on the plate of a scale, over rows of these lengths.
    pub fn plate(scale: f64, winding: u8, stations: usize, edits: usize) -> Answer<Sheet> {
        let mut outline = Outline::default();
        let code = unsafe { outline_open_plate(&mut outline, scale, winding, stations, edits) };
        told(code, Sheet { outline, stations: vec![Station::default(); stations], edits: vec![EditRecord::default(); edits] })
    }

    pub fn add(&mut self, lat: f64, lon: f64) -> Answer<Cost> {
        let mut cost = Cost::default();
        let code = unsafe { outline_add(&mut self.outline, self.stations.as_mut_ptr(), self.stations.len(), self.edits.as_mut_ptr(), self.edits.len(), lat, lon, &mut cost) };
        told(code, cost)
    }

    pub fn move_to(&mut self, place: usize, lat: f64, lon: f64) -> Answer<Cost> {
        let mut cost = Cost::default();
        let code = unsafe { outline_move(&mut self.outline, self.stations.as_mut_ptr(), self.stations.len(), self.edits.as_mut_ptr(), self.edits.len(), place, lat, lon, &mut cost) };
        told(code, cost)
    }

    pub fn drop_at(&mut self, place: usize) -> Answer<Cost> {
        let mut cost = Cost::default();
        let code = unsafe { outline_drop(&mut self.outline, self.stations.as_mut_ptr(), self.stations.len(), self.edits.as_mut_ptr(), self.edits.len(), place, &mut cost) };
        told(code, cost)
    }

    pub fn take_back(&mut self) -> Answer<Cost> {
        let mut cost = Cost::default();
        let code = unsafe { outline_take_back(&mut self.outline, self.stations.as_mut_ptr(), self.stations.len(), self.edits.as_ptr(), self.edits.len(), &mut cost) };
        told(code, cost)
    }

    pub fn measure(&self, sign: bool) -> Answer<Measurement> {
        let mut measurement = Measurement::default();
        let code = unsafe { outline_measure(&self.outline, self.stations.as_ptr(), self.stations.len(), self.edits.as_ptr(), self.edits.len(), sign, &mut measurement) };
        told(code, measurement)
    }
}

// The geodesic between two points of the WGS84 ellipsoid.
pub fn inverse(lat1: f64, lon1: f64, lat2: f64, lon2: f64, mask: u64) -> Answer<Geodesic> {
    let mut figures = Geodesic::default();
    let code = unsafe { outline_inverse(lat1, lon1, lat2, lon2, mask, &mut figures) };
    told(code, figures)
}

// A packed sheet drawn on these rows: its figures and cost, or its fault.
pub fn draw(bytes: &[u8], stations: &mut [Station], edits: &mut [EditRecord]) -> Result<Measurement, Fault> {
    let mut drawn = Measurement::default();
    let mut fault = Fault::default();
    let code = unsafe { outline_draw(bytes.as_ptr(), bytes.len(), stations.as_mut_ptr(), stations.len(), edits.as_mut_ptr(), edits.len(), &mut drawn, &mut fault) };
    if code == 0 { Ok(drawn) } else { Err(fault) }
}
