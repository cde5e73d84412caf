// A service that keeps the outline of a parcel through edits, and prints its title block after each:
// the points, the length of the border and the area.
#[path = "../include/outline.rs"]
mod outline;

use outline::{Answer, Cost, Sheet, COUNTERCLOCKWISE};

const STATIONS: usize = 64;
const EDITS: usize = 8;

enum Request {
    Add(f64, f64),
    Move(usize, f64, f64),
    Drop(usize),
    Back,
}

use Request::{Add, Back, Drop, Move};

// What is asked of the service, in order.
const REQUESTS: [Request; 11] = [
    Add(52.5163, 13.3777),
    Add(52.5186, 13.3763),
    Add(52.5200, 13.3690),
    Add(52.5144, 13.3501),
    Add(95.0000, 13.3600),
    Add(52.5096, 13.3759),
    Move(2, 52.5219, 13.3692),
    Drop(1),
    Move(9, 52.5000, 13.4000),
    Back,
    Back,
];

impl Request {
    fn name(&self) -> &'static str {
        match self {
            Add(..) => "add",
            Move(..) => "move",
            Drop(..) => "drop",
            Back => "back",
        }
    }

    fn serve(&self, parcel: &mut Sheet) -> Answer<Cost> {
        match *self {
            Add(lat, lon) => parcel.add(lat, lon),
            Move(place, lat, lon) => parcel.move_to(place, lat, lon),
            Drop(place) => parcel.drop_at(place),
            Back => parcel.take_back(),
        }
    }
}

fn print_title(parcel: &Sheet) -> Answer<()> {
    let figures = parcel.measure(true)?.figures;
    println!("  points {}, border {:.3} m, area {:.3} m2", figures.count, figures.perimeter, figures.area);
    Ok(())
}

fn run() -> Answer<()> {
    let mut parcel = Sheet::wgs84(COUNTERCLOCKWISE, STATIONS, EDITS)?;
    for request in &REQUESTS {
        match request.serve(&mut parcel) {
            Ok(_) => println!("{}: done", request.name()),
            Err(code) => println!("{}: refused {code}", request.name()),
        }
        print_title(&parcel)?;
    }
    parcel.outline.counts.stations = 65000; // a slip of the program's own: it is noticed
    if let Err(code) = print_title(&parcel) {
        println!("counts overwritten: refused {code}");
    }
    Ok(())
}

fn main() {
    if let Err(code) = run() {
        eprintln!("refused {code}");
        std::process::exit(1);
    }
}
