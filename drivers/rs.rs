// The crate's code over the series set, for the drivers. The files of reference/ are those of the folder that bin/bench and bin/compare are given.
pub mod el { pub use crate::sets::Series as El; }
pub mod caps { include!("reference/caps.rs"); }
pub mod geomath { include!("reference/geomath.rs"); }
pub mod geodesic { include!("reference/geodesic.rs"); }
pub mod polygon_area { include!("reference/polygon_area.rs"); }
