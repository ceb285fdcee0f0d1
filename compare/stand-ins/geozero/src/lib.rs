//! Stand-in for the crate geozero: types only, every call aborts.

use error::GeozeroError;
use geo_types::Geometry;

fn reached(name: &str) -> ! {
    eprintln!("compare: the original reached geozero::{name}, which is a stand-in");
    std::process::abort()
}

pub mod error {
    #[derive(Debug, Clone, PartialEq)]
    pub struct GeozeroError;

    impl std::fmt::Display for GeozeroError {
        fn fmt(&self, _: &mut std::fmt::Formatter<'_>) -> std::fmt::Result {
            super::reached("GeozeroError::fmt")
        }
    }
}

pub mod wkb {
    pub struct Wkb<'a>(pub &'a [u8]);
    pub struct Ewkb<'a>(pub &'a [u8]);
}

pub mod wkt {
    pub struct Wkt<'a>(pub &'a str);
}

pub trait ToGeo {
    fn to_geo(&self) -> Result<Geometry<f64>, GeozeroError> {
        reached("ToGeo::to_geo")
    }
}

impl ToGeo for wkb::Wkb<'_> {}
impl ToGeo for wkb::Ewkb<'_> {}
impl ToGeo for wkt::Wkt<'_> {}

pub struct CoordDimensions;

impl CoordDimensions {
    pub fn xy() -> Self {
        reached("CoordDimensions::xy")
    }
}

pub trait ToWkb {
    fn to_wkb(&self, _: CoordDimensions) -> Result<Vec<u8>, GeozeroError> {
        reached("ToWkb::to_wkb")
    }
}

impl ToWkb for Geometry<f64> {}

pub trait ToWkt {
    fn to_wkt(&self) -> Result<String, GeozeroError> {
        reached("ToWkt::to_wkt")
    }
}

impl ToWkt for Geometry<f64> {}
