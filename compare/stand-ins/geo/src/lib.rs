//! Stand-in for the crate geo: types only, every call aborts.

use geo_types::{Geometry, LineString, Polygon, Rect};

fn reached(name: &str) -> ! {
    eprintln!("compare: the original reached geo::{name}, which is a stand-in");
    std::process::abort()
}

pub trait HasDimensions {
    fn is_empty(&self) -> bool {
        reached("HasDimensions::is_empty")
    }
}

impl HasDimensions for Geometry<f64> {}

pub trait BoundingRect {
    fn bounding_rect(&self) -> Option<Rect<f64>> {
        reached("BoundingRect::bounding_rect")
    }
}

impl BoundingRect for Geometry<f64> {}

pub mod algorithm {
    use super::*;

    pub trait Area {
        fn unsigned_area(&self) -> f64 {
            reached("Area::unsigned_area")
        }
    }

    impl Area for Polygon<f64> {}

    pub mod line_measures {
        use super::*;

        pub struct Euclidean;

        pub trait Length {
            fn length(&self, _: &LineString<f64>) -> f64 {
                reached("Length::length")
            }
        }

        impl Length for Euclidean {}
    }
}
