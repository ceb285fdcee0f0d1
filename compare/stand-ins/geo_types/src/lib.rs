//! Stand-in for the crate geo_types: `Point`, `Coord` and `Geometry` carry data, the rest has types and aborts.

fn reached(name: &str) -> ! {
    eprintln!("compare: the original reached geo_types::{name}, which is a stand-in");
    std::process::abort()
}

#[derive(Debug, Clone, Copy, PartialEq)]
pub struct Coord<T> {
    pub x: T,
    pub y: T,
}

#[derive(Debug, Clone, Copy, PartialEq)]
pub struct Point<T>(pub Coord<T>);

impl<T: Copy> Point<T> {
    pub fn new(x: T, y: T) -> Self {
        Point(Coord { x, y })
    }
    pub fn x(&self) -> T {
        self.0.x
    }
    pub fn y(&self) -> T {
        self.0.y
    }
}

#[derive(Debug, Clone, PartialEq)]
pub enum Geometry<T> {
    Point(Point<T>),
    Line(Line<T>),
    LineString(LineString<T>),
    Polygon(Polygon<T>),
    MultiPoint(MultiPoint<T>),
    MultiLineString(MultiLineString<T>),
    MultiPolygon(MultiPolygon<T>),
    GeometryCollection(GeometryCollection<T>),
    Rect(Rect<T>),
    Triangle(Triangle<T>),
}

#[derive(Debug, Clone, PartialEq)]
pub struct Line<T> {
    pub start: Coord<T>,
    pub end: Coord<T>,
}

#[derive(Debug, Clone, PartialEq)]
pub struct LineString<T>(pub Vec<Coord<T>>);

impl<T> LineString<T> {
    pub fn new(_: Vec<Coord<T>>) -> Self {
        reached("LineString::new")
    }
}

impl<'a, T> IntoIterator for &'a LineString<T> {
    type Item = &'a Coord<T>;
    type IntoIter = std::slice::Iter<'a, Coord<T>>;
    fn into_iter(self) -> Self::IntoIter {
        reached("LineString::into_iter")
    }
}

#[derive(Debug, Clone, PartialEq)]
pub struct Polygon<T>(std::marker::PhantomData<T>);

impl<T> Polygon<T> {
    pub fn new(_: LineString<T>, _: Vec<LineString<T>>) -> Self {
        reached("Polygon::new")
    }
    pub fn exterior(&self) -> &LineString<T> {
        reached("Polygon::exterior")
    }
    pub fn interiors(&self) -> &[LineString<T>] {
        reached("Polygon::interiors")
    }
}

#[derive(Debug, Clone, PartialEq)]
pub struct MultiPoint<T>(pub Vec<Point<T>>);

#[derive(Debug, Clone, PartialEq)]
pub struct MultiLineString<T>(pub Vec<LineString<T>>);

#[derive(Debug, Clone, PartialEq)]
pub struct MultiPolygon<T>(pub Vec<Polygon<T>>);

impl<T> MultiPolygon<T> {
    pub fn new(_: Vec<Polygon<T>>) -> Self {
        reached("MultiPolygon::new")
    }
}

#[derive(Debug, Clone, PartialEq)]
pub struct GeometryCollection<T>(pub Vec<Geometry<T>>);

#[derive(Debug, Clone, PartialEq)]
pub struct Rect<T>(std::marker::PhantomData<T>);

impl<T> Rect<T> {
    pub fn min(&self) -> Coord<T> {
        reached("Rect::min")
    }
    pub fn max(&self) -> Coord<T> {
        reached("Rect::max")
    }
    pub fn to_polygon(&self) -> Polygon<T> {
        reached("Rect::to_polygon")
    }
}

#[derive(Debug, Clone, PartialEq)]
pub struct Triangle<T>(std::marker::PhantomData<T>);

impl<T> Triangle<T> {
    pub fn to_polygon(&self) -> Polygon<T> {
        reached("Triangle::to_polygon")
    }
}
