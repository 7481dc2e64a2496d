/// A polygon.
pub struct Polygon {
    pub corners: Vec<Corner>,
    pub fill: Fill,
    pub label: Option<BoxedStr>,
}

/// A corner of a polygon.
pub struct Corner {
    pub x: i32,
    pub y: i32,
}

/// How a polygon is filled.
pub enum Fill {
    Nothing,
    Colour(u32),
    Pattern(String, i64),
}
