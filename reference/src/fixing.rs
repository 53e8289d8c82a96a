//! The fixing points of demand 3 (paper 01, "Fixing points of demand 3").

#[derive(Clone, Copy, Debug, PartialEq, Eq)]
pub enum FixingPoint {
    Opening,
    Frst,
    Wrtnac,
    Done,
    Wrtlmd,
    Full,
    EmptyStop,
    EdvfWindow,
    QualifiedRun,
}

impl FixingPoint {
    pub const ALL: [FixingPoint; 9] = [
        FixingPoint::Opening,
        FixingPoint::Frst,
        FixingPoint::Wrtnac,
        FixingPoint::Done,
        FixingPoint::Wrtlmd,
        FixingPoint::Full,
        FixingPoint::EmptyStop,
        FixingPoint::EdvfWindow,
        FixingPoint::QualifiedRun,
    ];

    /// The paper's word for it.
    pub fn name(self) -> &'static str {
        match self {
            FixingPoint::Opening => "opening",
            FixingPoint::Frst => "FRST",
            FixingPoint::Wrtnac => "WRTNAC",
            FixingPoint::Done => "DONE",
            FixingPoint::Wrtlmd => "WRTLMD",
            FixingPoint::Full => "full",
            FixingPoint::EmptyStop => "empty stop",
            FixingPoint::EdvfWindow => "EDVF window",
            FixingPoint::QualifiedRun => "qualified run",
        }
    }
}

/// The fixing points of one call. Most have none; a window can be an empty stop and also an EDVF window or a qualified run.
#[derive(Clone, Copy, Debug, Default, PartialEq, Eq)]
pub struct FixingPoints {
    set: u16,
}

impl FixingPoints {
    pub fn of(point: FixingPoint) -> FixingPoints {
        let mut points = FixingPoints::default();
        points.insert(point);
        points
    }

    pub fn insert(&mut self, point: FixingPoint) {
        self.set |= 1 << point as u16;
    }

    pub fn contains(self, point: FixingPoint) -> bool {
        self.set & (1 << point as u16) != 0
    }

    pub fn is_empty(self) -> bool {
        self.set == 0
    }

    /// In the order in which the rules of a window make them.
    pub fn iter(self) -> impl Iterator<Item = FixingPoint> {
        FixingPoint::ALL.into_iter().filter(move |&point| self.contains(point))
    }
}
