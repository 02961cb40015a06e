//! Stand-in for the crate line-clipping, by document 01, 'Clipping (stand-in)'.
#![no_std]

#[derive(Clone, Copy)]
pub struct Point {
    pub x: f64,
    pub y: f64,
}

impl Point {
    pub fn new(x: f64, y: f64) -> Self {
        Self { x, y }
    }
}

#[derive(Clone, Copy)]
pub struct LineSegment {
    pub p1: Point,
    pub p2: Point,
}

impl LineSegment {
    pub fn new(p1: Point, p2: Point) -> Self {
        Self { p1, p2 }
    }
}

#[derive(Clone, Copy)]
pub struct Window {
    xmin: f64,
    xmax: f64,
    ymin: f64,
    ymax: f64,
}

impl Window {
    pub fn new(xmin: f64, xmax: f64, ymin: f64, ymax: f64) -> Self {
        Self { xmin, xmax, ymin, ymax }
    }
}

pub mod cohen_sutherland {
    use super::{LineSegment, Point, Window};

    /// 'Eight cuts made, no line.'
    const MOST_CUTS: u32 = 8;

    /// 'Left if x is below xmin, else right if above xmax; bottom if y is below ymin, else top if above ymax.'
    #[derive(Clone, Copy)]
    struct Sides {
        left: bool,
        right: bool,
        bottom: bool,
        top: bool,
    }

    impl Sides {
        fn of(end: Point, window: &Window) -> Self {
            let left = end.x < window.xmin;
            let bottom = end.y < window.ymin;
            Self {
                left,
                right: !left && end.x > window.xmax,
                bottom,
                top: !bottom && end.y > window.ymax,
            }
        }

        fn any(self) -> bool {
            self.left || self.right || self.bottom || self.top
        }

        fn common(self, other: Self) -> bool {
            (self.left && other.left)
                || (self.right && other.right)
                || (self.bottom && other.bottom)
                || (self.top && other.top)
        }
    }

    /// The line inside the window, or none.
    pub fn clip_line(line: LineSegment, window: Window) -> Option<LineSegment> {
        clip_and_count(line, window).0
    }

    /// 'The answer carries the number of cuts.'
    pub fn clip_and_count(line: LineSegment, window: Window) -> (Option<LineSegment>, u32) {
        let mut line = line;
        let mut cuts = 0;
        loop {
            let first = Sides::of(line.p1, &window);
            let second = Sides::of(line.p2, &window);
            if !first.any() && !second.any() {
                return (Some(line), cuts);
            }
            if first.common(second) || cuts == MOST_CUTS {
                return (None, cuts);
            }
            cuts += 1;
            // 'Cut the first end if it has a side, else the second.'
            if first.any() {
                line.p1 = cut(&line, first, &window);
            } else {
                line.p2 = cut(&line, second, &window);
            }
        }
    }

    /// The end that takes the place of the cut one, 'at its first side in the order left, right, bottom, top'.
    fn cut(line: &LineSegment, sides: Sides, window: &Window) -> Point {
        if sides.left {
            Point { x: window.xmin, y: y_at(line, window.xmin) }
        } else if sides.right {
            Point { x: window.xmax, y: y_at(line, window.xmax) }
        } else if sides.bottom {
            Point { x: x_at(line, window.ymin), y: window.ymin }
        } else {
            Point { x: x_at(line, window.ymax), y: window.ymax }
        }
    }

    /// 'Y becomes y1 + (y2 - y1) × (xmin - x1) / (x2 - x1), multiplied before divided, whichever end is cut.'
    fn y_at(line: &LineSegment, x: f64) -> f64 {
        let (a, b) = (line.p1, line.p2);
        a.y + (b.y - a.y) * (x - a.x) / (b.x - a.x)
    }

    /// 'The others alike.'
    fn x_at(line: &LineSegment, y: f64) -> f64 {
        let (a, b) = (line.p1, line.p2);
        a.x + (b.x - a.x) * (y - a.y) / (b.y - a.y)
    }
}
