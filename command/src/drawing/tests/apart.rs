//! How far apart things are on a page.

use crate::drawing::page::{at, Place, Shape, DOT};
use crate::drawing::text::Room;

impl Room {
    pub fn is_within(&self, left: f64, top: f64, right: f64, bottom: f64) -> bool {
        self.left >= left && self.top >= top && self.right <= right && self.bottom <= bottom
    }

    /// The distance to another room, by the greater of the distances along the
    /// two axes; below 0 if they overlap.
    pub fn distance(&self, other: &Room) -> f64 {
        let across = (other.left - self.right).max(self.left - other.right);
        let down = (other.top - self.bottom).max(self.top - other.bottom);
        across.max(down)
    }

    fn grown(&self, by: f64) -> Room {
        Room {
            left: self.left - by,
            top: self.top - by,
            right: self.right + by,
            bottom: self.bottom + by,
        }
    }

    /// Whether a line runs through it: what is left of the line between the
    /// sides is not empty (Liang and Barsky).
    pub fn is_crossed(&self, from: Place, to: Place) -> bool {
        let (mut enters, mut leaves) = (0.0f64, 1.0f64);
        for (way, low, high) in [
            (to.x - from.x, self.left - from.x, self.right - from.x),
            (to.y - from.y, self.top - from.y, self.bottom - from.y),
        ] {
            if way == 0.0 {
                if low > 0.0 || high < 0.0 {
                    return false;
                }
            } else {
                enters = enters.max((low / way).min(high / way));
                leaves = leaves.min((low / way).max(high / way));
            }
        }
        enters <= leaves
    }

    pub fn distance_to(&self, place: Place) -> f64 {
        self.reach(place).0
    }

    /// The distances from a place to the nearest and to the farthest of it.
    fn reach(&self, from: Place) -> (f64, f64) {
        let beyond = |low: f64, high: f64, at: f64| (low - at).max(at - high).max(0.0);
        let nearest =
            beyond(self.left, self.right, from.x).hypot(beyond(self.top, self.bottom, from.y));
        let far = |low: f64, high: f64, at: f64| (at - low).abs().max((high - at).abs());
        let farthest = far(self.left, self.right, from.x).hypot(far(self.top, self.bottom, from.y));
        (nearest, farthest)
    }
}

/// Whether a shape that is no text stays so far away from a room. A stub is
/// taken with what is inside it, a wall without.
pub fn is_clear(shape: &Shape, room: &Room, clearance: f64) -> bool {
    match *shape {
        Shape::Line { from, to, pen } => !room
            .grown(clearance + pen.width() / 2.0)
            .is_crossed(from, to),
        Shape::Circle {
            center,
            radius,
            pen,
        } => {
            let away = clearance + pen.width() / 2.0;
            let (nearest, farthest) = room.reach(center);
            farthest < radius - away || nearest > radius + away
        }
        Shape::Rectangle {
            corner,
            wide,
            high,
            pen,
        } => {
            let room = room.grown(clearance + pen.width() / 2.0);
            let (right, bottom) = (corner.x + wide, corner.y + high);
            let inside = room.is_within(corner.x, corner.y, right, bottom);
            let outside = room.left > right
                || room.right < corner.x
                || room.top > bottom
                || room.bottom < corner.y;
            outside || inside
        }
        Shape::Dot(center) => room.reach(center).0 > DOT + clearance,
        Shape::Text(_) => true,
    }
}

/// The distance from a place to a line.
pub fn distance(place: Place, from: Place, to: Place) -> f64 {
    let way = at(to.x - from.x, to.y - from.y);
    let length = way.x.hypot(way.y);
    let along = ((place.x - from.x) * way.x + (place.y - from.y) * way.y) / (length * length);
    let nearest = at(
        from.x + way.x * along.clamp(0.0, 1.0),
        from.y + way.y * along.clamp(0.0, 1.0),
    );
    (place.x - nearest.x).hypot(place.y - nearest.y)
}

/// Whether two lines cross, each with an end on either side of the other.
pub fn cross(one: (Place, Place), other: (Place, Place)) -> bool {
    let side = |(from, to): (Place, Place), place: Place| {
        (to.x - from.x) * (place.y - from.y) - (to.y - from.y) * (place.x - from.x)
    };
    let parts = |line: (Place, Place), ends: (Place, Place)| {
        let (first, second) = (side(line, ends.0), side(line, ends.1));
        first.abs() > 1e-6 && second.abs() > 1e-6 && (first > 0.0) != (second > 0.0)
    };
    parts(one, other) && parts(other, one)
}

mod tests {
    use super::*;
    use crate::drawing::page::{circle, line, rectangle, Pen};

    const ROOM: Room = Room {
        left: 10.0,
        top: 10.0,
        right: 20.0,
        bottom: 15.0,
    };

    #[test]
    fn a_line_through_a_room_is_not_clear_of_it() {
        let clear = |from, to| is_clear(&line(from, to, Pen::Tick), &ROOM, 1.0);
        assert!(!clear(at(0.0, 12.0), at(30.0, 12.0)));
        assert!(!clear(at(12.0, 12.0), at(13.0, 13.0)));
        assert!(!clear(at(5.0, 12.0), at(17.0, 0.0)));
        assert!(!clear(at(0.0, 8.5), at(30.0, 8.5)));
        assert!(clear(at(0.0, 8.3), at(30.0, 8.3)));
        assert!(clear(at(0.0, 12.0), at(8.3, 12.0)));
        assert!(clear(at(5.0, 12.0), at(14.0, 0.0)));
    }

    #[test]
    fn a_circle_is_clear_of_a_room_inside_or_outside_of_it() {
        let clear = |radius| is_clear(&circle(at(15.0, 0.0), radius, Pen::Inside), &ROOM, 1.0);
        assert!(clear(8.4));
        assert!(!clear(8.6));
        assert!(!clear(12.0));
        assert!(!clear(17.0));
        assert!(clear(17.4));
    }

    #[test]
    fn a_rectangle_is_clear_of_a_room_inside_or_outside_of_it() {
        let clear = |corner| is_clear(&rectangle(corner, at(40.0, 40.0), Pen::Inside), &ROOM, 1.0);
        assert!(clear(at(8.4, 8.4)));
        assert!(!clear(at(8.6, 8.4)));
        assert!(!clear(at(15.0, 12.0)));
        assert!(clear(at(21.6, 0.0)));
    }

    #[test]
    fn a_dot_is_clear_of_a_room_beside_it() {
        assert!(!is_clear(&Shape::Dot(at(15.0, 12.0)), &ROOM, 1.0));
        assert!(!is_clear(&Shape::Dot(at(15.0, 18.0)), &ROOM, 1.0));
        assert!(is_clear(&Shape::Dot(at(15.0, 18.6)), &ROOM, 1.0));
    }

    #[test]
    fn lines_that_share_an_end_do_not_cross() {
        let fan = (at(0.0, 0.0), at(5.0, 9.0));
        assert!(!cross(fan, (at(0.0, 0.0), at(6.0, 9.0))));
        assert!(cross(fan, (at(1.0, 0.0), at(3.0, 9.0))));
        assert!(!cross(fan, (at(1.0, 0.0), at(6.0, 9.0))));
    }
}
