//! Notes which points were judged: how two lie to each other on their line, and where one lies among the nodes.

use crate::circle::CIRCLE27;
use crate::compare::Bench;
use crate::grids::SHIFT_LIMIT;
use crate::model::Grid;
use crate::order_rule::{distances, Converted, Corners, Line};
use crate::points::is_tie;

/// A mark of a meridian or of a latitude shift, and the same of a parallel or of a longitude shift.
type Names = [&'static str; 2];

const NEIGHBOURS: Names = ["order: a meridian, one thousandth apart", "order: a parallel, one thousandth apart"];
const NO_COMMON_CELL: Names = ["order: a meridian, no cell in common", "order: a parallel, no cell in common"];
const FROM_LOW_EDGE: Names = ["order: a meridian, from the south edge", "order: a parallel, from the west edge"];
const TO_HIGH_EDGE: Names = ["order: a meridian, to the north edge", "order: a parallel, to the east edge"];
const EDGE_TO_EDGE: Names = ["order: a meridian, the whole height apart", "order: a parallel, the whole width apart"];
const LARGEST: Names =
    ["order: a meridian, the whole height of the tallest grid", "order: a parallel, the whole width of the widest grid"];
const FALLS: Names = [
    "order: a meridian, the latitude shift falls as steeply as it may",
    "order: a parallel, the longitude shift falls as steeply as it may",
];
const RISES: Names = [
    "order: a meridian, the latitude shift rises as steeply as it may",
    "order: a parallel, the longitude shift rises as steeply as it may",
];
const CLOSEST: Names =
    ["order: a meridian, neighbours with answers 93 apart", "order: a parallel, neighbours with answers 93 apart"];
const FARTHEST: Names =
    ["order: a meridian, neighbours with answers 107 apart", "order: a parallel, neighbours with answers 107 apart"];
const FIRST_TIED: Names =
    ["order: a meridian, a tie at the southern neighbour", "order: a parallel, a tie at the western neighbour"];
const SECOND_TIED: Names =
    ["order: a meridian, a tie at the northern neighbour", "order: a parallel, a tie at the eastern neighbour"];
const OUT_OF_ORDER: Names =
    ["order: too steep, a meridian's points would change sides", "order: too steep, a parallel's points would change sides"];
const LEAST: Names = ["shift: latitude, the least of four unlike corners", "shift: longitude, the least of four unlike corners"];
const GREATEST: Names =
    ["shift: latitude, the greatest of four unlike corners", "shift: longitude, the greatest of four unlike corners"];
const HIGH_NODE: Names = ["node: latitude shift 6,000,000", "node: longitude shift 6,000,000"];
const LOW_NODE: Names = ["node: latitude shift -6,000,000", "node: longitude shift -6,000,000"];

impl Bench {
    /// Notes what two points of a line reach, the southern or western one first.
    pub fn mark_pair(&mut self, grid: &Grid, line: Line, pair: [Converted; 2]) {
        self.mark_distance(grid, line, pair);
        self.mark_slope(grid, line, pair);
        if let Line::Parallel = line {
            self.mark_across(pair);
        }
    }

    /// Notes how far apart two points are, and whether they lie on the edges.
    fn mark_distance(&mut self, grid: &Grid, line: Line, pair: [Converted; 2]) {
        let axis = line as usize;
        let [from, to] = pair.map(|converted| distances(grid, converted.point)[axis]);
        let (spacing, nodes) = [(grid.dlat, grid.rows), (grid.dlon, grid.cols)][axis];
        let extent = (nodes - 1) * spacing;
        let whole = to - from == extent;
        let mut note = |reached: bool, names: Names| self.coverage.mark_if(reached, names[axis]);
        note(to - from == 1, NEIGHBOURS);
        note(from / spacing < (to - 1) / spacing, NO_COMMON_CELL);
        note(from == 0 && !whole, FROM_LOW_EDGE);
        note(to == extent && !whole, TO_HIGH_EDGE);
        note(whole, EDGE_TO_EDGE);
        note(whole && extent == 255 * 900_000, LARGEST);
    }

    /// Notes how the shift changes along the line: by at most 6.25 for each thousandth. As both shifts are rounded, the answers
    /// of two neighbours are from 93 to 107 apart.
    fn mark_slope(&mut self, grid: &Grid, line: Line, pair: [Converted; 2]) {
        let axis = line as usize;
        let [from, to] = pair.map(|converted| distances(grid, converted.point));
        let fraction = |[north, east]: [i128; 2]| match line {
            Line::Meridian => grid.lat_fraction(grid.south + north, east),
            Line::Parallel => grid.lon_fraction(grid.south + north, east),
        };
        let (first, second, apart) = (fraction(from), fraction(to), to[axis] - from[axis]);
        let (change, most) = (16 * (second.0 - first.0), 100 * apart * first.1);
        let mut note = |reached: bool, names: Names| self.coverage.mark_if(reached, names[axis]);
        note(change == -most, FALLS);
        note(change == most, RISES);
        if apart == 1 {
            let [before, behind] = pair.map(|converted| converted.shift()[axis]);
            note(100 + behind - before == 93, CLOSEST);
            note(100 + behind - before == 107, FARTHEST);
            note(is_tie(first), FIRST_TIED);
            note(is_tie(second), SECOND_TIED);
        }
    }

    /// Notes two points of a parallel with the 180th meridian between them. There the numbers stand in the other order.
    fn mark_across(&mut self, [first, second]: [Converted; 2]) {
        let (points, answers) = (first.point[1] > second.point[1], first.answer[1] > second.answer[1]);
        let (west_of_it, marks) = (first.point[1] > 0, &mut self.coverage);
        let widest = CIRCLE27.eastward(first.point[1].into(), second.point[1].into()) == 255 * 900_000;
        marks.mark_if(points && answers, "order: the 180th meridian between two points and between their answers");
        marks.mark_if(points && !answers, "order: the 180th meridian between two points alone");
        marks.mark_if(!points && answers && west_of_it, "order: the 180th meridian between two answers alone, carried east");
        marks.mark_if(!points && answers && !west_of_it, "order: the 180th meridian between two answers alone, carried west");
        marks.mark_if(points && widest, "order: the 180th meridian between the edges of the widest grid");
    }

    /// Notes that a grid was refused on which points of a line would change sides.
    pub fn mark_out_of_order(&mut self, line: Line) {
        self.coverage.mark(OUT_OF_ORDER[line as usize]);
    }

    /// Notes where a point lies whose shift was judged. `cells` has the corners of each cell that it belongs to.
    pub fn mark_shift(&mut self, grid: &Grid, converted: &Converted, cells: &[Corners]) {
        let [north, east] = distances(grid, converted.point);
        let on_side = (north % grid.dlat == 0, east % grid.dlon == 0);
        let marks = &mut self.coverage;
        match (on_side, cells.len()) {
            ((false, false), 1) => marks.mark("shift: inside a cell"),
            ((true, false), 2) => marks.mark("shift: on a side shared by a south and a north cell"),
            ((false, true), 2) => marks.mark("shift: on a side shared by a west and an east cell"),
            ((true, true), 4) => marks.mark("shift: at an inner node, which four cells share"),
            ((true, true), 1) => marks.mark("shift: at a corner of the grid"),
            _ => (),
        }
        for (component, shift) in converted.shift().into_iter().enumerate() {
            if on_side == (true, true) {
                self.mark_node(converted, component, shift);
            } else {
                cells.iter().for_each(|corners| self.mark_extreme(component, shift, corners[component]));
            }
        }
    }

    /// Notes a node on the 180th meridian, and one with a shift at a limit.
    fn mark_node(&mut self, converted: &Converted, component: usize, shift: i128) {
        let marks = &mut self.coverage;
        marks.mark_if(converted.point[1] == CIRCLE27.first, "node: on the 180th meridian");
        marks.mark_if(shift == SHIFT_LIMIT.into(), HIGH_NODE[component]);
        marks.mark_if(shift == (-SHIFT_LIMIT).into(), LOW_NODE[component]);
    }

    /// Notes a shift between nodes that is as small or as great as it can be, where no two corners are alike.
    fn mark_extreme(&mut self, component: usize, shift: i128, mut corners: [i128; 4]) {
        corners.sort_unstable();
        let unlike = corners.windows(2).all(|two| two[0] < two[1]);
        self.coverage.mark_if(unlike && shift == corners[0], LEAST[component]);
        self.coverage.mark_if(unlike && shift == corners[3], GREATEST[component]);
    }
}
