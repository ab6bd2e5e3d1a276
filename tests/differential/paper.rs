//! The points that the paper itself gives, with the answers printed there. They hold the model to the paper, not to the library.

use crate::compare::{fail, Bench, Case};
use crate::coverage::Call;
use crate::grids::{paper_p, paper_q, Plain};
use crate::model::{refuse, Answer, Reply, TO27, TO83};

fn expect(bench: &mut Bench, call: Call, plain: &Plain, point: [i64; 2], expected: Reply<Answer>) {
    let case = Case::of(&plain.header, &plain.lat, &plain.lon);
    let got = bench.one(call, &case, point, Some(4));
    if got != expected {
        fail(call, &format!("a point of the paper, {point:?}"), &format!("{expected:?}"), &format!("{got:?}"));
    }
}

/// An answer in NAD 83: its coordinates and their signs.
fn figure(coordinates: [i64; 2], signs: [i64; 2]) -> Reply<Answer> {
    Ok(Answer { coordinates, signs: Some(signs) })
}

fn back(point: [i64; 2]) -> Reply<Answer> {
    Ok(Answer::back(point))
}

/// The paper prints the signs of P3. Those of the others follow from their fractions: nodes, the middle of P and 6,250 x 160 / 1,000
/// are exact; 500 and 499 thousandths are rounded to 0, which is below them, and their opposites to 0, which is above.
pub fn points(bench: &mut Bench) {
    let (p, q) = (paper_p(), paper_q());
    let p3 = ([118_210_250, -298_581_930], [11_821_079_228, -29_858_147_963]);
    expect(bench, Call::To83, &p, [117_900_000, -298_800_000], figure([11_790_053_000, -29_879_958_000], [0, 0]));
    expect(bench, Call::To83, &p, [118_350_000, -298_350_000], figure([11_835_057_000, -29_834_951_000], [0, 0]));
    expect(bench, Call::To83, &p, p3.0, figure(p3.1, [1, 1]));
    expect(bench, Call::To83, &p, [118_125_000, -298_575_000], figure([11_812_554_500, -29_857_454_750], [0, 0]));
    expect(bench, Call::To83, &p, [118_350_001, -298_800_000], refuse(6, 0));
    expect(bench, Call::To83, &p, [118_350_000, -298_800_001], refuse(6, 0));
    expect(bench, Call::To83, &q, [0, 500], figure([0, 50_000], [-1, 1]));
    expect(bench, Call::To83, &q, [0, 499], figure([0, 49_900], [-1, 1]));
    expect(bench, Call::To27, &p, p3.1, back(p3.0));
    expect(bench, Call::To27, &p, [p3.1[0] + 1, p3.1[1]], refuse(7, 0));
    let east = Plain { lat: vec![0; 4], lon: vec![0, 6_250, 0, 6_250], ..q.clone() };
    expect(bench, Call::To83, &east, [0, 160], figure([0, 17_000], [0, 0]));
    expect(bench, Call::To27, &east, [0, 17_000], back([0, 160]));
    for (shift, expected) in [(6_250, refuse(14, 0)), (6_251, refuse(4, 0))] {
        let steep = Plain { lat: vec![0, shift, 0, 1], ..q.clone() };
        expect(bench, Call::To83, &steep, [0, 0], expected);
    }
}

/// Sheet Q with an east side so steep that the way back would miss, or find two points: 4 at node 0, whatever is asked of it.
pub fn too_steep(bench: &mut Bench) {
    for shift in [90_000, -100_000] {
        let steep = Plain { lon: vec![0, shift, 0, shift], ..paper_q() };
        expect(bench, Call::To83, &steep, [0, 500], refuse(4, 0));
        expect(bench, Call::To27, &steep, [0, 95_000], refuse(4, 0));
        let case = Case::of(&steep.header, &steep.lat, &steep.lon);
        bench.batch(&case, Some(&[TO83, TO27]), Some(&[0, 500, 0, 95_000]), [Some(8), Some(2)]);
        bench.batch(&case, Some(&[]), Some(&[]), [Some(0), Some(0)]);
        bench.list(&case, Some(b"to83=0,500\nto27=0,95000\n"), b"", Some);
        bench.list(&case, Some(b""), b"", Some);
        bench.coverage.mark("grid: the paper's sheet made too steep");
    }
}

/// The list that the paper prints.
pub fn list(bench: &mut Bench) {
    let p = paper_p();
    let case = Case::of(&p.header, &p.lat, &p.lon);
    let requests = "to83=118210250,-298581930\nto27=11821079228,-29858147963\nto83=117899999,-298581930\n\
                    to27=11821079229,-29858147963\nto83=1\n";
    let printed = "sheet=4\nok83=11821079228,-29858147963,1,1\nok27=118210250,-298581930\nno=6\nno=7\nno=1\ndone=2,3\n";
    let made = case.grid().map(|grid| crate::model_text::list(&grid, requests.as_bytes()).0).unwrap_or_default();
    if made != printed {
        fail(Call::List, "the list of the paper", &format!("{printed:?}"), &format!("{made:?}"));
    }
    bench.list(&case, Some(requests.as_bytes()), b"", Some);
}
