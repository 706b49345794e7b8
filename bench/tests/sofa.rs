//! The worked example, number by number.

mod common;

use bench::cases::{projection_numbers, search_numbers};
use bench::estimator::{Blind, Estimator, Maximum, Partition, Projection};
use bench::fault::{Cause, SetFault};
use bench::ours::SearchNumbers;
use bench::plan::{plan, Answer};
use bench::reader::read;
use bench::search::{Find, Outcome, Search, StartFault, Status};
use common::{sofa_without_loft, SOFA};

#[test]
fn operators_apply() {
    let task = read(SOFA.as_bytes()).unwrap();
    let mut row = [0, 0];
    assert!(!task.apply(1, &mut row));
    assert_eq!(row, [0, 0]);
    assert!(task.apply(0, &mut row));
    assert_eq!(row, [0, 1]);
    assert!(!task.apply(4, &mut row));
    assert!(!task.apply(0, &mut [0, 2]));
    assert!(!task.apply(0, &mut [0]));
}

#[test]
fn names() {
    let task = read(SOFA.as_bytes()).unwrap();
    let values: Vec<&[u8]> = task.variables()[0].value_names().collect();
    assert_eq!(values, [&b"hall"[..], b"den", b"loft"]);
    assert_eq!(task.operators()[3].name, b"hoist");
}

#[test]
fn projections_hold_and_leave() {
    let task = read(SOFA.as_bytes()).unwrap();
    let mut row = [1, 3, 2, 7];
    let mut sofa = Projection::new(&[0], 16);
    sofa.set(&task, &mut row, 1).unwrap();
    assert_eq!(sofa.table(), [5, 2, 0]);
    assert_eq!(row, [1, 0, 0, 2]);
    let mut door = Projection::new(&[1], 16);
    door.set(&task, &mut row, 1).unwrap();
    assert_eq!(door.table(), [0, 0]);
    assert_eq!(row, [1, 0, 0, 2]);
    assert_eq!(projection_numbers(&task, &[0]).unwrap().held, [0, 3, 2, 5]);

    let mut row = [1, 3, 2, 7];
    let mut both = Partition::new(Projection::new(&[0], 16), Projection::new(&[1], 16));
    assert_eq!(both.estimate(&task, &[0, 0]), Some(0));
    both.set(&task, &mut row, 1).unwrap();
    assert_eq!(row, [1, 0, 0, 2]);
    assert_eq!(both.estimate(&task, &[0, 0]), Some(5));
    assert_eq!(both.estimate(&task, &[0, 2]), Some(0));
}

#[test]
fn maximum_leaves_the_lesser() {
    let task = read(SOFA.as_bytes()).unwrap();
    let mut row = [1, 3, 2, 7];
    let mut both = Maximum::new(Projection::new(&[0, 1], 16), Projection::new(&[0], 16));
    both.set(&task, &mut row, 1).unwrap();
    assert_eq!(both.estimate(&task, &[0, 0]), Some(6));
    // {0, 1} holds 1, 3, 2, 6; {0} holds 0, 3, 2, 5.
    assert_eq!(row, [0, 0, 0, 1]);
}

#[test]
fn the_same_prices_are_not_held_twice() {
    let task = read(SOFA.as_bytes()).unwrap();
    let mut row = [1, 3, 2, 7];
    let mut both = Partition::new(Projection::new(&[0, 1], 16), Projection::new(&[0], 16));
    both.set(&task, &mut row, 1).unwrap();
    assert_eq!(both.estimate(&task, &[0, 0]), Some(6));
}

#[test]
fn sets_are_refused() {
    let task = read(SOFA.as_bytes()).unwrap();
    let refused = |pattern: &[u8], room, row: &mut [u32]| {
        let before = row.to_vec();
        let fault = Projection::new(pattern, room).set(&task, row, 9).unwrap_err();
        assert_eq!(row, before);
        assert_eq!((fault.kind, fault.layer), (2, 9));
        fault.cause
    };
    assert_eq!(refused(&[0, 0], 0, &mut [0; 3]), Cause::Row);
    assert_eq!(refused(&[0, 0], 0, &mut [0, 0, 65_536, 0]), Cause::Row);
    assert_eq!(refused(&[0, 0], 0, &mut [0; 4]), Cause::Pattern);
    assert_eq!(refused(&[1, 0], 0, &mut [0; 4]), Cause::Pattern);
    assert_eq!(refused(&[2], 0, &mut [0; 4]), Cause::Pattern);
    assert_eq!(refused(&[0, 1], 5, &mut [0; 4]), Cause::Table);

    let mut row = [1, 3, 2, 7];
    let mut both = Partition::new(Blind, Partition::new(Projection::new(&[0], 3), Projection::new(&[1], 1)));
    let fault = both.set(&task, &mut row, 1).unwrap_err();
    assert_eq!(fault, SetFault { cause: Cause::Table, kind: 2, layer: 7 });
    assert_eq!(row, [1, 3, 2, 7]);
    let fault = both.set(&task, &mut row, 40_000).unwrap_err();
    assert_eq!(fault.layer, 65_535);
}

#[test]
fn blind_searches() {
    let task = read(SOFA.as_bytes()).unwrap();
    let mut search = Search::open(&task, 5);
    let mut row = [9; 4];
    let go_ahead = search.start(&mut Blind, &mut row).unwrap();
    assert_eq!(row, [1, 3, 2, 7]);
    assert_eq!(search.start(&mut Blind, &mut row).unwrap_err(), StartFault::Search(Cause::Order));
    let report = search.advance(&mut Blind, go_ahead, 3).unwrap();
    assert_eq!((report.bound, report.expansions), (4, 3));
    let Outcome::More(go_ahead) = report.outcome else { panic!("{report:?}") };
    let report = search.advance(&mut Blind, go_ahead, 1).unwrap();
    assert_eq!((report.bound, report.expansions), (6, 3));
    let Outcome::Found(find) = report.outcome else { panic!("{report:?}") };
    assert_eq!(find.cost, 6);
    assert_eq!(search.plan(find), Ok(vec![0, 1, 2]));
    assert_eq!(search.plan(Find { cost: 7, ..find }), Err(Cause::Other));

    let wanted = "(open)\n(carry hall den)\n(carry den loft)\n; cost = 6 (general cost)\n";
    let mut buffer = vec![b'-'; wanted.len() + 2];
    assert_eq!(search.write_plan(find, &mut buffer), Ok(wanted.len()));
    assert_eq!(buffer, format!("{wanted}--").as_bytes());
    let mut buffer = vec![b'-'; wanted.len() - 1];
    assert_eq!(search.write_plan(find, &mut buffer), Err(Cause::Short));
    assert!(buffer.iter().all(|&byte| byte == b'-'));

    let full = SearchNumbers { outcome: 3, bound: 1, expansions: 2, nodes: 4, find: (0, 0) };
    assert_eq!(search_numbers(&task, 4, 100), Ok(full));
    assert_eq!(search_numbers(&task, 0, 100), Err(9));
}

#[test]
fn searches_without_a_plan() {
    let text = sofa_without_loft();
    let task = read(text.as_bytes()).unwrap();
    let blind = search_numbers(&task, 3, 100).unwrap();
    assert_eq!((blind.outcome, blind.expansions), (2, 3));
    assert_eq!(search_numbers(&task, 2, 100).unwrap().outcome, 3);

    let mut projection = Projection::new(&[0], 3);
    let mut search = Search::open(&task, 3);
    let go_ahead = search.start(&mut projection, &mut [0; 2]).unwrap();
    let report = search.advance(&mut projection, go_ahead, 0).unwrap();
    let Outcome::More(go_ahead) = report.outcome else { panic!("{report:?}") };
    let report = search.advance(&mut projection, go_ahead, 100).unwrap();
    assert!(matches!(report.outcome, Outcome::None));
    assert_eq!((report.bound, report.expansions), (0, 0));
    assert_eq!(search.status(), Status::None);
}

#[test]
fn the_program() {
    let wanted = b"(open)\n(carry hall den)\n(carry den loft)\n; cost = 6 (general cost)\n";
    assert_eq!(plan(SOFA.as_bytes()).printed(), wanted);
    assert_eq!(plan(sofa_without_loft().as_bytes()), Answer::NoPlan);
}
