//! The examples of the specification.

use generate::families::{trench_a, trench_b, trench_c};
use generate::file::{file, record};
use generate::odd::{trench_d, trench_d_labels};
use reference::*;

fn opened(rings: &generate::Rings) -> Sheet {
    open(&file(rings, None, None)).expect("a plan")
}

fn refusal<T: std::fmt::Debug>(answer: Result<T, Refusal>) -> (u8, u64) {
    let refusal = answer.expect_err("a refusal");
    (refusal.number, refusal.place)
}

fn open_refusal(bytes: &[u8]) -> (u8, u64) {
    assert_eq!(
        plain::open(bytes).map(|_| ()),
        open(bytes).map(|_| ()),
        "the plain version"
    );
    refusal(open(bytes))
}

fn swept(rings: &generate::Rings) -> Sheet {
    let mut sheet = opened(rings);
    sweep(&mut sheet).expect("labels");
    sheet
}

fn charted(rings: &generate::Rings) -> Sheet {
    let mut sheet = swept(rings);
    chart(&mut sheet).expect("a chart");
    sheet
}

#[test]
fn sweep_and_chart_of_a() {
    let sheet = charted(&trench_a());
    let plan = sheet.plan().unwrap();
    assert_eq!(sheet.labels().unwrap().bytes()[plan.darts(4)], [0, 1, 2, 3]);
    let chart = sheet.chart().unwrap();
    assert_eq!((chart.w, chart.h, chart.points[4]), (2, 2, (1, 1)));
    assert_eq!(scan(&sheet), Ok(None));
}

#[test]
fn chart_and_areas_of_b() {
    let sheet = charted(&trench_b());
    let chart = sheet.chart().unwrap();
    assert_eq!((chart.w, chart.h), (2, 3));
    assert_eq!(chart.points[4..], [(1, 1), (1, 2)]);
    assert_eq!(doubled_area(chart, [3, 4, 5]), 1);
    assert_eq!(doubled_area(chart, [5, 4, 3]), -1);
    let faces = inner_faces(sheet.plan().unwrap());
    assert_eq!(faces.len(), 2 * 6 - 6);
    let sum: i64 = faces.iter().map(|&face| doubled_area(chart, face)).sum();
    assert_eq!(sum, 12);
    assert_eq!(scan(&sheet), Ok(None));
}

#[test]
fn turn_of_b() {
    let mut sheet = charted(&trench_b());
    let before = sheet.clone();
    assert_eq!(refusal(turn(&mut sheet, &[4, 5], 0)), (10, 4));
    assert_eq!(sheet, before);
    assert_eq!(turn(&mut sheet, &[], 0), Ok(()));
    assert_eq!(sheet.stage(), Stage::Labelled);
}

#[test]
fn c_is_stuck() {
    let mut sheet = opened(&trench_c());
    assert_eq!(scan(&sheet), Ok(Some([0, 1, 4])));
    assert_eq!(refusal(sweep(&mut sheet)), (14, 0));
    assert_eq!(sheet, opened(&trench_c()));
}

#[test]
fn d_has_labels_and_no_chart() {
    let mut sheet = opened(&trench_d());
    assert_eq!(scan(&sheet), Ok(Some([5, 6, 7])));
    assert_eq!(refusal(sweep(&mut sheet)), (10, 5));
    let labels = trench_d_labels();
    assert_eq!(
        swept(&trench_a()).labels().unwrap().bytes(),
        &labels[..16],
        "A's swept labels"
    );
    assert_eq!(offer(&mut sheet, &labels), Ok(()));
    assert_eq!(refusal(chart(&mut sheet)), (11, 0));
    assert_eq!(sheet.stage(), Stage::Labelled);
    let any_chart = [0; 2 + 2 * 12];
    let bytes = file(&trench_d(), Some(&labels), Some(&any_chart));
    assert_eq!(open_refusal(&bytes), (11, 0));
}

#[test]
fn framing_refusals() {
    let a = file(&trench_a(), None, None);
    assert_eq!(a.len(), 58);
    assert_eq!(open_refusal(&a[..57]), (1, 46));
    let mut first_of_kind_2 = a.clone();
    first_of_kind_2[2] = 2;
    assert_eq!(open_refusal(&first_of_kind_2), (2, 0));
    let mut four = a.clone();
    four[4] = 4;
    four.truncate(7);
    assert_eq!(open_refusal(&four), (3, 0));
    assert_eq!(open_refusal(&[]), (1, 0));
    assert_eq!(open_refusal(&[1]), (1, 0));
    assert_eq!(open_refusal(&[1, 0, 1, 0]), (1, 0));
    assert_eq!(open_refusal(&[2, 0, 1, 0]), (2, 0));
    let mut one_over = a.clone();
    one_over.push(0);
    assert_eq!(open_refusal(&one_over), (1, 58));
    let whole_over = [a.clone(), record(9, &[])].concat();
    assert_eq!(open_refusal(&whole_over), (2, 58));
}

#[test]
fn a_record_after_the_chart_is_refused() {
    let bytes = encode(&charted(&trench_b()));
    let end = bytes.len() as u64;
    assert!(open(&bytes).is_ok());
    for kind in 0..6 {
        let more = [bytes.clone(), record(kind, &[])].concat();
        assert_eq!(open_refusal(&more), (2, end));
    }
    let more = [bytes.clone(), vec![3, 0, 4, 0]].concat();
    assert_eq!(open_refusal(&more), (1, end));
}

#[test]
fn a_chart_without_labels_is_refused() {
    let rings = file(&trench_a(), None, None);
    let chart = [2, 2, 2, 2, 2, 0, 0, 0, 0, 2, 1, 1];
    let bytes = file(&trench_a(), None, Some(&chart));
    assert_eq!(open_refusal(&bytes), (2, rings.len() as u64));
}

fn changed(mut rings: generate::Rings, u: usize, ring: &[u16]) -> Vec<u8> {
    rings[u] = ring.to_vec();
    file(&rings, None, None)
}

#[test]
fn plan_refusals() {
    let a = trench_a;
    assert_eq!(open_refusal(&changed(a(), 4, &[4, 1, 2, 3])), (4, 4));
    assert_eq!(open_refusal(&changed(a(), 0, &[1, 4, 4, 3])), (5, 0));
    assert_eq!(open_refusal(&changed(a(), 0, &[1, 3])), (6, 4));
    let mut without = a();
    without[0] = vec![1, 3];
    assert_eq!(open_refusal(&changed(without, 4, &[1, 2, 3])), (7, 0));
    assert_eq!(open_refusal(&changed(a(), 1, &[4, 0, 2])), (8, 1));
    assert_eq!(open_refusal(&changed(a(), 4, &[1, 0, 2, 3])), (9, 0));
}

#[test]
fn label_refusals() {
    let a = trench_a();
    let mut sheet = opened(&a);
    let labels: Vec<u8> = (0..16).map(|d| [4, 0, 4][d % 3]).collect();
    let labels = [&labels[..12], &[0, 0, 0, 0]].concat();
    assert_eq!(refusal(offer(&mut sheet, &labels)), (10, 0));
    assert_eq!(open_refusal(&file(&a, Some(&labels), None)), (10, 0));
    assert_eq!(refusal(offer(&mut sheet, &labels[1..])), (2, 0));
    assert_eq!(sheet, opened(&a));
}

#[test]
fn chart_record_refusals() {
    let mut bytes = encode(&charted(&trench_b()));
    let h = bytes.len() - 4 * 6 - 2;
    assert_eq!(bytes[h], 3);
    bytes[h] = 4;
    assert_eq!(open_refusal(&bytes), (12, 0));
}

#[test]
fn early_calls() {
    let mut empty = Sheet::default();
    assert_eq!(empty.stage(), Stage::Empty);
    assert_eq!(refusal(chart(&mut empty)), (13, 0));
    assert_eq!(refusal(offer(&mut empty, &[])), (13, 0));
    assert_eq!(refusal(sweep(&mut empty)), (13, 0));
    assert_eq!(refusal(turn(&mut empty, &[0, 1], 2)), (13, 0));
    assert_eq!(refusal(scan(&empty)), (13, 0));
    assert_eq!(refusal(write(&empty, &mut [])), (13, 0));
    let mut sheet = opened(&trench_a());
    assert_eq!(refusal(turn(&mut sheet, &[], 0)), (13, 0));
    assert_eq!(refusal(chart(&mut sheet)), (13, 0));
    let labelled = swept(&trench_a());
    let done = charted(&trench_a());
    assert_eq!(refusal(same(&labelled, &done)), (13, 0));
    assert_eq!(refusal(same(&done, &labelled)), (13, 0));
    assert_eq!(same(&done, &done), Ok(true));
    assert_eq!(same(&done, &charted(&trench_b())), Ok(false));
}

#[test]
fn turn_lists() {
    let mut sheet = swept(&trench_b());
    let mut place = |pairs: &[u16], direction| refusal(turn(&mut sheet, pairs, direction));
    assert_eq!(place(&[0, 1], 0), (15, 0));
    assert_eq!(place(&[4, 5, 5, 4], 0), (15, 1));
    assert_eq!(place(&[4, 5, 4, 4, 1], 2), (15, 1));
    assert_eq!(place(&[4, 5, 6, 4], 2), (15, 1));
    assert_eq!(place(&[4, 5, 0], 0), (15, 1));
    assert_eq!(place(&[4, 5], 2), (15, 1));
    assert_eq!(place(&[], 2), (15, 0));
    assert_eq!(place(&[7], 0), (15, 0));
    assert_eq!(place(&[4, 0], 0), (15, 0));
    assert_eq!(place(&[65535, 4], 0), (15, 0));
}

#[test]
fn write_and_ring_of_a() {
    let sheet = opened(&trench_a());
    let mut buffer = [7; 60];
    assert_eq!(refusal(write(&sheet, &mut buffer[..57])), (16, 58));
    assert_eq!(buffer, [7; 60]);
    assert_eq!(write(&sheet, &mut buffer), Ok(58));
    assert_eq!(buffer[58..], [7, 7]);
    let bytes = file(&trench_a(), None, None);
    assert_eq!(buffer[..58], bytes);
    assert_eq!(ring(&bytes, 0), Ok((10, 6)));
    let (offset, length) = ring(&bytes, 4).unwrap();
    assert_eq!(bytes[offset..offset + length], [0, 0, 1, 0, 2, 0, 3, 0]);
    assert_eq!(refusal(ring(&bytes, 5)), (17, 5));
    assert_eq!(refusal(ring(&bytes[..57], 5)), (1, 46));
}

#[test]
fn print_of_b_and_others() {
    let text = "plan 6\ntriangle none\nsize 2 3\n0 2 3\n1 2 0\n2 0 0\n3 0 3\n4 1 1\n5 1 2\n";
    assert_eq!(sheetprint(&file(&trench_b(), None, None)), text);
    let c = "plan 6\ntriangle 0 1 4\nrefused 14 at 0\n";
    assert_eq!(sheetprint(&file(&trench_c(), None, None)), c);
    let d = "plan 12\ntriangle 5 6 7\nrefused 10 at 5\n";
    assert_eq!(sheetprint(&file(&trench_d(), None, None)), d);
    assert_eq!(sheetprint(&[]), "refused 1 at 0\n");
}
