//! One bring-up of the original, where it is there.

use scenario::*;

#[test]
fn a_bring_up_is_accepted() {
    let Some(mut layer) = original::layer() else {
        return;
    };
    let args =
        BringUp { slot: 1, n: 2, speed: 3, rings: vec![0x2000, 0x1000], header: 8, packet: 64, ..BringUp::default() };
    let mut buffers = Buffers { ctx: vec![0; 2112], routes: vec![0; 96], log: vec![0; 64], outcomes: vec![0; 5] };
    let (record, answer) = layer.bring_up(&args, &mut buffers).expect("an answer");
    assert_eq!(answer, Answer { number: 0, code: 0, count: 5 });
    assert_eq!(buffers.log[..5], [0x1000_0000, 0x8000_0000, 0x2000_0000, 0x9000_0000, 0xA000_0000]);
    assert_eq!((record.usable, record.spacing, record.config, buffers.routes[33]), (true, 64, Some(0), 0x1000));
}

#[test]
fn a_panic_is_no_answer() {
    let Some(mut layer) = original::layer() else {
        return;
    };
    let args = BringUp { slot: 1, n: 2, speed: 6, rings: vec![0x2000, 0x1000], header: 8, ..BringUp::default() };
    let mut buffers = Buffers { ctx: vec![0; 1056], routes: vec![0; 96], log: vec![0; 64], outcomes: vec![] };
    assert_eq!(layer.bring_up(&args, &mut buffers), Err(Cannot::Panics));
}
