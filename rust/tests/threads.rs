//! Units and copies on several threads.
mod common;

use common::*;
use lighting::{Block, Colours, Fragment, HardwareCopy, LightNumber, Refusal, Shaded, Stopped, Unit};

fn send_and_sync<T: Send + Sync + 'static>() {}

// compiles only if every public type is both
const _: [fn(); 9] = [
    send_and_sync::<Unit>,
    send_and_sync::<HardwareCopy>,
    send_and_sync::<Block>,
    send_and_sync::<Fragment>,
    send_and_sync::<Colours>,
    send_and_sync::<LightNumber>,
    send_and_sync::<Refusal>,
    send_and_sync::<Stopped>,
    send_and_sync::<Shaded>,
];

#[test]
fn one_copy_shades_alike_on_every_thread() {
    let mut random = Random(8);
    let mut copy = HardwareCopy::new();
    random.unit().hand_over(&mut copy);
    let fragments: Vec<Fragment> = (0..200).map(|_| random.fragment()).collect();
    let expected: Vec<Option<Colours>> = fragments.iter().map(|fragment| copy.shade(fragment)).collect();
    assert!(expected.iter().all(Option::is_some));

    let (copy, fragments) = (std::sync::Arc::new(copy), std::sync::Arc::new(fragments));
    let threads: Vec<_> = (0..4)
        .map(|_| {
            let (copy, fragments) = (copy.clone(), fragments.clone());
            std::thread::spawn(move || fragments.iter().map(|fragment| copy.shade(fragment)).collect::<Vec<_>>())
        })
        .collect();
    for thread in threads {
        assert_eq!(thread.join().unwrap(), expected);
    }
}

#[test]
fn a_unit_moves_to_another_thread() {
    let mut unit = whole_case();
    let colours = std::thread::spawn(move || {
        let mut copy = HardwareCopy::new();
        unit.hand_over(&mut copy);
        copy.shade(&Fragment::default())
    });
    assert_eq!(colours.join().unwrap().unwrap().to_string(), WHITE);
}
