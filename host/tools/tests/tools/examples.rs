use super::{capture, errors, lightshow, repository};
use lighting_tools::drawing::run;
use std::collections::BTreeSet;
use std::fs;

/// Every example is a text, its capture, and what lightshow prints of it.
#[test]
fn each_text_makes_its_capture_and_each_capture_its_output() {
    let folder = repository().join("examples");
    let files = fs::read_dir(&folder).unwrap().map(|entry| entry.unwrap().path());
    let names: BTreeSet<String> = files.filter_map(|path| path.file_stem()?.to_str().map(str::to_string)).collect();
    let expected = ["bump_and_shadow", "eight_lights", "lamp", "lantern", "spotlight", "whole_case"];
    assert_eq!(names.iter().collect::<Vec<_>>(), expected);
    for name in names {
        let file = |kind: &str| folder.join(format!("{name}.{kind}"));
        let stored = fs::read(file("capture")).unwrap();
        let packed = capture("pack", &file("txt"));
        assert!(packed.status.success(), "{}", errors(&packed));
        assert!(packed.stdout == stored, "{name}: the text makes another capture");
        let printed = run(&lightshow(), &stored).unwrap();
        assert_eq!(printed, fs::read_to_string(file("out")).unwrap(), "{name}");
        assert!(!printed.contains("refused") && !printed.is_empty(), "{name}");
    }
}

/// The lantern's table changes between its two hand-overs, and so do the colours of the same three places.
#[test]
fn the_lantern_falls_off_otherwise_after_the_second_hand_over() {
    let printed = fs::read_to_string(repository().join("examples/lantern.out")).unwrap();
    let lines: Vec<&str> = printed.lines().collect();
    let (hall, tunnel) = lines.split_at(3);
    assert!(tunnel.len() == 3 && hall.iter().zip(tunnel).all(|(before, after)| before != after));
}
