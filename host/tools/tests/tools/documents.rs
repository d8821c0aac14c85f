use super::{errors, lightshow, picture, repository, Folder};
use lighting_tools::bodies::bytes;
use lighting_tools::drawing::run;
use lighting_tools::names::{pairs, registers, Form, Register, TABLE_NAMES};
use lighting_tools::pack::pack;
use std::fs;
use std::path::Path;

fn document(name: &str) -> String {
    fs::read_to_string(repository().join(name)).unwrap()
}

/// The texts of scenes that a document shows.
fn scenes(document: &str) -> Vec<&str> {
    let blocks = document.split("```text\n").skip(1).filter_map(|rest| rest.split("```").next());
    blocks.filter(|block| ["write", "#", "restore"].iter().any(|first| block.starts_with(first))).collect()
}

#[test]
fn the_texts_in_the_documents_pack() {
    for (name, count) in [("docs/TEXT.md", 5), ("README.md", 1)] {
        let document = document(name);
        let scenes = scenes(&document);
        assert_eq!(scenes.len(), count, "{name}");
        for scene in scenes {
            assert!(!pack(scene, Path::new("")).unwrap_or_else(|wrong| panic!("{name}: {wrong}\n{scene}")).is_empty());
        }
    }
}

/// So do the lines in their sentences and tables.
#[test]
fn the_lines_in_the_page_pack() {
    let page = document("docs/TEXT.md");
    let lines = page.split('`').filter(|part| ["write ", "upload "].iter().any(|first| part.starts_with(first)) && !part.contains('\n'));
    let lines: Vec<&str> = lines.filter(|line| !line.contains(char::is_uppercase)).collect();
    assert!(lines.len() > 5);
    for line in lines {
        assert!(pack(line, Path::new("")).is_ok(), "{line}");
    }
}

/// The README's scene is not black, and its fragment has the colours that stand there.
#[test]
fn the_scene_in_the_readme_is_drawn() {
    let (folder, readme) = (Folder::new(), document("README.md"));
    let scene = folder.file("scene.txt", scenes(&readme)[0]).display().to_string();
    let output = picture(&[&scene, &folder.0.join("scene.png").display().to_string(), "--size", "16"]);
    assert!(output.status.success() && !String::from_utf8_lossy(&output.stdout).contains("black"), "{}", errors(&output));
    let printed = run(&lightshow(), &bytes(&pack(scenes(&readme)[0], Path::new("")).unwrap())).unwrap();
    // wherever the README's lines are wrapped
    let words = readme.split_whitespace().collect::<Vec<_>>().join(" ");
    assert!(words.contains(&format!("here `{}`", printed.trim_end())), "{printed}");
}

/// The documents' pictures are what the commands in them draw.
#[test]
fn the_pictures_in_the_documents_are_drawn_again() {
    let (folder, mut count) = (Folder::new(), 0);
    for text in [document("README.md"), document("docs/TEXT.md")] {
        let commands = text.lines().filter_map(|line| line.trim().split_once("picture examples/").map(|(_, rest)| rest));
        for command in commands {
            let words: Vec<&str> = command.split(' ').collect();
            let scene = repository().join("examples").join(words[0]).display().to_string();
            let out = folder.0.join("out.png");
            let output = picture(&[&[&scene, out.to_str().unwrap()], &words[2..]].concat());
            assert!(output.status.success(), "{}", errors(&output));
            assert!(fs::read(out).unwrap() == fs::read(repository().join(words[1])).unwrap(), "{command}");
            count += 1;
        }
    }
    assert_eq!(count, 3);
}

/// Every register, table and field is on the page; of eight lights or tables the first and the last.
#[test]
fn the_page_has_every_name() {
    let page = document("docs/TEXT.md");
    let shown = |name: &str| page.contains(&format!("`{name}`")) || page.contains(&format!("`{name}="));
    let numbered =
        |name: &str| name.strip_suffix(|c: char| c.is_ascii_digit()).is_some_and(|name| [0, 7].iter().all(|n| shown(&format!("{name}{n}"))));
    for Register { name, form, .. } in registers() {
        let part = name.strip_prefix("light").and_then(|rest| rest.split_once('.')).map(|(_, part)| format!(".{part}"));
        let here = shown(name) || part.is_some_and(|part| shown(&part) || shown(&format!("light0{part}"))) || name.starts_with("table_data");
        assert!(here, "{name}");
        if let Form::Fields(fields) = form {
            for field in *fields {
                assert!(shown(field.name) || numbered(field.name), "{}", field.name);
                for (number, _) in field.numbers.unwrap_or(&[]) {
                    let table = TABLE_NAMES.iter().any(|(name, _)| name == number);
                    assert!(table || shown(number) || page.contains(&format!("{}={number}`", field.name)), "{}={number}", field.name);
                }
            }
        }
    }
    for (table, _) in TABLE_NAMES {
        assert!(shown(table) || numbered(table), "{table}");
    }
    for (name, _) in pairs() {
        assert!(page.contains(&format!("write {} ", name.replace(char::is_numeric, "0"))), "{name}");
    }
}
