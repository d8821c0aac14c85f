//! Pictures of scenes, coloured by lightshow.

use lighting_tools::bodies::Body;
use lighting_tools::drawing::{self, differences, panels, Canvas, Colours};
use lighting_tools::files::{end, help_wanted, print, read, tell};
use lighting_tools::pack::pack_file;
use lighting_tools::png;
use lighting_tools::shapes::{fragments, Fragment, Shape};
use lighting_tools::unpack::counted;
use std::ffi::OsString;
use std::io::{self, IsTerminal};
use std::path::PathBuf;
use std::process::ExitCode;
use std::{env, fs};

const HELP: &str = "\
picture SCENE OUT.png [--shape sphere|plane|both] [--size N] [--hand-over K]
                      [--lightshow PATH] [--no-rust]

Draws a scene's text (docs/TEXT.md) on a sphere, a plane or both: the primary
colour, the secondary and their sum, each 256 x 256 or N x N. lightshow colours
every pixel; the text's own fragments are left out. All lines count, or those up
to hand-over K. The eye is at 0 0 0 and looks along -z, the sphere at 0 0 -4.
Texture unit 0 has studs for bump, 1 a window for shadow, 2 circles for tangent.
Where the build had the Rust module, its picture and the difference stand below,
and the exit status is 1 if a pixel differs; --no-rust leaves them out.
";

const USAGE: &str = "picture is run as: picture SCENE OUT.png [OPTIONS]; picture --help tells more";

struct Options {
    scene: OsString,
    out: OsString,
    shape: Shape,
    size: usize,
    hand_over: Option<usize>,
    lightshow: Option<PathBuf>,
    rust: bool,
}

fn options(mut arguments: impl Iterator<Item = OsString>) -> Result<Options, String> {
    let mut names = vec![];
    let mut options =
        Options { scene: OsString::new(), out: OsString::new(), shape: Shape::Sphere, size: 256, hand_over: None, lightshow: None, rust: true };
    while let Some(argument) = arguments.next() {
        let mut value = || arguments.next().ok_or(format!("{} needs something after it", argument.display()));
        let mut text = || value().map(|value| value.to_string_lossy().into_owned());
        match argument.to_str() {
            Some("--shape") => {
                let name = text()?;
                options.shape = Shape::of(&name).ok_or(format!("no shape is called '{name}': there are sphere, plane and both"))?;
            }
            Some("--size") => {
                let text = text()?;
                options.size = text.parse().ok().filter(|n| (1..=1024).contains(n)).ok_or(format!("'{text}' is not a size from 1 to 1024"))?;
            }
            Some("--hand-over") => {
                let text = text()?;
                options.hand_over = Some(text.parse().ok().filter(|n| *n > 0).ok_or(format!("'{text}' is not the number of a hand-over"))?);
            }
            Some("--lightshow") => options.lightshow = Some(value()?.into()),
            Some("--no-rust") => options.rust = false,
            Some(other) if other.starts_with("--") => return Err(format!("there is no option {other}; {USAGE}")),
            _ => names.push(argument),
        }
    }
    [options.scene, options.out] = names.try_into().map_err(|_| USAGE.to_string())?;
    Ok(options)
}

fn main() -> ExitCode {
    let arguments: Vec<OsString> = env::args_os().skip(1).collect();
    let differ = if help_wanted(&arguments) {
        print(HELP.as_bytes()).map(|()| 0)
    } else {
        options(arguments.into_iter()).and_then(|options| picture(&options))
    };
    end(differ.map(|differ| if differ == 0 { ExitCode::SUCCESS } else { ExitCode::FAILURE }))
}

fn say(line: &str) -> Result<(), String> {
    print(format!("{line}\n").as_bytes())
}

/// Draws the picture, and gives the number of pixels that differ from the Rust's.
fn picture(options: &Options) -> Result<usize, String> {
    let out = options.out.display();
    if !out.to_string().to_lowercase().ends_with(".png") {
        return Err(format!("{out} does not end in .png; {USAGE}"));
    }
    let scene = read(&options.scene)?;
    let setup = drawing::setup(&pack_file(&scene)?, options.hand_over).map_err(|what| format!("{}: {what}", scene.name))?;
    let places = fragments(options.shape, options.size);
    let seen: Vec<bool> = places.iter().map(Option::is_some).collect();
    let fragments: Vec<Fragment> = places.into_iter().flatten().collect();

    let colours = ours(options, &scene.name, &setup, &fragments)?;
    let rust = if options.rust { theirs(&setup, &fragments) } else { None };
    let mut canvas = Canvas::new(options.size, if rust.is_some() { 3 } else { 1 });
    canvas.paint(0, &seen, colours.iter().map(panels));
    if let Some(rust) = &rust {
        canvas.paint(1, &seen, rust.iter().map(panels));
        canvas.paint(2, &seen, colours.iter().zip(rust).map(|(ours, theirs)| differences(ours, theirs)));
    }
    fs::write(&options.out, png::file(canvas.width, canvas.height, &canvas.pixels)).map_err(|e| format!("{out}: {e}"))?;
    say(&format!("{out}: {} x {}, {} by lightshow", canvas.width, canvas.height, counted(fragments.len(), "pixel", "pixels")))?;
    report(options, &colours, rust.as_deref())
}

/// The proved program's colours, with a line that tells how far it is where the errors go to a terminal.
fn ours(options: &Options, scene: &str, setup: &[Body], fragments: &[Fragment]) -> Result<Vec<Colours>, String> {
    let shown = io::stderr().is_terminal();
    let lightshow = drawing::lightshow(options.lightshow.as_deref())?;
    let colours = drawing::draw(&lightshow, setup, fragments, |done| {
        if shown {
            tell(&format!("\r{scene}: {done} of {} pixels", fragments.len()));
        }
    });
    if shown {
        // the line is wiped, so that what follows stands alone
        tell("\r\x1b[K");
    }
    colours.map_err(|what| format!("{scene}: {what}"))
}

/// Says what is to be said of the colours, and gives the number of pixels that differ.
fn report(options: &Options, colours: &[Colours], rust: Option<&[Colours]>) -> Result<usize, String> {
    if colours.iter().any(Option::is_none) {
        say("the lighting is off: enable is not 1, or disable is 1")?;
    } else if colours.iter().all(|k| panels(k) == [[0; 3]; 3]) {
        say("every pixel is black: docs/TEXT.md says what to look at")?;
    }
    let Some(rust) = rust else {
        if options.rust {
            say("nothing was compared: the tools were built without the Rust module (LIGHTING_RS names its file)")?;
        }
        return Ok(0);
    };
    let differ = colours.iter().zip(rust).filter(|(ours, theirs)| ours != theirs).count();
    say(&format!("{differ} of {} differ from the Rust module's", counted(colours.len(), "pixel", "pixels")))?;
    Ok(differ)
}

#[cfg(oracle)]
fn theirs(setup: &[Body], fragments: &[Fragment]) -> Option<Vec<Colours>> {
    Some(lighting_tools::rust::draw(setup, fragments))
}

#[cfg(not(oracle))]
fn theirs(_: &[Body], _: &[Fragment]) -> Option<Vec<Colours>> {
    None
}
