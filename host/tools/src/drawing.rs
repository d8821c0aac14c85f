//! Pictures: captures with a fragment for each pixel, coloured by the lines that lightshow prints of them.

use crate::bodies::{bytes, total_words, Body, Kind, FRAGMENT_WORDS, MOST_BODIES, MOST_WORDS};
use crate::shapes::Fragment;
use std::env;
use std::io::Write;
use std::path::{self, Path, PathBuf};
use std::process::{Command, Stdio};

/// A fragment's eight k, primary then secondary; `None` where the lighting is off.
pub type Colours = Option<[u8; 8]>;

/// Where lightshow is: the file that is given, or crates/lightshow/out/lightshow of the repository that this program was built in.
pub fn lightshow(given: Option<&Path>) -> Result<PathBuf, String> {
    if let Some(path) = given {
        // a path without a folder would be looked for among the system's programs
        let found = path::absolute(path).ok().filter(|path| path.is_file());
        return found.ok_or_else(|| format!("there is no lightshow at {}", path.display()));
    }
    let built = env::current_exe().unwrap_or_default();
    let folders = built.ancestors().chain(Path::new(env!("CARGO_MANIFEST_DIR")).ancestors());
    let found = folders.map(|folder| folder.join("crates/lightshow/out/lightshow")).find(|path| path.is_file());
    found.ok_or_else(|| "there is no crates/lightshow/out/lightshow: run ./run once to prove and build it, or give --lightshow PATH".into())
}

/// A scene's bodies without their fragments, up to the hand-over that is drawn: the one of this number, counted from 1, or without a
/// number one after everything.
pub fn setup(bodies: &[Body], number: Option<usize>) -> Result<Vec<Body>, String> {
    let mut setup = vec![];
    let mut hand_overs = 0;
    for body in bodies {
        let words = if body.kind == Kind::Fragments { vec![] } else { body.words.clone() };
        setup.push(Body { kind: body.kind, words });
        hand_overs += (body.kind == Kind::Fragments) as usize;
        if body.kind == Kind::Fragments && Some(hand_overs) == number {
            return Ok(setup);
        }
    }
    if let Some(number) = number {
        return Err(format!("there is no hand-over {number} in the scene: it has {hand_overs}"));
    }
    if setup.last().is_none_or(|body| body.kind != Kind::Fragments) {
        setup.push(Body { kind: Kind::Fragments, words: vec![] });
    }
    if setup.len() > MOST_BODIES {
        return Err("the scene has 16 bodies and does not end in a hand-over, so that there is none left to draw by".into());
    }
    Ok(setup)
}

/// How many fragments a capture holds after the set-up.
pub fn room(setup: &[Body]) -> Result<usize, String> {
    match MOST_WORDS.saturating_sub(total_words(setup)) / FRAGMENT_WORDS {
        0 => Err("the scene fills a capture and leaves no room for a fragment".into()),
        room => Ok(room),
    }
}

/// The fragments' colours, by as many runs of lightshow as they need; `progress` is told how many are done.
pub fn draw(lightshow: &Path, setup: &[Body], fragments: &[Fragment], mut progress: impl FnMut(usize)) -> Result<Vec<Colours>, String> {
    let mut bodies = setup.to_vec();
    let mut colours = vec![];
    for some in fragments.chunks(room(setup)?) {
        if let Some(last) = bodies.last_mut() {
            last.words = some.as_flattened().to_vec();
        }
        let output = run(lightshow, &bytes(&bodies))?;
        let lines: Vec<&str> = output.lines().collect();
        if lines.len() != some.len() {
            let first = lines.first().map_or(String::new(), |line| format!(", the first '{line}'"));
            return Err(format!("{} fragments gave {} lines{first}; is it lightshow?", some.len(), lines.len()));
        }
        for line in lines {
            colours.push(parsed(line).ok_or_else(|| format!("'{line}' is no colour; is it lightshow?"))?);
        }
        progress(colours.len());
    }
    Ok(colours)
}

/// What lightshow prints of a capture.
pub fn run(lightshow: &Path, capture: &[u8]) -> Result<String, String> {
    let name = lightshow.display();
    let failed = |e: std::io::Error| format!("{name} cannot be run: {e}");
    let mut child = Command::new(lightshow).stdin(Stdio::piped()).stdout(Stdio::piped()).spawn().map_err(failed)?;
    // it reads all of its input before it prints, and its input ends with this statement
    let written = child.stdin.take().map_or(Ok(()), |mut input| input.write_all(capture));
    let output = child.wait_with_output().map_err(failed)?;
    if !output.status.success() {
        return Err(format!("{name} ended with {}", output.status));
    }
    written.map_err(|e| format!("{name} did not read the capture ({e}); is it lightshow?"))?;
    String::from_utf8(output.stdout).map_err(|_| format!("{name} printed no text; is it lightshow?"))
}

fn parsed(line: &str) -> Option<Colours> {
    if line == "off" {
        return Some(None);
    }
    let numbers = line.split(' ').map(|k| k.parse().ok()).collect::<Option<Vec<u8>>>()?;
    numbers.try_into().ok().map(Some)
}

/// A picture put together from panels, three to a row, with a margin around each.
pub struct Canvas {
    size: usize,
    margin: usize,
    pub width: usize,
    pub height: usize,
    pub pixels: Vec<u8>,
}

const DARK: [u8; 3] = [24, 24, 30];

impl Canvas {
    pub fn new(size: usize, rows: usize) -> Canvas {
        let margin = (size / 32).max(1);
        let (width, height) = (3 * size + 4 * margin, rows * (size + margin) + margin);
        Canvas { size, margin, width, height, pixels: DARK.repeat(width * height) }
    }

    /// Paints a row of panels: for each pixel that is seen, in order, its colour in each of the three.
    pub fn paint(&mut self, row: usize, seen: &[bool], colours: impl Iterator<Item = [[u8; 3]; 3]>) {
        let places = seen.iter().enumerate().filter(|(_, seen)| **seen).map(|(at, _)| at);
        for (at, panels) in places.zip(colours) {
            let y = self.margin + row * (self.size + self.margin) + at / self.size;
            for (panel, colour) in panels.iter().enumerate() {
                let x = self.margin + panel * (self.size + self.margin) + at % self.size;
                self.pixels[3 * (y * self.width + x)..][..3].copy_from_slice(colour);
            }
        }
    }
}

/// Primary, secondary and their sum, which ends at 255; off is black.
pub fn panels(colours: &Colours) -> [[u8; 3]; 3] {
    let k = colours.unwrap_or([0; 8]);
    let (primary, secondary) = ([k[0], k[1], k[2]], [k[4], k[5], k[6]]);
    [primary, secondary, std::array::from_fn(|i| primary[i].saturating_add(secondary[i]))]
}

/// White where the primary, the secondary or any of them differs, alpha included.
pub fn differences(ours: &Colours, theirs: &Colours) -> [[u8; 3]; 3] {
    let part = |k: &Colours, from: usize| k.map(|k| [k[from], k[from + 1], k[from + 2], k[from + 3]]);
    let [primary, secondary] = [0, 4].map(|from| part(ours, from) != part(theirs, from));
    [primary, secondary, primary || secondary].map(|differs| [if differs { 255 } else { 0 }; 3])
}
