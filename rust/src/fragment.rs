use std::fmt;

/// What shading takes of one fragment. Any bits are a fragment, those of infinities and NaN too.
///
/// ```
/// let fragment = lighting::Fragment { view: [0.0, 0.0, 3.0], ..Default::default() };
/// assert_eq!(lighting::Fragment::from_words(&fragment.to_words()), fragment);
/// ```
#[repr(C)]
#[derive(Clone, Copy, Debug, Default, PartialEq)]
pub struct Fragment {
    /// The surface's orientation, x, y, z, w, of any length: shading normalises it. One of length 0 or NaN counts as
    /// 0, 0, 0, 1, facing along z.
    pub quaternion: [f32; 4],
    /// The vector from the fragment to the eye.
    pub view: [f32; 3],
    /// What the four texture units sampled, red, green, blue and alpha each.
    pub texels: [[f32; 4]; 4],
}

impl Fragment {
    /// The fragment of 23 words: the bits of quaternion, view and texels.
    pub fn from_words(words: &[u32; 23]) -> Fragment {
        let mut fragment = Fragment::default();
        let floats = fragment.quaternion.iter_mut().chain(&mut fragment.view).chain(fragment.texels.iter_mut().flatten());
        for (float, word) in floats.zip(words) {
            *float = f32::from_bits(*word);
        }
        fragment
    }

    /// The 23 words, as a capture has them.
    pub fn to_words(&self) -> [u32; 23] {
        let mut words = [0; 23];
        let floats = self.quaternion.iter().chain(&self.view).chain(self.texels.iter().flatten());
        for (word, float) in words.iter_mut().zip(floats) {
            *word = float.to_bits();
        }
        words
    }
}

/// A fragment's two colours, red, green, blue and alpha each: k from 0 to 255 for a channel of k/255.
///
/// It prints as the capture program's line:
///
/// ```
/// let colours = lighting::Colours { primary: [144, 103, 68, 255], secondary: [0, 0, 0, 255] };
/// assert_eq!(colours.to_string(), "144 103 68 255 0 0 0 255");
/// assert_eq!(colours.to_bytes(), [[144, 103, 68, 255], [0, 0, 0, 255]]);
/// assert_eq!(colours.to_floats()[1], [0.0, 0.0, 0.0, 1.0]);
/// ```
#[repr(C)]
#[derive(Clone, Copy, Debug, Default, PartialEq, Eq, Hash)]
pub struct Colours {
    /// Diffuse and ambient light. Its alpha is 255 where the primary fresnel flag is clear.
    pub primary: [u32; 4],
    /// The highlights. Its alpha is 255 where the secondary fresnel flag is clear.
    pub secondary: [u32; 4],
}

impl Colours {
    /// A byte for each channel, as a texture of 8-bit colours takes them. A k above 255, which shading never gives,
    /// counts as 255.
    pub fn to_bytes(self) -> [[u8; 4]; 2] {
        [self.primary, self.secondary].map(|colour| colour.map(|k| u8::try_from(k).unwrap_or(u8::MAX)))
    }

    /// The channels as the Rust module's `shade` gives them, k/255.
    pub fn to_floats(self) -> [[f32; 4]; 2] {
        self.to_bytes().map(|colour| colour.map(|k| f32::from(k) / 255.0))
    }

    pub(crate) fn from_le_bytes(bytes: &[u8; 32]) -> Colours {
        let mut colours = Colours::default();
        let channels = colours.primary.iter_mut().chain(&mut colours.secondary);
        for (k, word) in channels.zip(bytes.chunks_exact(4)) {
            // each chunk is four bytes, so there is always a word
            *k = word.try_into().map(u32::from_le_bytes).unwrap_or_default();
        }
        colours
    }
}

impl fmt::Display for Colours {
    fn fmt(&self, f: &mut fmt::Formatter<'_>) -> fmt::Result {
        let ([r, g, b, a], [r2, g2, b2, a2]) = (self.primary, self.secondary);
        write!(f, "{r} {g} {b} {a} {r2} {g2} {b2} {a2}")
    }
}
