//! Texts of a script.

use crate::random::Random;

#[derive(Clone, Copy, Debug)]
pub enum Script {
    Ascii,
    Latin,
    Cyrillic,
    Cjk,
    Emoji,
}

impl Script {
    pub const ALL: [Script; 5] = [
        Script::Ascii,
        Script::Latin,
        Script::Cyrillic,
        Script::Cjk,
        Script::Emoji,
    ];

    /// A character of running text: Latin is mostly ASCII, Cyrillic has spaces.
    fn character(self, random: &mut Random) -> char {
        let (first, last) = match self {
            Script::Latin if random.once_in(6) => ('\u{C0}', '\u{17F}'),
            Script::Ascii | Script::Latin => (' ', '~'),
            Script::Cyrillic if random.once_in(7) => (' ', ' '),
            Script::Cyrillic => ('\u{410}', '\u{44F}'),
            Script::Cjk => ('\u{4E00}', '\u{9FFF}'),
            Script::Emoji => ('\u{1F300}', '\u{1F64F}'),
        };
        let codes = first as u32..=last as u32;
        char::from_u32(first as u32 + random.below(codes.count()) as u32)
            .expect("a range without surrogates")
    }
}

/// A text of exactly so many bytes; where no character fits any more it ends in full stops.
pub fn text(random: &mut Random, script: Script, length: usize) -> String {
    let mut text = String::with_capacity(length);
    loop {
        let next = script.character(random);
        if text.len() + next.len_utf8() > length {
            break;
        }
        text.push(next);
    }
    text.extend(std::iter::repeat_n('.', length - text.len()));
    text
}

/// A text of several scripts.
pub fn mixed(random: &mut Random, length: usize) -> String {
    let mut whole = String::with_capacity(length);
    while whole.len() < length {
        let script = random.pick(&Script::ALL);
        let part = (1 + random.below(40)).min(length - whole.len());
        whole += &text(random, script, part);
    }
    whole
}
