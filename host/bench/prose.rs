//! Flowing text of 1 MiB with hashtags, to time readers on: the same in every run.

use crate::texts::{adlam_word, filled, Sample, KEYS, POLISH, SIGNS, WORDS};
use luffinarc::Role;
use luffinarc_reader::cases::Rng;

/// The least number of bytes from one tag to the next; a sentence may be added.
const APART: usize = 200;

/// The roles under which all these texts are read: `+` and `-` are part of hashtags, and a spanner.
pub const ROLES: [(u32, Role); 3] =
    [(0x2B, Role::Hashtag), (0x2D, Role::Hashtag), (0x1F527, Role::Hashtag)];

/// The signs of tags, the usual one more often.
const TAG_SIGNS: [&str; 5] = ["#", "#", "#", "\u{FE5F}", "\u{FF03}"];

const ENGLISH_NOTES: [&str; 14] = [
    "Took over from the day crew at ten; all tanks were at their usual level.",
    "Pump 2 ran hot again, so we let it rest for half an hour and then went on.",
    "The inlet valve sticks when it is cold outside.",
    "Somebody had left the cover of the panel open — please don't.",
    "Pressure on line four fell to 3.1 bar and came back by itself.",
    "We changed the filter, washed the old one and put it on the shelf.",
    "At 02:40 the alarm of zone 4 went off; nothing was wrong there.",
    "Asked the shop for a new seal, they say that it takes until Friday.",
    "The heater holds 62 °C now, which is what the label says.",
    "Nobody could read the display from the door, it is far too dark.",
    "I think the rate in the list (see page 12) is wrong by a factor of ten.",
    "Quiet night otherwise.",
    "Ann says \"leave the mode alone\", and so we did.",
    "The operator's manual speaks of a sensor that this machine doesn't have.",
];
const POLISH_NOTES: [&str; 12] = [
    "Przejęliśmy zmianę o dziesiątej, wszystkie zbiorniki były pełne.",
    "Pompa druga znów się grzała, więc dostała pół godziny przerwy.",
    "Zawór wejściowy zacina się, gdy na dworze jest zimno.",
    "Ktoś zostawił otwartą pokrywę — proszę, nie róbcie tego.",
    "Ciśnienie w czwartej gałęzi spadło do 3,1 bara i wróciło.",
    "Wymieniliśmy filtr, stary umyty leży na półce.",
    "O 02:40 włączył się alarm, choć nic się nie działo.",
    "Zamówiłem uszczelkę, będzie podobno w piątek.",
    "Grzałka trzyma 62 °C, tak jak każe tabliczka.",
    "Wyświetlacza nie widać od drzwi, jest o wiele za ciemno.",
    "Myślę, że wartość na liście jest błędna.",
    "Poza tym noc była spokojna.",
];

/// Sentences, with a tag after each two hundred bytes or more.
fn tagged(
    sentence: impl Fn(&mut Rng) -> String,
    tag: impl Fn(&mut Rng) -> String,
) -> impl FnMut() -> String {
    let (mut rng, mut since) = (Rng::new(), 0);
    move || {
        let next = sentence(&mut rng);
        since += next.len();
        if since < APART {
            return next;
        }
        since = 0;
        next + &tag(&mut rng)
    }
}

/// A tag of one or two parts, and a blank or what ends a line.
fn tag_of(rng: &mut Rng, sign: &str, parts: &[&str]) -> String {
    let (first, second) = (*rng.pick(parts), *rng.pick(parts));
    let end = *rng.pick(&[" ", " ", ".\n", ", "]);
    match rng.below(3) {
        0 => format!("{sign}{first}-{second}{end}"),
        _ => format!("{sign}{first}{end}"),
    }
}

/// Shift notes in English.
pub fn english() -> String {
    let note = |rng: &mut Rng| format!("{} ", rng.pick(&ENGLISH_NOTES));
    filled(tagged(note, |rng| tag_of(rng, "#", &KEYS)))
}

/// Shift notes in Polish.
pub fn polish() -> String {
    let note = |rng: &mut Rng| format!("{} ", rng.pick(&POLISH_NOTES));
    filled(tagged(note, |rng| tag_of(rng, "#", &POLISH)))
}

/// Sentences of Adlam words: four bytes a letter.
pub fn adlam() -> String {
    let note = |rng: &mut Rng| {
        let words: Vec<String> = (0..2 + rng.below(3)).map(|_| adlam_word(rng)).collect();
        words.join(" ") + *rng.pick(&[". ", "⹁ ", " "])
    };
    filled(tagged(note, |rng| format!("#{} ", adlam_word(rng))))
}

/// Words of many scripts, with the signs of all of them and each sign of tags.
pub fn mixed() -> String {
    let note = |rng: &mut Rng| {
        let words: Vec<&str> = (0..3 + rng.below(4)).map(|_| *rng.pick(&WORDS)).collect();
        words.join(" ") + *rng.pick(&SIGNS) + " "
    };
    filled(tagged(note, |rng| {
        let sign = *rng.pick(&TAG_SIGNS);
        tag_of(rng, sign, &WORDS)
    }))
}

/// Shift notes in English whose blanks are often line ends, LF and some CR LF.
pub fn short_lines() -> String {
    let blanks = [" ", " ", " ", " ", " ", "\n", "\n", "\r\n"];
    let note = |rng: &mut Rng| {
        let words: Vec<&str> = rng.pick(&ENGLISH_NOTES).split(' ').collect();
        words.into_iter().flat_map(|word| [word, *rng.pick(&blanks)]).collect()
    };
    filled(tagged(note, |rng| tag_of(rng, "#", &KEYS)))
}

/// Tags one after the other, with each sign.
pub fn dense() -> String {
    let mut rng = Rng::new();
    filled(|| {
        let sign = *rng.pick(&TAG_SIGNS);
        tag_of(&mut rng, sign, &KEYS)
    })
}

/// All texts.
pub fn all() -> [Sample; 6] {
    let sample = |name, text| Sample { name, text, profile: &ROLES };
    [
        sample("English", english()),
        sample("Polish", polish()),
        sample("Adlam", adlam()),
        sample("mixed scripts", mixed()),
        sample("dense in tags", dense()),
        sample("short lines", short_lines()),
    ]
}
