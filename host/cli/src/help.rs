//! The help texts.

const ALL: &str = "\
Cuts UTF-8 scripts into tokens by a class image, and shows what images hold.

usage: luffinarc COMMAND [ARGUMENT..]

  tokens IMAGE [FILE..]            the tokens of texts
  hashtags IMAGE [FILE..]          the hashtags of texts
  check IMAGE [FILE..]             whether an image and texts are accepted
  changes OLDER NEWER              what changed between two images, and whether the newer may follow the older
  lookup IMAGE CHARACTER|U+HEX..   the class of characters
  show IMAGE                       what an image holds
  make                             an image from the files of the Unicode Character Database
  help [COMMAND]                   this text, or that of a command

A text or an image named - is standard input. Every command but help knows --help and --color auto|always|never.

exit status: 0 accepted; 1 a text, an image, a pair of images or a number is refused; 2 wrong use, an unreadable
file or a failed write
";

const TOKENS: &str = "\
Lists the tokens of texts: a line for each, LINE:COLUMN KIND TEXT. Lines and columns count from 1, columns in
characters. A text that cannot be printed as it is stands in quotes, with escapes. Of several files each line begins
with the file's name. Nothing is listed of a text that is refused: the refusal is told on standard error.

usage: luffinarc tokens [--records | --json] IMAGE [FILE..]

  --records   the numbers of the library: kind, first byte, one past the last byte, line
  --json      an object for each token, a line each: file, line, column, kind, start, end, text; of a refused text
              an object with file, refusal (number, name, meaning, carried), notes and, where it has a place, line,
              column and label

Kinds: identifier (1), syntax (2), blank (3), lineend (4), mark (5).
Without a file, standard input is read.
";

const HASHTAGS: &str = "\
Lists the hashtags of texts: a line for each, LINE:COLUMN hashtag TEXT, as `tokens` does. No text is refused for its
characters, only where it is too long or not UTF-8.

usage: luffinarc hashtags [--records | --json] IMAGE [FILE..]

  --records   the numbers of the library: kind (6), first byte, one past the last byte, line
  --json      an object for each hashtag, a line each: file, line, column, kind, start, end, text; of a refused text
              an object with the refusal

Without a file, standard input is read.
";

const CHECK: &str = "\
Tells whether an image is accepted, with its version, ranges and profile, and whether texts are. Without a file only
the image is checked.

usage: luffinarc check IMAGE [FILE..]
";

const CHANGES: &str = "\
Lists what changed from an older image to a newer: runs of code points with another class, and profile entries with
another role; then a summary, and whether the newer may follow the older: whether every text that the older accepts
has the same tokens under the newer. The exit status is 1 if it may not.

usage: luffinarc changes [--json] [--html FILE] OLDER NEWER

  --json        all of this in one object: older and newer (file, version, ranges, entries); runs (first, last,
                first_hex, last_hex, code_points, older, newer, permitted); entries (code_point, hex, older, newer);
                summary (older, newer, runs, code_points, permitted); may_follow; refusal (number, name, meaning, carried).
                first, last and code_point are numbers, the hex ones texts as \"U+0041\"; older and newer are names
                of classes or roles, null for no role; refusal is null if the newer may follow
  --html FILE   also a page for a browser, with a picture of the code space; it stands alone
";

const LOOKUP: &str = "\
Prints the class of characters after the profile, and the role of those that the profile names.

usage: luffinarc lookup IMAGE CHARACTER|U+HEX..

U+ may be u+. Of any other argument each character is looked up.
";

const SHOW: &str = "\
Shows what an image holds: version, number of ranges and code points of each class in the ranges, and the profile.

usage: luffinarc show [--ranges] IMAGE

  --ranges   every range too
";

const MAKE: &str = "\
Makes an image from files of the Unicode Character Database. The image is written whole or not at all.

usage: luffinarc make --version A.B.C --folder DIR [--profile FILE] --out FILE

  --version A.B.C   the version of Unicode, which the files must tell too
  --folder DIR      holds DerivedCoreProperties.txt, PropList.txt and one of UnicodeData.txt,
                    DerivedGeneralCategory.txt, extracted/DerivedGeneralCategory.txt and Assigned.txt
  --profile FILE    lines `U+HEX ROLE` or `U+HEX..U+HEX ROLE`, rising, at most 512 code points; # begins a comment.
                    Roles, by name or number: Start (1), Nonstart (2), Medial (3), Other (4), Hashtag (5)
  --out FILE        the image

A file is refused that is of another version, is cut or lost lines: its first line is `# NAME-A.B.C.txt` or
`# Unicode A.B, ..`, each property that is read has its `# Total code points: N`, and the last line is `# EOF`.
UnicodeData.txt, which has no comments, is held to Grapheme_Base, Grapheme_Extend and Case_Ignorable of
DerivedCoreProperties.txt.
";

/// The help of a command, or of all without a name.
pub fn text(command: Option<&str>) -> Option<&'static str> {
    match command {
        None | Some("help") => Some(ALL),
        Some("tokens") => Some(TOKENS),
        Some("hashtags") => Some(HASHTAGS),
        Some("check") => Some(CHECK),
        Some("changes") => Some(CHANGES),
        Some("lookup") => Some(LOOKUP),
        Some("show") => Some(SHOW),
        Some("make") => Some(MAKE),
        Some(_) => None,
    }
}
