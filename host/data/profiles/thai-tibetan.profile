# For setting names in Thai and Tibetan as people write them. Lines: U+HEX ROLE or U+HEX..U+HEX ROLE. 74 entries.
# Start: a name may begin with it. Nonstart: a name goes on with it. Medial: it stands inside a name.

# The full stop in abbreviations, as of months in Thai
U+002E Medial

# Thai: the baht sign, which stands before an amount
U+0E3F Start
# a sign that begins a part
U+0E4F Nonstart
# digits: names may begin with a number, as a day does
U+0E50..U+0E59 Start
# signs that end a part
U+0E5A..U+0E5B Nonstart

# Tibetan: signs of headings
U+0F01..U+0F03 Nonstart
# the tsheg between syllables, and the one that does not break
U+0F0B..U+0F0C Medial
# carets, logotypes and signs of astrology
U+0F13 Nonstart
U+0F15..U+0F17 Nonstart
U+0F1A..U+0F1F Nonstart
# digits and half digits
U+0F20..U+0F33 Start
# signs of abbreviation, honour and elision, and a caret
U+0F34 Nonstart
U+0F36 Nonstart
U+0F38 Nonstart
U+0F85 Nonstart
# signs of cantillation, symbols and pebbles
U+0FBE..U+0FC5 Nonstart
U+0FC7..U+0FCC Nonstart
U+0FCE..U+0FCF Nonstart
U+0FD5..U+0FD8 Nonstart
