# For scripts and settings: dotted and hyphened names, numbers and names with a low line in front are identifiers.
# Lines: U+HEX ROLE or U+HEX..U+HEX ROLE, rising. 13 entries.

# Hyphen and full stop join what stands on both sides: log-file, net.eth0, 1.5 and 2024-01-31 are one identifier each.
# It costs operators without blanks: x-1 is one identifier, as is a.b; x - 1 is three tokens with blanks between them.
# At an end, or two together, they are syntax as before: -x, x. and 1..5.
U+002D..U+002E Medial

# Digits may begin a name: 42, 3rd and 0x1F are one identifier each, where without the profile the text is refused.
# It costs a kind: 42 is an identifier as any name is, and a program tells numbers from names by what they begin with.
U+0030..U+0039 Start

# The low line may begin a name: _start and __init__. It costs nothing: in the midst of a name it stands anyway.
U+005F Start
