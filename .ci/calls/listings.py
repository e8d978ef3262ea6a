"""Listings: the source and the symbols file of an image, and images that have none."""
from calls.cases import ANY, READ_FAULT, REFUSED, Call, Case, told
from calls.images import EMPTY, IMAGE, NAMED, altered, stamped

LIST = "list image text names"

# Of the image of docs/FORMATS.md: its statements stand on the lines 3 to 5.
FIRST = "\n\nORGANIZATION_BLOCK OB 1 VAR_TEMP t : ARRAY [0..19] OF BYTE; END_VAR BEGIN JU _001;\n_001: T DB 10.DBW 2;\n"
LAST = "END_ORGANIZATION_BLOCK DATA_BLOCK DB 10 STRUCT x : ARRAY [0..3] OF BYTE; END_STRUCT; BEGIN END_DATA_BLOCK\n"
TEXT = FIRST + LAST

# The names of an image, each field in quotes.
NAMES = '"LAMP","Q 4.0","BOOL",""\n'


def with_last_line(line):
    """The image whose last statement stands on this line."""
    return IMAGE[:64] + line.to_bytes(4, "big") + IMAGE[68:]


# Image, source, symbols file.
LISTED = [
    (IMAGE, TEXT, ""),
    (with_last_line(10), FIRST + "\n" * 5 + LAST, ""),
    (NAMED, "", NAMES),
    (EMPTY, "", ""),
]

# The last line may be the 1,048,576th, whose text would be longer, or one that no file has.
TOO_LONG = [1_048_576, 4_294_967_295]

# An organization block with an odd number of local bytes: no source has one.
ODD = altered(IMAGE, 25, 21)

CASES = [
    *[
        told("listings", LIST, {"image": stamped(image, version, profile)}, 0, "OK\n", {"text": source, "names": symbols})
        for image, source, symbols in LISTED
        for version, profile in [(1, 0), (2, 1), (2, 2)]
    ],
    *[told("long listings", LIST, {"image": with_last_line(line), "text": "x"}, 8, "too long: list\n") for line in TOO_LONG],
    told("no listing", LIST, {"image": ODD, "text": "x", "names": "y"}, 9, "image has no listing\n"),
    told("a refused image", LIST, {"image": IMAGE[:79], "text": "x"}, 3, "image refused: offset 8 code 3\n"),
    told("a missing image", LIST, {"text": "x"}, *READ_FAULT),
    told("both into one file", "list image text text", {"image": IMAGE, "text": "x"}, 1, REFUSED),
    # Either may take the place of the image.
    told("over the image", "list image image names", {"image": IMAGE}, 0, "OK\n", {"image": TEXT, "names": ""}),
    told("names over the image", "list image text image", {"image": NAMED}, 0, "OK\n", {"text": "", "image": NAMES}),
    # The two compile to the image that was listed, of version 2 for the large profile.
    *[
        Case(
            "there and back",
            {"image": image},
            [
                Call(LIST, 0, "OK\n", {"text": ANY, "names": ANY}),
                Call("compile text again --symbols names", 0, "OK\n", {"again": stamped(image, 2, 2)}),
            ],
        )
        for image in (IMAGE, with_last_line(10), NAMED)
    ],
]
