"""`bound` and `recheck`: certificates of how deep calls go, and chains of calls that are too deep."""
from calls.cases import ANY, Call, Case
from calls.images import stamped

# OB 1 calls FC 1, which has four local bytes; an organization block has twenty at least.
ONE_CALL = "FUNCTION FC 1 : VOID\nVAR_TEMP x : DWORD; END_VAR\nBEGIN\nEND_FUNCTION\nORGANIZATION_BLOCK OB 1\nBEGIN\nCALL FC 1;\nEND_ORGANIZATION_BLOCK\n"

ONE_CERTIFICATE = "OB 1 DEPTH 2 BYTES 24\nFC 1 DEPTH 1 BYTES 4\n"

# FC 1 has 600 local bytes and calls itself.
ITSELF = "FUNCTION FC 1 : VOID\nVAR_TEMP x : ARRAY [0..299] OF WORD; END_VAR\nBEGIN\nCALL FC 1;\nEND_FUNCTION\nORGANIZATION_BLOCK OB 1\nBEGIN\nCALL FC 1;\nEND_ORGANIZATION_BLOCK\n"

# FC 1 has no local bytes and calls itself.
ENDLESS = "FUNCTION FC 1 : VOID\nBEGIN\nUC FC 1;\nEND_FUNCTION\nORGANIZATION_BLOCK OB 1\nBEGIN\nUC FC 1;\nEND_ORGANIZATION_BLOCK\n"

# FC 1 and FC 2 are called by nobody, and the one calls the other.
UNCALLED = "FUNCTION FC 1 : VOID\nBEGIN\nUC FC 2;\nEND_FUNCTION\nFUNCTION FC 2 : VOID\nBEGIN\nCC FC 1;\nEND_FUNCTION\nORGANIZATION_BLOCK OB 1\nBEGIN\nEND_ORGANIZATION_BLOCK\n"

# A source, the status, the text, and the certificate behind it, where `x` stood before. The image is for the large profile, which has 24 frames.
BOUNDS = [
    (ONE_CALL, 0, "OK\n", ONE_CERTIFICATE),
    (ITSELF, 10, "chain: OB 1, FC 1, FC 1\n", "x"),
    (
        ENDLESS,
        10,
        "chain: OB 1, FC 1, FC 1, FC 1, FC 1, FC 1, FC 1, FC 1, FC 1, FC 1, FC 1, FC 1, FC 1, FC 1, FC 1, FC 1, FC 1, FC 1, FC 1, FC 1, FC 1, FC 1, FC 1, FC 1, FC 1\n",
        "x",
    ),
    (UNCALLED, 0, "OK\n", "OB 1 DEPTH 1 BYTES 20\n"),
    ("", 0, "OK\n", ""),
]

# A certificate of the image of `ONE_CALL`, the status, and the text.
CHECKED = [
    (ONE_CERTIFICATE, 0, "OK\n"),
    # Greater numbers hold too, up to the limits of an organization block.
    ("OB 1 DEPTH 24 BYTES 1024\nFC 1 DEPTH 23 BYTES 1004\n", 0, "OK\n"),
    # Line ends, blanks and tabs, zeros in front, comments and empty lines are those of a history.
    ("// by hand\r\n\r\n OB\t1  DEPTH 02 BYTES 0024\t\r\nFC 1 DEPTH 1 BYTES 4", 0, "OK\n"),
    ("OB 1 DEPTH 1 BYTES 24\nFC 1 DEPTH 1 BYTES 4\n", 10, "certificate says no\n"),
    ("OB 1 DEPTH 2 BYTES 23\nFC 1 DEPTH 1 BYTES 4\n", 10, "certificate says no\n"),
    ("OB 1 DEPTH 25 BYTES 24\nFC 1 DEPTH 1 BYTES 4\n", 10, "certificate says no\n"),
    ("OB 1 DEPTH 2 BYTES 1025\nFC 1 DEPTH 1 BYTES 4\n", 10, "certificate says no\n"),
    ("OB 1 DEPTH 2 BYTES 24\nFC 1 DEPTH 0 BYTES 4\n", 10, "certificate says no\n"),
    ("OB 1 DEPTH 2 BYTES 24\nFC 1 DEPTH 1 BYTES 3\n", 10, "certificate says no\n"),
    # A block that is called has to be there, and each organization block.
    ("OB 1 DEPTH 2 BYTES 24\n", 10, "certificate says no\n"),
    ("FC 1 DEPTH 1 BYTES 4\n", 10, "certificate says no\n"),
    ("", 10, "certificate says no\n"),
    ("OB 1 DEPTH 2 BYTES\n", 4, "certificate refused: line 1 rule 1\n"),
    ("\nob 1 DEPTH 2 BYTES 24\n", 4, "certificate refused: line 2 rule 1\n"),
    ("SFC 1 DEPTH 2 BYTES 24\n", 4, "certificate refused: line 1 rule 1\n"),
    ("OB 1 DEPTH 65536 BYTES 24\n", 4, "certificate refused: line 1 rule 2\n"),
    ("FC 2 DEPTH 1 BYTES 65536\n", 4, "certificate refused: line 1 rule 2\n"),
    ("// FC 2 isn't loaded\nFC 2 DEPTH 1 BYTES 4\n", 4, "certificate refused: line 2 rule 3\n"),
    ("FC 1 DEPTH 1 BYTES 4\nOB 1 DEPTH 2 BYTES 24\n", 4, "certificate refused: line 2 rule 3\n"),
    ("OB 1 DEPTH 2 BYTES 24\nOB 1 DEPTH 2 BYTES 24\n", 4, "certificate refused: line 2 rule 3\n"),
    # The first bad line counts, and of it the least rule.
    ("FC 9 DEPTH 1 BYTES 4\nnothing\n", 4, "certificate refused: line 1 rule 3\n"),
    ("FC 9 DEPTH x BYTES 99999\n", 4, "certificate refused: line 1 rule 1\n"),
]

# Blocks that nobody calls may stand in a certificate with what they call; these two have none that holds.
OF_UNCALLED = [
    ("OB 1 DEPTH 1 BYTES 20\n", 0, "OK\n"),
    ("OB 1 DEPTH 1 BYTES 20\nFC 1 DEPTH 9 BYTES 0\nFC 2 DEPTH 9 BYTES 0\n", 10, "certificate says no\n"),
]

COMPILE = Call("compile source image", 0, "OK\n", {"image": ANY})


def sixteen_frames(folder):
    """The profile is that of the image: the small one has 16 frames."""
    folder.expect(COMPILE)
    folder.write("image", stamped(folder.files()["image"], 2, 1))
    folder.expect(Call("bound image certificate", 10, "chain: OB 1, FC 1, FC 1, FC 1, FC 1, FC 1, FC 1, FC 1, FC 1, FC 1, FC 1, FC 1, FC 1, FC 1, FC 1, FC 1, FC 1\n", {}))


def checked(what, source, certificate, status, text):
    return Case(what, {"source": source, "certificate": certificate}, [COMPILE, Call("recheck image certificate", status, text, {})])


CASES = [
    *[
        Case("certificates and chains", {"source": source, "certificate": "x"}, [COMPILE, Call("bound image certificate", status, text, {"certificate": left})])
        for source, status, text, left in BOUNDS
    ],
    Case("sixteen frames", {"source": ENDLESS, "certificate": ""}, sixteen_frames),
    *[checked("checked certificates", ONE_CALL, certificate, status, text) for certificate, status, text in CHECKED],
    *[checked("blocks that nobody calls", UNCALLED, certificate, status, text) for certificate, status, text in OF_UNCALLED],
    # A certificate without lines holds of the image of no blocks.
    checked("no blocks", "", "// nothing\n", 0, "OK\n"),
    # The image and its certificate may be one file.
    Case("a certificate over its image", {"source": ONE_CALL}, [COMPILE, Call("bound image image", 0, "OK\n", {"image": ONE_CERTIFICATE})]),
]
