"""The bytes of ops: of each instruction, with each form of operand that a source can give it, the whole image that `compile` writes.

A row has statements, and the bytes of their ops. The bytes are worked out by hand from the tables of docs/FORMATS.md, "Ops" (forms, areas, widths,
codes), the value of a literal from docs/LANGUAGE.md and docs/SEMANTICS.md; none comes from the program. The number in front of a list of rows is that
of the line of the table of codes, from 1, by which they can be read: 1 has NOP and BLD, 37 OPN and CDB. ` | ` stands between statements, which have a
line each, and between their ops; `, ` between the ops of one statement.

What stands round the ops in the image (header, heads of blocks, parameters, lines, data blocks, names) is put together below by "Image of a program"
of docs/FORMATS.md. `upgrade` then reads the image, so that the ops are decoded too, and writes the same bytes again: the image is of version 2.

OP_TABLE holds the table once more, typed from the document, and OPERANDS what its forms take: what has no row, or a row with an op that isn't in the
table, is a difference."""
import struct
from collections import namedtuple
from itertools import product

from calls.cases import Call, Case, Differs

# Where the statements of a row stand: a name; the blocks in front, and the head of the block up to BEGIN, as text; kind and number of the block,
# its parameters, its bytes of VAR_TEMP (20 at least in an organization block) and of its instance; the code blocks in front, the data blocks and the
# names as records of the image; the symbols file.
Place = namedtuple("Place", "name front head kind number params local_bytes instance_bytes blocks data_blocks names symbols")

ENDS = {1: "END_ORGANIZATION_BLOCK\n", 2: "END_FUNCTION\n", 3: "END_FUNCTION_BLOCK\n"}

# The op that returns, behind the last statement.
RETURN = bytes([0xFB, 0])


def code_block(kind, number, params, local_bytes, instance_bytes, code, lines):
    """The record of a code block."""
    params = bytes.fromhex(params)
    head = struct.pack(">BBHHHHHI", kind, len(params) // 6, number, local_bytes, instance_bytes, len(lines), 0, len(code))
    return head + params + code + struct.pack(f">{len(lines)}I", *lines)


def image_of(blocks, data_blocks, names):
    """An image of version 2, for the large profile. Records of blocks stand by kind, then number."""
    records = sorted(blocks, key=lambda block: (block[0], block[2:4])) + data_blocks + names
    total = 20 + sum(map(len, records))
    header = struct.pack(">HHIHHHH", 2, 2, total, len(blocks), len(data_blocks), len(names), 0)
    return b"S7FB" + header + b"".join(records)


def records_of(rows):
    return [bytes.fromhex(row) for row in rows]


# A data block: flag 0.0, part 1, size 2, sum 4, list 8 to 15, pair.a 16.0, pair.b 16.1.
RECIPE = "DATA_BLOCK DB 300 STRUCT flag : BOOL; part : BYTE; size : INT := 5; sum : DINT; list : ARRAY [0..3] OF WORD; pair : STRUCT a : BOOL; b : BOOL; END_STRUCT; END_STRUCT; BEGIN END_DATA_BLOCK\n"
RECIPE_RECORD = "012C 0000 0012 0000 00000005 00000000 0000000000000000 0000"

# Blocks to be called: with parameters and without, with a variable of each elementary type and without variables; the instances of the latter two.
CALLED = f"""{RECIPE}FUNCTION FC 515 : BYTE
VAR_INPUT start : BOOL; number : INT; END_VAR
VAR_OUTPUT code : WORD; END_VAR
VAR_IN_OUT total : DWORD; END_VAR
BEGIN
END_FUNCTION
FUNCTION FC 516 : VOID BEGIN
END_FUNCTION
FUNCTION_BLOCK FB 769
VAR_INPUT in_bool : BOOL; in_byte : BYTE; in_char : CHAR; in_word : WORD; in_int : INT; in_s5time : S5TIME; in_dword : DWORD; in_dint : DINT; in_time : TIME; END_VAR
VAR_OUTPUT out_bool : BOOL; out_byte : BYTE; out_word : WORD; out_dword : DWORD; END_VAR
VAR_IN_OUT io_bool : BOOL; io_byte : BYTE; io_word : WORD; io_dword : DWORD; END_VAR
BEGIN END_FUNCTION_BLOCK
FUNCTION_BLOCK FB 770 BEGIN END_FUNCTION_BLOCK
DATA_BLOCK DB 261 FB 769 BEGIN END_DATA_BLOCK
DATA_BLOCK DB 262 FB 770 BEGIN END_DATA_BLOCK
"""
CALLED_PARAMS = """
    01 01 0000 00 00  01 02 0001 00 00  01 02 0002 00 00  01 03 0004 00 00  01 03 0006 00 00  01 03 0008 00 00
    01 04 000A 00 00  01 04 000E 00 00  01 04 0012 00 00
    02 01 0016 00 00  02 02 0017 00 00  02 03 0018 00 00  02 04 001A 00 00
    03 01 001E 00 00  03 02 001F 00 00  03 03 0020 00 00  03 04 0022 00 00"""
CALLED_BLOCKS = [
    code_block(2, 515, "01 01 0000 00 00  01 03 0000 00 00  02 03 0000 00 00  03 04 0000 00 00  02 02 0000 00 00", 0, 0, RETURN, [7]),
    code_block(2, 516, "", 0, 0, RETURN, [9]),
    code_block(3, 769, CALLED_PARAMS, 0, 38, RETURN, [14]),
    code_block(3, 770, "", 0, 0, RETURN, [15]),
]
CALLED_DATA = records_of(["0105 0302 0026 0000" + 38 * "00", "0106 0303 0000 0000", RECIPE_RECORD])

# A parameter of each width and section, the return value, and temporary variables at 0.0, 1, 2 and 4.
FUNCTION_HEAD = """FUNCTION FC 1 : INT
VAR_INPUT in_bit : BOOL; in_byte : BYTE; in_word : WORD; in_dword : DWORD; END_VAR
VAR_OUTPUT out_bit : BOOL; out_byte : BYTE; out_word : WORD; out_dword : DWORD; END_VAR
VAR_IN_OUT io_bit : BOOL; io_byte : BYTE; io_word : WORD; io_dword : DWORD; END_VAR
VAR_TEMP temp_bit : BOOL; temp_byte : BYTE; temp_word : WORD; temp_dword : DWORD; END_VAR
BEGIN
"""
FUNCTION_PARAMS = """
    01 01 0000 00 00  01 02 0000 00 00  01 03 0000 00 00  01 04 0000 00 00
    02 01 0000 00 00  02 02 0000 00 00  02 03 0000 00 00  02 04 0000 00 00
    03 01 0000 00 00  03 02 0000 00 00  03 03 0000 00 00  03 04 0000 00 00  02 03 0000 00 00"""

# The same of a function block, with two bits where there was one, and static variables from byte 24 on.
BLOCK_HEAD = """FUNCTION_BLOCK FB 7
VAR_INPUT in_bit : BOOL; in_next : BOOL; in_byte : BYTE; in_word : WORD; in_dword : DWORD; END_VAR
VAR_OUTPUT out_bit : BOOL; out_byte : BYTE; out_word : WORD; out_dword : DWORD; END_VAR
VAR_IN_OUT io_bit : BOOL; io_byte : BYTE; io_word : WORD; io_dword : DWORD; END_VAR
VAR stat_bit : BOOL; stat_next : BOOL; stat_byte : BYTE; stat_word : WORD; stat_dword : DWORD; END_VAR
VAR_TEMP temp_bit : BOOL; temp_byte : BYTE; temp_word : WORD; temp_dword : DWORD; END_VAR
BEGIN
"""
BLOCK_PARAMS = """
    01 01 0000 00 00  01 01 0000 01 00  01 02 0001 00 00  01 03 0002 00 00  01 04 0004 00 00
    02 01 0008 00 00  02 02 0009 00 00  02 03 000A 00 00  02 04 000C 00 00
    03 01 0010 00 00  03 02 0011 00 00  03 03 0012 00 00  03 04 0014 00 00"""

# Symbols of each kind. Those in I, Q and M are names of the image.
SYMBOLS = """Start,I 0.1,BOOL,
Lamp,Q 4.3,BOOL,
Mark,M 300.7,BOOL,
Code,IB 5,BYTE,
Valve,QW 6,WORD,
Total,MD 1000,DINT,
Speed,PIW 256,INT,
Drive,PQW 260,INT,
Delay,T 5,TIMER,
Parts,C 6,COUNTER,
Recipe,DB 300,DB 300,
Fill,FC 2,FC 2,
Mixer,FB 3,FB 3,
Mixer 1,DB 4,FB 3,
"""
NAMES = records_of([
    # CODE, LAMP, MARK, START, TOTAL, VALVE
    "04 434F4445 81 02 0005 00",
    "04 4C414D50 82 01 0004 03",
    "04 4D41524B 83 01 012C 07",
    "05 5354415254 81 01 0000 01",
    "05 544F54414C 83 04 03E8 00",
    "05 56414C5645 82 03 0006 00",
])
NAMED = f"""{RECIPE}FUNCTION FC 2 : VOID BEGIN END_FUNCTION
FUNCTION_BLOCK FB 3
VAR_INPUT run : BOOL; END_VAR
BEGIN END_FUNCTION_BLOCK
DATA_BLOCK DB 4 FB 3 BEGIN END_DATA_BLOCK
"""
NAMED_BLOCKS = [code_block(2, 2, "", 0, 0, RETURN, [2]), code_block(3, 3, "01 01 0000 00 00", 0, 2, RETURN, [5])]
NAMED_DATA = records_of(["0004 0004 0002 0000 0000", RECIPE_RECORD])

OB_HEAD = "ORGANIZATION_BLOCK OB 1\nBEGIN\n"
TEMP_HEAD = "ORGANIZATION_BLOCK OB 1\nVAR_TEMP\nfirst : ARRAY [0..19] OF BYTE;\nbits : ARRAY [0..9] OF BOOL;\nlong : DINT;\nEND_VAR\nBEGIN\n"

OB = Place("in OB 1", "", OB_HEAD, 1, 1, "", 20, 0, [], [], [], None)
TEMP = Place("with temporary variables", "", TEMP_HEAD, 1, 1, "", 26, 0, [], [], [], None)
CALLER = Place("beside other blocks", CALLED, OB_HEAD, 1, 1, "", 20, 0, CALLED_BLOCKS, CALLED_DATA, [], None)
SYMBOLIC = Place("by symbols", NAMED, OB_HEAD, 1, 1, "", 20, 0, NAMED_BLOCKS, NAMED_DATA, NAMES, SYMBOLS)
PLAIN = Place("in a function without parameters", "", "FUNCTION FC 2047 : VOID\nBEGIN\n", 2, 2047, "", 0, 0, [], [], [], None)
FUNCTION = Place("in a function", CALLED, FUNCTION_HEAD, 2, 1, FUNCTION_PARAMS, 8, 0, CALLED_BLOCKS, CALLED_DATA, [], None)
BLOCK = Place("in a function block", CALLED, BLOCK_HEAD, 3, 7, BLOCK_PARAMS, 8, 32, CALLED_BLOCKS, CALLED_DATA, [], None)


def calls_of_fb(rows):
    """Rows of a CALL of FB 769, each with what is passed and its PASS ops."""
    return [(f"CALL FB 769, DB 261 ({actuals});", f"{ops}, F8 0D 03 0301 0105") for actuals, ops in rows]


# The number of a line of the table of codes, where the statements stand, and rows.
ROWS = [
    (
        1,
        OB,
        [
            ("NOP 0;", "81 01 00000000"),
            ("NOP 1;", "81 01 00000001"),
            ("BLD 0;", "83 01 00000000"),
            ("BLD 130;", "83 01 00000082"),
            ("BLD 255;", "83 01 000000FF"),
        ],
    ),
    # USEDB, and behind it each instruction that takes a place in a named data block.
    (
        2,
        CALLER,
        [
            ("A DB300.DBX 2.1;", "02 0A 012C, 90 02 84 01 0002 01"),
            ("AN DB300.DBX 2.2;", "02 0A 012C, 91 02 84 01 0002 02"),
            ("O DB300.DBX 2.3;", "02 0A 012C, 92 02 84 01 0002 03"),
            ("ON DB300.DBX 2.4;", "02 0A 012C, 93 02 84 01 0002 04"),
            ("X DB300.DBX 2.5;", "02 0A 012C, 94 02 84 01 0002 05"),
            ("XN DB300.DBX 2.6;", "02 0A 012C, 95 02 84 01 0002 06"),
            ("= DB300.DBX 65535.7;", "02 0A 012C, A2 02 84 01 FFFF 07"),
            ("S DB300.DBX 3.0;", "02 0A 012C, A3 02 84 01 0003 00"),
            ("R DB300.DBX 3.1;", "02 0A 012C, A4 02 84 01 0003 01"),
            ("FP DB300.DBX 3.2;", "02 0A 012C, A5 02 84 01 0003 02"),
            ("FN DB300.DBX 3.3;", "02 0A 012C, A6 02 84 01 0003 03"),
            ("L DB300.DBB 1;", "02 0A 012C, A0 02 84 02 0001 00"),
            ("L DB300.DBW 2;", "02 0A 012C, A0 02 84 03 0002 00"),
            ("L DB300.DBD 4;", "02 0A 012C, A0 02 84 04 0004 00"),
            ("T DB300.DBB 1;", "02 0A 012C, A1 02 84 02 0001 00"),
            ("T DB300.DBW 2;", "02 0A 012C, A1 02 84 03 0002 00"),
            ("T DB300.DBD 4;", "02 0A 012C, A1 02 84 04 0004 00"),
            ("LAR1 DB300.DBD 4;", "02 0A 012C, B0 02 84 04 0004 00"),
            ("LAR2 DB300.DBD 4;", "02 0A 012C, B1 02 84 04 0004 00"),
            ("TAR1 DB300.DBD 4;", "02 0A 012C, B2 02 84 04 0004 00"),
            ("TAR2 DB300.DBD 4;", "02 0A 012C, B3 02 84 04 0004 00"),
            # an instance, opened by DB; components by name
            ("L DB261.DBW 6;", "02 0A 0105, A0 02 84 03 0006 00"),
            ("L DB261.in_int;", "02 0A 0105, A0 02 84 03 0006 00"),
            ("A DB261.io_bool;", "02 0A 0105, 90 02 84 01 001E 00"),
            ("A DB300.flag;", "02 0A 012C, 90 02 84 01 0000 00"),
            ("L DB300.part;", "02 0A 012C, A0 02 84 02 0001 00"),
            ("T DB300.size;", "02 0A 012C, A1 02 84 03 0002 00"),
            ("L DB300.sum;", "02 0A 012C, A0 02 84 04 0004 00"),
            ("L DB300.list[0];", "02 0A 012C, A0 02 84 03 0008 00"),
            ("T DB300.list[3];", "02 0A 012C, A1 02 84 03 000E 00"),
            ("= DB300.pair.a;", "02 0A 012C, A2 02 84 01 0010 00"),
            ("S DB300.pair.b;", "02 0A 012C, A3 02 84 01 0010 01"),
            ("LAR1 DB300.sum;", "02 0A 012C, B0 02 84 04 0004 00"),
            ("TAR2 DB300.sum;", "02 0A 012C, B3 02 84 04 0004 00"),
        ],
    ),
    (
        2,
        SYMBOLIC,
        [
            ('A "Recipe".DBX 2.1;', "02 0A 012C, 90 02 84 01 0002 01"),
            ('L "Recipe".DBB 1;', "02 0A 012C, A0 02 84 02 0001 00"),
            ('T "Recipe".DBD 4;', "02 0A 012C, A1 02 84 04 0004 00"),
            ('A "Recipe".flag;', "02 0A 012C, 90 02 84 01 0000 00"),
            ('L "Recipe".size;', "02 0A 012C, A0 02 84 03 0002 00"),
            ('T "Recipe".list[2];', "02 0A 012C, A1 02 84 03 000C 00"),
            ('R "Recipe".pair.b;', "02 0A 012C, A4 02 84 01 0010 01"),
            ('A "Mixer 1".run;', "02 0A 0004, 90 02 84 01 0000 00"),
        ],
    ),
    # PASS. A literal for each type.
    (
        3,
        CALLER,
        calls_of_fb([
            ("in_bool := TRUE", "04 0B 00 01 00000001"),
            ("in_bool := FALSE", "04 0B 00 01 00000000"),
            ("in_byte := 255", "04 0B 01 01 000000FF"),
            ("in_byte := B#16#A5", "04 0B 01 01 000000A5"),
            ("in_byte := W#16#003C", "04 0B 01 01 0000003C"),
            ("in_byte := 2#1101", "04 0B 01 01 0000000D"),
            ("in_char := 'a'", "04 0B 02 01 00000061"),
            ("in_word := 65535", "04 0B 03 01 0000FFFF"),
            ("in_word := W#16#1234", "04 0B 03 01 00001234"),
            ("in_word := 2#1_0000_0000", "04 0B 03 01 00000100"),
            ("in_word := C#987", "04 0B 03 01 00000987"),
            ("in_word := S5T#2S", "04 0B 03 01 00000200"),
            ("in_word := 'ab'", "04 0B 03 01 00006162"),
            ("in_int := 5", "04 0B 04 01 00000005"),
            ("in_int := -5", "04 0B 04 01 0000FFFB"),
            ("in_int := -32768", "04 0B 04 01 00008000"),
            ("in_s5time := S5T#50MS", "04 0B 05 01 00000005"),
            ("in_dword := DW#16#89ABCDEF", "04 0B 06 01 89ABCDEF"),
            ("in_dword := 2#1", "04 0B 06 01 00000001"),
            ("in_dword := 'abcd'", "04 0B 06 01 61626364"),
            ("in_dint := L#70000", "04 0B 07 01 00011170"),
            ("in_dint := L#-5", "04 0B 07 01 FFFFFFFB"),
            ("in_dint := DW#16#FFFF0000", "04 0B 07 01 FFFF0000"),
            ("in_time := T#1S", "04 0B 08 01 000003E8"),
            ("in_time := T#-1MS", "04 0B 08 01 FFFFFFFF"),
        ]),
    ),
    # A place of each area, for each section.
    (
        3,
        CALLER,
        calls_of_fb([
            ("in_bool := I 0.1", "04 0B 00 02 81 01 0000 01"),
            ("in_bool := Q 4.2", "04 0B 00 02 82 01 0004 02"),
            ("in_bool := M 300.3", "04 0B 00 02 83 01 012C 03"),
            ("in_bool := DBX 5.4", "04 0B 00 02 84 01 0005 04"),
            ("in_bool := DIX 6.5", "04 0B 00 02 85 01 0006 05"),
            ("in_bool := L 20.6", "04 0B 00 02 86 01 0014 06"),
            ("in_byte := IB 7", "04 0B 01 02 81 02 0007 00"),
            ("in_byte := PIB 256", "04 0B 01 02 80 02 0100 00"),
            ("in_char := QB 8", "04 0B 02 02 82 02 0008 00"),
            ("in_word := MW 10", "04 0B 03 02 83 03 000A 00"),
            ("in_word := PIW 256", "04 0B 03 02 80 03 0100 00"),
            ("in_int := DBW 12", "04 0B 04 02 84 03 000C 00"),
            ("in_s5time := DIW 14", "04 0B 05 02 85 03 000E 00"),
            ("in_dword := LD 20", "04 0B 06 02 86 04 0014 00"),
            ("in_dword := PID 256", "04 0B 06 02 80 04 0100 00"),
            ("in_dint := ID 16", "04 0B 07 02 81 04 0010 00"),
            ("in_time := MD 20", "04 0B 08 02 83 04 0014 00"),
            ("out_bool := Q 4.7", "04 0B 09 02 82 01 0004 07"),
            ("out_byte := MB 24", "04 0B 0A 02 83 02 0018 00"),
            ("out_byte := PQB 260", "04 0B 0A 02 80 02 0104 00"),
            ("out_word := DBW 26", "04 0B 0B 02 84 03 001A 00"),
            ("out_word := PQW 260", "04 0B 0B 02 80 03 0104 00"),
            ("out_dword := DID 28", "04 0B 0C 02 85 04 001C 00"),
            ("out_dword := PQD 260", "04 0B 0C 02 80 04 0104 00"),
            ("io_bool := L 30.0", "04 0B 0D 02 86 01 001E 00"),
            ("io_byte := LB 31", "04 0B 0E 02 86 02 001F 00"),
            ("io_word := QW 32", "04 0B 0F 02 82 03 0020 00"),
            ("io_word := PQW 260", "04 0B 0F 02 80 03 0104 00"),
            ("io_dword := ID 36", "04 0B 10 02 81 04 0024 00"),
        ]),
    ),
    # A place in a named data block; several parameters, which rise whatever their order is; none.
    (
        3,
        CALLER,
        calls_of_fb([
            ("in_bool := DB300.DBX 2.3", "04 0B 00 0C 012C 84 01 0002 03"),
            ("in_byte := DB300.DBB 1", "04 0B 01 0C 012C 84 02 0001 00"),
            ("in_word := DB300.DBW 65535", "04 0B 03 0C 012C 84 03 FFFF 00"),
            ("in_dword := DB300.DBD 4", "04 0B 06 0C 012C 84 04 0004 00"),
            ("out_bool := DB300.DBX 16.1", "04 0B 09 0C 012C 84 01 0010 01"),
            ("io_word := DB261.DBW 6", "04 0B 0F 0C 0105 84 03 0006 00"),
            ("in_bool := DB300.flag", "04 0B 00 0C 012C 84 01 0000 00"),
            ("in_int := DB300.size", "04 0B 04 0C 012C 84 03 0002 00"),
            ("in_dint := DB300.sum", "04 0B 07 0C 012C 84 04 0004 00"),
            ("out_byte := DB300.part", "04 0B 0A 0C 012C 84 02 0001 00"),
            ("out_word := DB300.list[1]", "04 0B 0B 0C 012C 84 03 000A 00"),
            ("io_bool := DB300.pair.b", "04 0B 0D 0C 012C 84 01 0010 01"),
            ("in_int := DB261.in_int", "04 0B 04 0C 0105 84 03 0006 00"),
            ("io_word := MW 4, in_int := 5, out_bool := Q 4.0", "04 0B 04 01 00000005, 04 0B 09 02 82 01 0004 00, 04 0B 0F 02 83 03 0004 00"),
        ]),
    ),
    (
        3,
        CALLER,
        [
            (
                "CALL FC 515 (start := I 0.0, number := 7, code := MW 10, total := DB300.DBD 4, RET_VAL := MB 16);",
                "04 0B 00 02 81 01 0000 00, 04 0B 01 01 00000007, 04 0B 02 02 83 03 000A 00, 04 0B 03 0C 012C 84 04 0004 00,"
                " 04 0B 04 02 83 02 0010 00, F8 0D 02 0203 0000",
            ),
            (
                "CALL FC 515 (RET_VAL := PQB 3, total := MD 12, code := DBW 2, number := DB300.size, start := TRUE);",
                "04 0B 00 01 00000001, 04 0B 01 0C 012C 84 03 0002 00, 04 0B 02 02 84 03 0002 00, 04 0B 03 02 83 04 000C 00,"
                " 04 0B 04 02 80 02 0003 00, F8 0D 02 0203 0000",
            ),
        ],
    ),
    (
        3,
        OB,
        [
            (
                "CALL SFC 32 (OB_NR := 20, DTIME := T#100MS, SIGN := W#16#1, RET_VAL := MW 10);",
                "04 0B 00 01 00000014, 04 0B 01 01 00000064, 04 0B 02 01 00000001, 04 0B 03 02 83 03 000A 00, F8 0D 05 0020 0000",
            ),
            ("CALL SFC 33 (OB_NR := MW 8, RET_VAL := MW 10);", "04 0B 00 02 83 03 0008 00, 04 0B 01 02 83 03 000A 00, F8 0D 05 0021 0000"),
            (
                "CALL SFC 39 (MODE := B#16#2, OB_NR := 40, RET_VAL := QW 4);",
                "04 0B 00 01 00000002, 04 0B 01 01 00000028, 04 0B 02 02 82 03 0004 00, F8 0D 05 0027 0000",
            ),
            (
                "CALL SFC 40 (MODE := MB 3, OB_NR := 40, RET_VAL := LW 20);",
                "04 0B 00 02 83 02 0003 00, 04 0B 01 01 00000028, 04 0B 02 02 86 03 0014 00, F8 0D 05 0028 0000",
            ),
            ("CALL SFC 41 (RET_VAL := MW 20);", "04 0B 00 02 83 03 0014 00, F8 0D 05 0029 0000"),
            ("CALL SFC 42 (RET_VAL := MW 24);", "04 0B 00 02 83 03 0018 00, F8 0D 05 002A 0000"),
            ("CALL SFC 64 (RET_VAL := MD 28);", "04 0B 00 02 83 04 001C 00, F8 0D 05 0040 0000"),
        ],
    ),
    (
        3,
        SYMBOLIC,
        [
            ('CALL "Mixer", "Mixer 1" (run := "Start");', "04 0B 00 02 81 01 0000 01, F8 0D 03 0003 0004"),
            ('CALL "Mixer", "Mixer 1" (run := "Recipe".flag);', "04 0B 00 0C 012C 84 01 0000 00, F8 0D 03 0003 0004"),
            ('CALL FB 3, DB 4 (run := "Recipe".DBX 16.1);', "04 0B 00 0C 012C 84 01 0010 01, F8 0D 03 0003 0004"),
        ],
    ),
    # A parameter of a function; variables of a function block, in its instance; temporary variables.
    (
        3,
        FUNCTION,
        calls_of_fb([
            ("in_bool := #in_bit", "04 0B 00 05 00 01"),
            ("in_byte := #in_byte", "04 0B 01 05 01 02"),
            ("in_word := #in_word", "04 0B 03 05 02 03"),
            ("in_dword := #in_dword", "04 0B 06 05 03 04"),
            ("in_bool := #out_bit", "04 0B 00 05 04 01"),
            ("in_int := #RET_VAL", "04 0B 04 05 0C 03"),
            ("out_byte := #out_byte", "04 0B 0A 05 05 02"),
            ("out_word := #out_word", "04 0B 0B 05 06 03"),
            ("out_dword := #io_dword", "04 0B 0C 05 0B 04"),
            ("io_bool := #io_bit", "04 0B 0D 05 08 01"),
            ("io_byte := #io_byte", "04 0B 0E 05 09 02"),
            ("io_word := #io_word", "04 0B 0F 05 0A 03"),
            ("io_dword := #out_dword", "04 0B 10 05 07 04"),
            ("in_bool := #temp_bit", "04 0B 00 02 86 01 0000 00"),
            ("in_byte := #temp_byte", "04 0B 01 02 86 02 0001 00"),
            ("out_word := #temp_word", "04 0B 0B 02 86 03 0002 00"),
            ("io_dword := #temp_dword", "04 0B 10 02 86 04 0004 00"),
        ]),
    ),
    (
        3,
        FUNCTION,
        [
            ("CALL SFC 41 (RET_VAL := #RET_VAL);", "04 0B 00 05 0C 03, F8 0D 05 0029 0000"),
            (
                "CALL FC 515 (start := #io_bit, number := #RET_VAL, code := #io_word, total := #out_dword, RET_VAL := #out_byte);",
                "04 0B 00 05 08 01, 04 0B 01 05 0C 03, 04 0B 02 05 0A 03, 04 0B 03 05 07 04, 04 0B 04 05 05 02, F8 0D 02 0203 0000",
            ),
        ],
    ),
    (
        3,
        BLOCK,
        calls_of_fb([
            ("in_bool := #in_next", "04 0B 00 02 85 01 0000 01"),
            ("in_byte := #in_byte", "04 0B 01 02 85 02 0001 00"),
            ("out_word := #out_word", "04 0B 0B 02 85 03 000A 00"),
            ("io_dword := #io_dword", "04 0B 10 02 85 04 0014 00"),
            ("io_bool := #stat_next", "04 0B 0D 02 85 01 0018 01"),
            ("in_word := #stat_word", "04 0B 03 02 85 03 001A 00"),
            ("out_byte := #temp_byte", "04 0B 0A 02 86 02 0001 00"),
        ]),
    ),
    (
        3,
        BLOCK,
        [
            (
                "CALL FC 515 (start := #in_bit, number := 3, code := #out_word, total := #io_dword, RET_VAL := #stat_byte);",
                "04 0B 00 02 85 01 0000 00, 04 0B 01 01 00000003, 04 0B 02 02 85 03 000A 00, 04 0B 03 02 85 04 0014 00,"
                " 04 0B 04 02 85 02 0019 00, F8 0D 02 0203 0000",
            ),
        ],
    ),
    (
        4,
        OB,
        [
            ("MCRA;", "85 00"),
            ("MCRD;", "86 00"),
            ("MCR(; | )MCR;", "87 00 | 88 00"),
            ("MCRA; | MCR(; | MCR(; | )MCR; | )MCR; | MCRD;", "85 00 | 87 00 | 87 00 | 88 00 | 88 00 | 86 00"),
        ],
    ),
    # A of a bit in each area; by a pointer in each area; by each address register, with and without area.
    (
        5,
        OB,
        [
            ("A I 0.0;", "90 02 81 01 0000 00"),
            ("A Q 4.1;", "90 02 82 01 0004 01"),
            ("A M 300.7;", "90 02 83 01 012C 07"),
            ("A DBX 2.3;", "90 02 84 01 0002 03"),
            ("A DIX 65535.4;", "90 02 85 01 FFFF 04"),
            ("A L 20.5;", "90 02 86 01 0014 05"),
            ("A I [MD 0];", "90 03 81 01 83 0000"),
            ("A I [LD 4];", "90 03 81 01 86 0004"),
            ("A I [DBD 300];", "90 03 81 01 84 012C"),
            ("A I [DID 6];", "90 03 81 01 85 0006"),
            ("A Q [MD 8];", "90 03 82 01 83 0008"),
            ("A Q [LD 40];", "90 03 82 01 86 0028"),
            ("A Q [DBD 10];", "90 03 82 01 84 000A"),
            ("A Q [DID 12];", "90 03 82 01 85 000C"),
            ("A M [MD 14];", "90 03 83 01 83 000E"),
            ("A M [LD 16];", "90 03 83 01 86 0010"),
            ("A M [DBD 18];", "90 03 83 01 84 0012"),
            ("A M [DID 65535];", "90 03 83 01 85 FFFF"),
            ("A DBX [MD 20];", "90 03 84 01 83 0014"),
            ("A DBX [LD 0];", "90 03 84 01 86 0000"),
            ("A DBX [DBD 22];", "90 03 84 01 84 0016"),
            ("A DBX [DID 24];", "90 03 84 01 85 0018"),
            ("A DIX [MD 26];", "90 03 85 01 83 001A"),
            ("A DIX [LD 2];", "90 03 85 01 86 0002"),
            ("A DIX [DBD 28];", "90 03 85 01 84 001C"),
            ("A DIX [DID 30];", "90 03 85 01 85 001E"),
            ("A L [MD 32];", "90 03 86 01 83 0020"),
            ("A L [LD 6];", "90 03 86 01 86 0006"),
            ("A L [DBD 34];", "90 03 86 01 84 0022"),
            ("A L [DID 36];", "90 03 86 01 85 0024"),
            ("A I [AR1, P#0.0];", "90 04 81 01 01 00000000"),
            ("A I [AR2, P#0.1];", "90 04 81 01 02 00000001"),
            ("A Q [AR1, P#1.0];", "90 04 82 01 01 00000008"),
            ("A Q [AR2, P#1.7];", "90 04 82 01 02 0000000F"),
            ("A M [AR1, P#2.3];", "90 04 83 01 01 00000013"),
            ("A M [AR2, P#65535.7];", "90 04 83 01 02 0007FFFF"),
            ("A DBX [AR1, P#4.0];", "90 04 84 01 01 00000020"),
            ("A DBX [AR2, P#4.1];", "90 04 84 01 02 00000021"),
            ("A DIX [AR1, P#5.0];", "90 04 85 01 01 00000028"),
            ("A DIX [AR2, P#5.2];", "90 04 85 01 02 0000002A"),
            ("A L [AR1, P#32.0];", "90 04 86 01 01 00000100"),
            ("A L [AR2, P#6.3];", "90 04 86 01 02 00000033"),
            ("A [AR1, P#7.4];", "90 04 00 01 01 0000003C"),
            ("A [AR2, P#8192.0];", "90 04 00 01 02 00010000"),
        ],
    ),
    # A of timers, counters and conditions.
    (
        5,
        OB,
        [
            ("A T 5;", "90 06 01 0005"),
            ("A T 300;", "90 06 01 012C"),
            ("A C 6;", "90 06 02 0006"),
            ("A C 65535;", "90 06 02 FFFF"),
            ("A T [MW 2];", "90 07 01 83 0002"),
            ("A T [LW 4];", "90 07 01 86 0004"),
            ("A T [DBW 300];", "90 07 01 84 012C"),
            ("A T [DIW 8];", "90 07 01 85 0008"),
            ("A C [MW 10];", "90 07 02 83 000A"),
            ("A C [LW 40];", "90 07 02 86 0028"),
            ("A C [DBW 14];", "90 07 02 84 000E"),
            ("A C [DIW 16];", "90 07 02 85 0010"),
            ("A BR;", "90 09 01"),
            ("A OV;", "90 09 02"),
            ("A OS;", "90 09 03"),
            ("A ==0;", "90 09 04"),
            ("A <>0;", "90 09 05"),
            ("A >0;", "90 09 06"),
            ("A <0;", "90 09 07"),
            ("A >=0;", "90 09 08"),
            ("A <=0;", "90 09 09"),
            ("A UO;", "90 09 0A"),
        ],
    ),
    # The other checks.
    (
        5,
        OB,
        [
            ("AN I 1.1;", "91 02 81 01 0001 01"),
            ("AN Q 5.2;", "91 02 82 01 0005 02"),
            ("AN M 6.0;", "91 02 83 01 0006 00"),
            ("AN DBX 7.1;", "91 02 84 01 0007 01"),
            ("AN DIX 8.2;", "91 02 85 01 0008 02"),
            ("AN L 9.3;", "91 02 86 01 0009 03"),
            ("AN M [MD 4];", "91 03 83 01 83 0004"),
            ("AN DBX [AR1, P#0.1];", "91 04 84 01 01 00000001"),
            ("AN [AR2, P#1.0];", "91 04 00 01 02 00000008"),
            ("AN T 5;", "91 06 01 0005"),
            ("AN C 6;", "91 06 02 0006"),
            ("AN T [MW 2];", "91 07 01 83 0002"),
            ("AN C [DBW 4];", "91 07 02 84 0004"),
            ("AN BR;", "91 09 01"),
            ("AN UO;", "91 09 0A"),
            ("O I 1.2;", "92 02 81 01 0001 02"),
            ("O Q 5.3;", "92 02 82 01 0005 03"),
            ("O M 6.1;", "92 02 83 01 0006 01"),
            ("O DBX 7.2;", "92 02 84 01 0007 02"),
            ("O DIX 8.3;", "92 02 85 01 0008 03"),
            ("O L 9.4;", "92 02 86 01 0009 04"),
            ("O Q [LD 4];", "92 03 82 01 86 0004"),
            ("O DIX [AR2, P#0.2];", "92 04 85 01 02 00000002"),
            ("O [AR1, P#1.1];", "92 04 00 01 01 00000009"),
            ("O T 5;", "92 06 01 0005"),
            ("O C 6;", "92 06 02 0006"),
            ("O T [LW 2];", "92 07 01 86 0002"),
            ("O C [DIW 4];", "92 07 02 85 0004"),
            ("O OV;", "92 09 02"),
            ("O <=0;", "92 09 09"),
            ("ON I 1.3;", "93 02 81 01 0001 03"),
            ("ON Q 5.4;", "93 02 82 01 0005 04"),
            ("ON M 6.2;", "93 02 83 01 0006 02"),
            ("ON DBX 7.3;", "93 02 84 01 0007 03"),
            ("ON DIX 8.4;", "93 02 85 01 0008 04"),
            ("ON L 9.5;", "93 02 86 01 0009 05"),
            ("ON I [DBD 4];", "93 03 81 01 84 0004"),
            ("ON M [AR1, P#0.3];", "93 04 83 01 01 00000003"),
            ("ON [AR2, P#1.2];", "93 04 00 01 02 0000000A"),
            ("ON T 5;", "93 06 01 0005"),
            ("ON C 6;", "93 06 02 0006"),
            ("ON T [DBW 2];", "93 07 01 84 0002"),
            ("ON C [MW 4];", "93 07 02 83 0004"),
            ("ON OS;", "93 09 03"),
            ("ON >=0;", "93 09 08"),
            ("X I 1.4;", "94 02 81 01 0001 04"),
            ("X Q 5.5;", "94 02 82 01 0005 05"),
            ("X M 6.3;", "94 02 83 01 0006 03"),
            ("X DBX 7.4;", "94 02 84 01 0007 04"),
            ("X DIX 8.5;", "94 02 85 01 0008 05"),
            ("X L 9.6;", "94 02 86 01 0009 06"),
            ("X DBX [DID 4];", "94 03 84 01 85 0004"),
            ("X I [AR2, P#0.4];", "94 04 81 01 02 00000004"),
            ("X [AR1, P#1.3];", "94 04 00 01 01 0000000B"),
            ("X T 5;", "94 06 01 0005"),
            ("X C 6;", "94 06 02 0006"),
            ("X T [DIW 2];", "94 07 01 85 0002"),
            ("X C [LW 4];", "94 07 02 86 0004"),
            ("X ==0;", "94 09 04"),
            ("X <0;", "94 09 07"),
            ("XN I 1.5;", "95 02 81 01 0001 05"),
            ("XN Q 5.6;", "95 02 82 01 0005 06"),
            ("XN M 6.4;", "95 02 83 01 0006 04"),
            ("XN DBX 7.5;", "95 02 84 01 0007 05"),
            ("XN DIX 8.6;", "95 02 85 01 0008 06"),
            ("XN L 9.7;", "95 02 86 01 0009 07"),
            ("XN DIX [MD 4];", "95 03 85 01 83 0004"),
            ("XN L [AR1, P#0.5];", "95 04 86 01 01 00000005"),
            ("XN [AR2, P#1.4];", "95 04 00 01 02 0000000C"),
            ("XN T 5;", "95 06 01 0005"),
            ("XN C 6;", "95 06 02 0006"),
            ("XN T [MW 2];", "95 07 01 83 0002"),
            ("XN C [DBW 4];", "95 07 02 84 0004"),
            ("XN <>0;", "95 09 05"),
            ("XN >0;", "95 09 06"),
        ],
    ),
    (
        5,
        SYMBOLIC,
        [
            ('A "Start";', "90 02 81 01 0000 01"),
            ('AN "Lamp";', "91 02 82 01 0004 03"),
            ('O "Mark";', "92 02 83 01 012C 07"),
            ('ON "Delay";', "93 06 01 0005"),
            ('X "Parts";', "94 06 02 0006"),
            ('XN "START";', "95 02 81 01 0000 01"),
        ],
    ),
    # An element of an array of bits, of which eight lie in a byte.
    (5, TEMP, [("A #bits[0];", "90 02 86 01 0014 00"), ("AN #bits[7];", "91 02 86 01 0014 07"), ("O #bits[8];", "92 02 86 01 0015 00")]),
    (
        5,
        FUNCTION,
        [
            ("A #in_bit;", "90 05 00 01"),
            ("A in_bit;", "90 05 00 01"),
            ("A #out_bit;", "90 05 04 01"),
            ("A #io_bit;", "90 05 08 01"),
            ("A #temp_bit;", "90 02 86 01 0000 00"),
            ("AN #in_bit;", "91 05 00 01"),
            ("O #out_bit;", "92 05 04 01"),
            ("ON #io_bit;", "93 05 08 01"),
            ("X #in_bit;", "94 05 00 01"),
            ("XN #in_bit;", "95 05 00 01"),
        ],
    ),
    (
        5,
        BLOCK,
        [
            ("A #in_bit;", "90 02 85 01 0000 00"),
            ("A #in_next;", "90 02 85 01 0000 01"),
            ("AN #out_bit;", "91 02 85 01 0008 00"),
            ("O #io_bit;", "92 02 85 01 0010 00"),
            ("ON #stat_bit;", "93 02 85 01 0018 00"),
            ("X stat_next;", "94 02 85 01 0018 01"),
            ("XN #temp_bit;", "95 02 86 01 0000 00"),
        ],
    ),
    (6, OB, [("O;", "96 00"), ("A M 0.0; | O; | A M 0.1;", "90 02 83 01 0000 00 | 96 00 | 90 02 83 01 0000 01")]),
    (
        7,
        OB,
        [
            ("+ 5;", "C0 01 00000005"),
            ("+5;", "C0 01 00000005"),
            ("+ 0;", "C0 01 00000000"),
            ("+ -5;", "C0 01 0000FFFB"),
            ("+ 32767;", "C0 01 00007FFF"),
            ("+ -32768;", "C0 01 00008000"),
            ("+ 65535;", "C0 01 0000FFFF"),
            ("+ L#5;", "97 01 00000005"),
            ("+ L#-5;", "97 01 FFFFFFFB"),
            ("+ L#70000;", "97 01 00011170"),
            ("+ L#2147483647;", "97 01 7FFFFFFF"),
            ("+ L#-2147483648;", "97 01 80000000"),
        ],
    ),
    (
        8,
        OB,
        [
            ("A(; | );", "98 00 | 9E 00"),
            ("AN(; | );", "99 00 | 9E 00"),
            ("O(; | );", "9A 00 | 9E 00"),
            ("ON(; | );", "9B 00 | 9E 00"),
            ("X(; | );", "9C 00 | 9E 00"),
            ("XN(; | );", "9D 00 | 9E 00"),
            (
                "A(; | O(; | X(; | AN(; | ON(; | XN(; | A(; | A M 1.2; | ); | ); | ); | ); | ); | ); | );",
                "98 00 | 9A 00 | 9C 00 | 99 00 | 9B 00 | 9D 00 | 98 00 | 90 02 83 01 0001 02 | 9E 00 | 9E 00 | 9E 00 | 9E 00 | 9E 00 | 9E 00 | 9E 00",
            ),
        ],
    ),
    # L of a byte, word and double word in each area; by a pointer; by an address register, with and without area.
    (
        9,
        OB,
        [
            ("L IB 0;", "A0 02 81 02 0000 00"),
            ("L IW 2;", "A0 02 81 03 0002 00"),
            ("L ID 4;", "A0 02 81 04 0004 00"),
            ("L QB 5;", "A0 02 82 02 0005 00"),
            ("L QW 6;", "A0 02 82 03 0006 00"),
            ("L QD 8;", "A0 02 82 04 0008 00"),
            ("L MB 300;", "A0 02 83 02 012C 00"),
            ("L MW 1000;", "A0 02 83 03 03E8 00"),
            ("L MD 65535;", "A0 02 83 04 FFFF 00"),
            ("L DBB 9;", "A0 02 84 02 0009 00"),
            ("L DBW 10;", "A0 02 84 03 000A 00"),
            ("L DBD 12;", "A0 02 84 04 000C 00"),
            ("L DIB 13;", "A0 02 85 02 000D 00"),
            ("L DIW 14;", "A0 02 85 03 000E 00"),
            ("L DID 16;", "A0 02 85 04 0010 00"),
            ("L LB 20;", "A0 02 86 02 0014 00"),
            ("L LW 22;", "A0 02 86 03 0016 00"),
            ("L LD 1020;", "A0 02 86 04 03FC 00"),
            ("L PIB 127;", "A0 02 80 02 007F 00"),
            ("L PIW 256;", "A0 02 80 03 0100 00"),
            ("L PID 764;", "A0 02 80 04 02FC 00"),
            ("L IB [MD 0];", "A0 03 81 02 83 0000"),
            ("L IW [LD 4];", "A0 03 81 03 86 0004"),
            ("L ID [DBD 300];", "A0 03 81 04 84 012C"),
            ("L QB [LD 0];", "A0 03 82 02 86 0000"),
            ("L QW [DBD 2];", "A0 03 82 03 84 0002"),
            ("L QD [DID 6];", "A0 03 82 04 85 0006"),
            ("L MB [DBD 8];", "A0 03 83 02 84 0008"),
            ("L MW [DID 10];", "A0 03 83 03 85 000A"),
            ("L MD [MD 12];", "A0 03 83 04 83 000C"),
            ("L DBB [DID 14];", "A0 03 84 02 85 000E"),
            ("L DBW [MD 16];", "A0 03 84 03 83 0010"),
            ("L DBD [LD 40];", "A0 03 84 04 86 0028"),
            ("L DIB [MD 18];", "A0 03 85 02 83 0012"),
            ("L DIW [LD 8];", "A0 03 85 03 86 0008"),
            ("L DID [DBD 20];", "A0 03 85 04 84 0014"),
            ("L LB [LD 12];", "A0 03 86 02 86 000C"),
            ("L LW [DBD 22];", "A0 03 86 03 84 0016"),
            ("L LD [DID 65535];", "A0 03 86 04 85 FFFF"),
            ("L IB [AR1, P#0.0];", "A0 04 81 02 01 00000000"),
            ("L IW [AR2, P#2.0];", "A0 04 81 03 02 00000010"),
            ("L ID [AR1, P#4.0];", "A0 04 81 04 01 00000020"),
            ("L QB [AR2, P#1.0];", "A0 04 82 02 02 00000008"),
            ("L QW [AR1, P#3.0];", "A0 04 82 03 01 00000018"),
            ("L QD [AR2, P#6.0];", "A0 04 82 04 02 00000030"),
            ("L MB [AR1, P#7.0];", "A0 04 83 02 01 00000038"),
            ("L MW [AR2, P#8.0];", "A0 04 83 03 02 00000040"),
            ("L MD [AR1, P#65535.7];", "A0 04 83 04 01 0007FFFF"),
            ("L DBB [AR2, P#9.0];", "A0 04 84 02 02 00000048"),
            ("L DBW [AR1, P#10.0];", "A0 04 84 03 01 00000050"),
            ("L DBD [AR2, P#12.0];", "A0 04 84 04 02 00000060"),
            ("L DIB [AR1, P#13.0];", "A0 04 85 02 01 00000068"),
            ("L DIW [AR2, P#14.0];", "A0 04 85 03 02 00000070"),
            ("L DID [AR1, P#16.0];", "A0 04 85 04 01 00000080"),
            ("L LB [AR2, P#18.0];", "A0 04 86 02 02 00000090"),
            ("L LW [AR1, P#20.0];", "A0 04 86 03 01 000000A0"),
            ("L LD [AR2, P#32.0];", "A0 04 86 04 02 00000100"),
            ("L B [AR1, P#0.0];", "A0 04 00 02 01 00000000"),
            ("L B [AR2, P#1.0];", "A0 04 00 02 02 00000008"),
            ("L W [AR1, P#2.0];", "A0 04 00 03 01 00000010"),
            ("L W [AR2, P#4.0];", "A0 04 00 03 02 00000020"),
            ("L D [AR1, P#0.1];", "A0 04 00 04 01 00000001"),
            ("L D [AR2, P#8192.0];", "A0 04 00 04 02 00010000"),
            ("L T 5;", "A0 06 01 0005"),
            ("L C 300;", "A0 06 02 012C"),
            ("L T [MW 2];", "A0 07 01 83 0002"),
            ("L T [LW 4];", "A0 07 01 86 0004"),
            ("L C [DBW 300];", "A0 07 02 84 012C"),
            ("L C [DIW 6];", "A0 07 02 85 0006"),
        ],
    ),
    # L of constants.
    (
        9,
        OB,
        [
            ("L 0;", "A0 01 00000000"),
            ("L 5;", "A0 01 00000005"),
            ("L +7;", "A0 01 00000007"),
            ("L -1;", "A0 01 0000FFFF"),
            ("L -32768;", "A0 01 00008000"),
            ("L 65535;", "A0 01 0000FFFF"),
            ("L 2#1011;", "A0 01 0000000B"),
            ("L 2#1010_0101_0000_1111;", "A0 01 0000A50F"),
            ("L 2#10000000_00000000_00000000_00000001;", "A0 01 80000001"),
            ("L B#16#7;", "A0 01 00000007"),
            ("L BYTE#16#A5;", "A0 01 000000A5"),
            ("L W#16#1F;", "A0 01 0000001F"),
            ("L WORD#16#FEDC;", "A0 01 0000FEDC"),
            ("L DW#16#89AB_CDEF;", "A0 01 89ABCDEF"),
            ("L DWORD#16#10;", "A0 01 00000010"),
            ("L L#70000;", "A0 01 00011170"),
            ("L L#-1;", "A0 01 FFFFFFFF"),
            ("L L#+2147483647;", "A0 01 7FFFFFFF"),
            ("L L#-2147483648;", "A0 01 80000000"),
            ("L C#0;", "A0 01 00000000"),
            ("L C#123;", "A0 01 00000123"),
            ("L C#999;", "A0 01 00000999"),
            # 1 h, a day, minus 1 ms
            ("L T#1S;", "A0 01 000003E8"),
            ("L TIME#1H;", "A0 01 0036EE80"),
            ("L T#1D;", "A0 01 05265C00"),
            ("L T#1M_1S_1MS;", "A0 01 0000EE49"),
            ("L T#-1MS;", "A0 01 FFFFFFFF"),
            # up to 9,990 ms in tens of milliseconds, then in tenths, in seconds, in tens of seconds
            ("L S5T#0MS;", "A0 01 00000000"),
            ("L S5T#50MS;", "A0 01 00000005"),
            ("L S5T#2S;", "A0 01 00000200"),
            ("L S5T#9S_990MS;", "A0 01 00000999"),
            ("L S5T#10S;", "A0 01 00001100"),
            ("L S5TIME#1M;", "A0 01 00001600"),
            ("L S5T#10M;", "A0 01 00002600"),
            ("L S5T#1H;", "A0 01 00003360"),
            ("L S5T#2H46M30S;", "A0 01 00003999"),
            ("L 'a';", "A0 01 00000061"),
            ("L 'ab';", "A0 01 00006162"),
            ("L 'abc';", "A0 01 00616263"),
            ("L 'AB12';", "A0 01 41423132"),
            ("L B#(1,2);", "A0 01 00000102"),
            ("L B#(1, 2, 3, 255);", "A0 01 010203FF"),
            # the bit in bits 0 to 2, the byte behind it; an area in the highest byte
            ("L P#0.0;", "A0 01 00000000"),
            ("L P#10.3;", "A0 01 00000053"),
            ("L P#65535.7;", "A0 01 0007FFFF"),
            ("L P#I 1.1;", "A0 01 81000009"),
            ("L P#Q 4.0;", "A0 01 82000020"),
            ("L P#M 10.3;", "A0 01 83000053"),
            ("L P#M10.3;", "A0 01 83000053"),
            ("L P#DBX 2.0;", "A0 01 84000010"),
            ("L P#DIX 65535.0;", "A0 01 8507FFF8"),
            ("L P#L 20.7;", "A0 01 860000A7"),
        ],
    ),
    (
        9,
        OB,
        [
            ("T IB 0;", "A1 02 81 02 0000 00"),
            ("T IW 2;", "A1 02 81 03 0002 00"),
            ("T ID 4;", "A1 02 81 04 0004 00"),
            ("T QB 5;", "A1 02 82 02 0005 00"),
            ("T QW 6;", "A1 02 82 03 0006 00"),
            ("T QD 8;", "A1 02 82 04 0008 00"),
            ("T MB 300;", "A1 02 83 02 012C 00"),
            ("T MW 1000;", "A1 02 83 03 03E8 00"),
            ("T MD 65535;", "A1 02 83 04 FFFF 00"),
            ("T DBB 9;", "A1 02 84 02 0009 00"),
            ("T DBW 10;", "A1 02 84 03 000A 00"),
            ("T DBD 12;", "A1 02 84 04 000C 00"),
            ("T DIB 13;", "A1 02 85 02 000D 00"),
            ("T DIW 14;", "A1 02 85 03 000E 00"),
            ("T DID 16;", "A1 02 85 04 0010 00"),
            ("T LB 21;", "A1 02 86 02 0015 00"),
            ("T LW 22;", "A1 02 86 03 0016 00"),
            ("T LD 24;", "A1 02 86 04 0018 00"),
            ("T PQB 127;", "A1 02 80 02 007F 00"),
            ("T PQW 256;", "A1 02 80 03 0100 00"),
            ("T PQD 764;", "A1 02 80 04 02FC 00"),
            ("T IB [DBD 0];", "A1 03 81 02 84 0000"),
            ("T IW [DID 4];", "A1 03 81 03 85 0004"),
            ("T ID [MD 300];", "A1 03 81 04 83 012C"),
            ("T QB [DID 0];", "A1 03 82 02 85 0000"),
            ("T QW [MD 2];", "A1 03 82 03 83 0002"),
            ("T QD [LD 6];", "A1 03 82 04 86 0006"),
            ("T MB [MD 8];", "A1 03 83 02 83 0008"),
            ("T MW [LD 10];", "A1 03 83 03 86 000A"),
            ("T MD [DBD 12];", "A1 03 83 04 84 000C"),
            ("T DBB [LD 14];", "A1 03 84 02 86 000E"),
            ("T DBW [DBD 16];", "A1 03 84 03 84 0010"),
            ("T DBD [DID 40];", "A1 03 84 04 85 0028"),
            ("T DIB [DBD 18];", "A1 03 85 02 84 0012"),
            ("T DIW [DID 8];", "A1 03 85 03 85 0008"),
            ("T DID [MD 20];", "A1 03 85 04 83 0014"),
            ("T LB [DID 12];", "A1 03 86 02 85 000C"),
            ("T LW [MD 22];", "A1 03 86 03 83 0016"),
            ("T LD [LD 65535];", "A1 03 86 04 86 FFFF"),
            ("T IB [AR2, P#0.0];", "A1 04 81 02 02 00000000"),
            ("T IW [AR1, P#2.0];", "A1 04 81 03 01 00000010"),
            ("T ID [AR2, P#4.0];", "A1 04 81 04 02 00000020"),
            ("T QB [AR1, P#1.0];", "A1 04 82 02 01 00000008"),
            ("T QW [AR2, P#3.0];", "A1 04 82 03 02 00000018"),
            ("T QD [AR1, P#6.0];", "A1 04 82 04 01 00000030"),
            ("T MB [AR2, P#7.0];", "A1 04 83 02 02 00000038"),
            ("T MW [AR1, P#8.0];", "A1 04 83 03 01 00000040"),
            ("T MD [AR2, P#65535.7];", "A1 04 83 04 02 0007FFFF"),
            ("T DBB [AR1, P#9.0];", "A1 04 84 02 01 00000048"),
            ("T DBW [AR2, P#10.0];", "A1 04 84 03 02 00000050"),
            ("T DBD [AR1, P#12.0];", "A1 04 84 04 01 00000060"),
            ("T DIB [AR2, P#13.0];", "A1 04 85 02 02 00000068"),
            ("T DIW [AR1, P#14.0];", "A1 04 85 03 01 00000070"),
            ("T DID [AR2, P#16.0];", "A1 04 85 04 02 00000080"),
            ("T LB [AR1, P#18.0];", "A1 04 86 02 01 00000090"),
            ("T LW [AR2, P#20.0];", "A1 04 86 03 02 000000A0"),
            ("T LD [AR1, P#32.0];", "A1 04 86 04 01 00000100"),
            ("T B [AR1, P#0.0];", "A1 04 00 02 01 00000000"),
            ("T B [AR2, P#1.0];", "A1 04 00 02 02 00000008"),
            ("T W [AR1, P#2.0];", "A1 04 00 03 01 00000010"),
            ("T W [AR2, P#4.0];", "A1 04 00 03 02 00000020"),
            ("T D [AR1, P#0.1];", "A1 04 00 04 01 00000001"),
            ("T D [AR2, P#8192.0];", "A1 04 00 04 02 00010000"),
        ],
    ),
    # A symbol names a peripheral place for both.
    (
        9,
        SYMBOLIC,
        [
            ('L "Code";', "A0 02 81 02 0005 00"),
            ('L "Valve";', "A0 02 82 03 0006 00"),
            ('L "Total";', "A0 02 83 04 03E8 00"),
            ('L "Speed";', "A0 02 80 03 0100 00"),
            ('L "Drive";', "A0 02 80 03 0104 00"),
            ('L "Delay";', "A0 06 01 0005"),
            ('L "Parts";', "A0 06 02 0006"),
            ('T "Code";', "A1 02 81 02 0005 00"),
            ('T "Valve";', "A1 02 82 03 0006 00"),
            ('T "Total";', "A1 02 83 04 03E8 00"),
            ('T "Speed";', "A1 02 80 03 0100 00"),
            ('T "Drive";', "A1 02 80 03 0104 00"),
        ],
    ),
    (9, TEMP, [("L #first[0];", "A0 02 86 02 0000 00"), ("T #first[19];", "A1 02 86 02 0013 00"), ("L #long;", "A0 02 86 04 0016 00")]),
    # The local bytes go up to the end of the farthest direct operand, and are even; the place of a pointer doesn't count.
    (
        9,
        PLAIN,
        [
            ("L LB 2;", "A0 02 86 02 0002 00"),
            ("T LW 2;", "A1 02 86 03 0002 00"),
            ("L LD 0; | T LB 6; | L LW 1;", "A0 02 86 04 0000 00 | A1 02 86 02 0006 00 | A0 02 86 03 0001 00"),
            ("L MW [LD 40];", "A0 03 83 03 86 0028"),
        ],
    ),
    (
        9,
        FUNCTION,
        [
            ("L #in_byte;", "A0 05 01 02"),
            ("L #in_word;", "A0 05 02 03"),
            ("L #in_dword;", "A0 05 03 04"),
            ("L out_word;", "A0 05 06 03"),
            ("L #io_dword;", "A0 05 0B 04"),
            ("L #temp_byte;", "A0 02 86 02 0001 00"),
            ("L #temp_word;", "A0 02 86 03 0002 00"),
            ("L #temp_dword;", "A0 02 86 04 0004 00"),
            ("T #out_byte;", "A1 05 05 02"),
            ("T #out_word;", "A1 05 06 03"),
            ("T #out_dword;", "A1 05 07 04"),
            ("T #io_byte;", "A1 05 09 02"),
            ("T io_word;", "A1 05 0A 03"),
            ("T #io_dword;", "A1 05 0B 04"),
            ("T #RET_VAL;", "A1 05 0C 03"),
            ("T #temp_word;", "A1 02 86 03 0002 00"),
            ("L LW 30;", "A0 02 86 03 001E 00"),
        ],
    ),
    (
        9,
        BLOCK,
        [
            ("L #in_byte;", "A0 02 85 02 0001 00"),
            ("L #in_word;", "A0 02 85 03 0002 00"),
            ("L #in_dword;", "A0 02 85 04 0004 00"),
            ("L #stat_word;", "A0 02 85 03 001A 00"),
            ("T #in_word;", "A1 02 85 03 0002 00"),
            ("T #out_byte;", "A1 02 85 02 0009 00"),
            ("T #out_word;", "A1 02 85 03 000A 00"),
            ("T #io_dword;", "A1 02 85 04 0014 00"),
            ("T stat_byte;", "A1 02 85 02 0019 00"),
            ("T #stat_dword;", "A1 02 85 04 001C 00"),
            ("L #temp_dword;", "A0 02 86 04 0004 00"),
        ],
    ),
    (
        10,
        OB,
        [
            ("= I 0.0;", "A2 02 81 01 0000 00"),
            ("= Q 4.1;", "A2 02 82 01 0004 01"),
            ("= M 300.7;", "A2 02 83 01 012C 07"),
            ("= DBX 2.3;", "A2 02 84 01 0002 03"),
            ("= DIX 65535.4;", "A2 02 85 01 FFFF 04"),
            ("= L 20.5;", "A2 02 86 01 0014 05"),
            ("= I [MD 0];", "A2 03 81 01 83 0000"),
            ("= Q [LD 4];", "A2 03 82 01 86 0004"),
            ("= M [DBD 300];", "A2 03 83 01 84 012C"),
            ("= DBX [DID 6];", "A2 03 84 01 85 0006"),
            ("= DIX [MD 8];", "A2 03 85 01 83 0008"),
            ("= L [LD 40];", "A2 03 86 01 86 0028"),
            ("= I [AR1, P#0.0];", "A2 04 81 01 01 00000000"),
            ("= Q [AR2, P#0.1];", "A2 04 82 01 02 00000001"),
            ("= M [AR1, P#1.0];", "A2 04 83 01 01 00000008"),
            ("= DBX [AR2, P#2.3];", "A2 04 84 01 02 00000013"),
            ("= DIX [AR1, P#4.0];", "A2 04 85 01 01 00000020"),
            ("= L [AR2, P#65535.7];", "A2 04 86 01 02 0007FFFF"),
            ("= [AR1, P#7.4];", "A2 04 00 01 01 0000003C"),
            ("= [AR2, P#32.0];", "A2 04 00 01 02 00000100"),
        ],
    ),
    (10, SYMBOLIC, [('= "Lamp";', "A2 02 82 01 0004 03"), ('= "Start";', "A2 02 81 01 0000 01")]),
    (
        10,
        FUNCTION,
        [("= #out_bit;", "A2 05 04 01"), ("= #io_bit;", "A2 05 08 01"), ("= #temp_bit;", "A2 02 86 01 0000 00")],
    ),
    (10, BLOCK, [("= #in_next;", "A2 02 85 01 0000 01"), ("= #out_bit;", "A2 02 85 01 0008 00"), ("= #stat_next;", "A2 02 85 01 0018 01")]),
    (
        11,
        OB,
        [
            ("S I 0.0;", "A3 02 81 01 0000 00"),
            ("S Q 4.1;", "A3 02 82 01 0004 01"),
            ("S M 300.7;", "A3 02 83 01 012C 07"),
            ("S DBX 2.3;", "A3 02 84 01 0002 03"),
            ("S DIX 65535.4;", "A3 02 85 01 FFFF 04"),
            ("S L 20.5;", "A3 02 86 01 0014 05"),
            ("S I [LD 0];", "A3 03 81 01 86 0000"),
            ("S Q [DBD 4];", "A3 03 82 01 84 0004"),
            ("S M [DID 300];", "A3 03 83 01 85 012C"),
            ("S DBX [MD 6];", "A3 03 84 01 83 0006"),
            ("S DIX [LD 8];", "A3 03 85 01 86 0008"),
            ("S L [DBD 10];", "A3 03 86 01 84 000A"),
            ("S M [AR1, P#0.1];", "A3 04 83 01 01 00000001"),
            ("S DBX [AR2, P#1.0];", "A3 04 84 01 02 00000008"),
            ("S [AR1, P#1.1];", "A3 04 00 01 01 00000009"),
            ("S [AR2, P#1.2];", "A3 04 00 01 02 0000000A"),
            ("S C 6;", "A3 06 02 0006"),
            ("S C 300;", "A3 06 02 012C"),
            ("S C [MW 2];", "A3 07 02 83 0002"),
            ("S C [LW 4];", "A3 07 02 86 0004"),
            ("S C [DBW 6];", "A3 07 02 84 0006"),
            ("S C [DIW 8];", "A3 07 02 85 0008"),
            ("R I 0.0;", "A4 02 81 01 0000 00"),
            ("R Q 4.1;", "A4 02 82 01 0004 01"),
            ("R M 300.7;", "A4 02 83 01 012C 07"),
            ("R DBX 2.3;", "A4 02 84 01 0002 03"),
            ("R DIX 65535.4;", "A4 02 85 01 FFFF 04"),
            ("R L 20.5;", "A4 02 86 01 0014 05"),
            ("R I [DBD 0];", "A4 03 81 01 84 0000"),
            ("R Q [DID 4];", "A4 03 82 01 85 0004"),
            ("R M [MD 300];", "A4 03 83 01 83 012C"),
            ("R DBX [LD 6];", "A4 03 84 01 86 0006"),
            ("R DIX [DBD 8];", "A4 03 85 01 84 0008"),
            ("R L [DID 10];", "A4 03 86 01 85 000A"),
            ("R DIX [AR1, P#0.1];", "A4 04 85 01 01 00000001"),
            ("R L [AR2, P#1.0];", "A4 04 86 01 02 00000008"),
            ("R [AR1, P#1.1];", "A4 04 00 01 01 00000009"),
            ("R [AR2, P#1.2];", "A4 04 00 01 02 0000000A"),
            ("R T 5;", "A4 06 01 0005"),
            ("R C 6;", "A4 06 02 0006"),
            ("R T [MW 2];", "A4 07 01 83 0002"),
            ("R T [LW 4];", "A4 07 01 86 0004"),
            ("R C [DBW 6];", "A4 07 02 84 0006"),
            ("R C [DIW 8];", "A4 07 02 85 0008"),
        ],
    ),
    (
        11,
        SYMBOLIC,
        [
            ('S "Lamp";', "A3 02 82 01 0004 03"),
            ('S "Parts";', "A3 06 02 0006"),
            ('R "Mark";', "A4 02 83 01 012C 07"),
            ('R "Delay";', "A4 06 01 0005"),
            ('R "Parts";', "A4 06 02 0006"),
        ],
    ),
    (
        11,
        FUNCTION,
        [("S #out_bit;", "A3 05 04 01"), ("S #io_bit;", "A3 05 08 01"), ("R #out_bit;", "A4 05 04 01"), ("R #io_bit;", "A4 05 08 01")],
    ),
    (11, BLOCK, [("S #in_bit;", "A3 02 85 01 0000 00"), ("R #stat_next;", "A4 02 85 01 0018 01")]),
    (
        12,
        OB,
        [
            ("FP I 0.0;", "A5 02 81 01 0000 00"),
            ("FP Q 4.1;", "A5 02 82 01 0004 01"),
            ("FP M 300.7;", "A5 02 83 01 012C 07"),
            ("FP DBX 2.3;", "A5 02 84 01 0002 03"),
            ("FP DIX 65535.4;", "A5 02 85 01 FFFF 04"),
            ("FP L 20.5;", "A5 02 86 01 0014 05"),
            ("FP M [MD 0];", "A5 03 83 01 83 0000"),
            ("FP I [LD 4];", "A5 03 81 01 86 0004"),
            ("FP DBX [AR1, P#0.1];", "A5 04 84 01 01 00000001"),
            ("FP [AR2, P#1.0];", "A5 04 00 01 02 00000008"),
            ("FN I 0.0;", "A6 02 81 01 0000 00"),
            ("FN Q 4.1;", "A6 02 82 01 0004 01"),
            ("FN M 300.7;", "A6 02 83 01 012C 07"),
            ("FN DBX 2.3;", "A6 02 84 01 0002 03"),
            ("FN DIX 65535.4;", "A6 02 85 01 FFFF 04"),
            ("FN L 20.5;", "A6 02 86 01 0014 05"),
            ("FN DBX [DBD 0];", "A6 03 84 01 84 0000"),
            ("FN L [DID 4];", "A6 03 86 01 85 0004"),
            ("FN M [AR2, P#0.1];", "A6 04 83 01 02 00000001"),
            ("FN [AR1, P#1.0];", "A6 04 00 01 01 00000008"),
        ],
    ),
    (12, SYMBOLIC, [('FP "Mark";', "A5 02 83 01 012C 07"), ('FN "Mark";', "A6 02 83 01 012C 07")]),
    (
        12,
        FUNCTION,
        [("FP #out_bit;", "A5 05 04 01"), ("FP #io_bit;", "A5 05 08 01"), ("FN #out_bit;", "A6 05 04 01"), ("FN #io_bit;", "A6 05 08 01")],
    ),
    (12, BLOCK, [("FP #stat_bit;", "A5 02 85 01 0018 00"), ("FN #stat_next;", "A6 02 85 01 0018 01")]),
    (13, OB, [("SET;", "A7 00"), ("CLR;", "A8 00"), ("NOT;", "A9 00"), ("SAVE;", "AA 00")]),
    (
        14,
        OB,
        [
            ("LC T 5;", "AB 06 01 0005"),
            ("LC C 300;", "AB 06 02 012C"),
            ("LC T [MW 2];", "AB 07 01 83 0002"),
            ("LC T [LW 4];", "AB 07 01 86 0004"),
            ("LC C [DBW 6];", "AB 07 02 84 0006"),
            ("LC C [DIW 300];", "AB 07 02 85 012C"),
        ],
    ),
    (14, SYMBOLIC, [('LC "Delay";', "AB 06 01 0005"), ('LC "Parts";', "AB 06 02 0006")]),
    (15, OB, [("L STW;", "AC 00"), ("T STW;", "AD 00")]),
    (16, OB, [("L DBLG;", "AE 01 00000000"), ("L DBNO;", "AE 01 00000001"), ("L DILG;", "AE 01 00000002"), ("L DINO;", "AE 01 00000003")]),
    (
        17,
        OB,
        [
            ("LAR1;", "B0 00"),
            ("LAR1 P#0.0;", "B0 01 00000000"),
            ("LAR1 P#10.3;", "B0 01 00000053"),
            ("LAR1 P#M 10.3;", "B0 01 83000053"),
            ("LAR1 P#DBX 65535.7;", "B0 01 8407FFFF"),
            ("LAR1 ID 0;", "B0 02 81 04 0000 00"),
            ("LAR1 QD 4;", "B0 02 82 04 0004 00"),
            ("LAR1 MD 300;", "B0 02 83 04 012C 00"),
            ("LAR1 DBD 8;", "B0 02 84 04 0008 00"),
            ("LAR1 DID 12;", "B0 02 85 04 000C 00"),
            ("LAR1 LD 20;", "B0 02 86 04 0014 00"),
            ("LAR1 PID 256;", "B0 02 80 04 0100 00"),
            ("LAR2;", "B1 00"),
            ("LAR2 P#20.0;", "B1 01 000000A0"),
            ("LAR2 P#I 0.0;", "B1 01 81000000"),
            ("LAR2 P#Q 1.0;", "B1 01 82000008"),
            ("LAR2 P#DIX 2.0;", "B1 01 85000010"),
            ("LAR2 P#L 3.0;", "B1 01 86000018"),
            ("LAR2 ID 0;", "B1 02 81 04 0000 00"),
            ("LAR2 QD 4;", "B1 02 82 04 0004 00"),
            ("LAR2 MD 300;", "B1 02 83 04 012C 00"),
            ("LAR2 DBD 8;", "B1 02 84 04 0008 00"),
            ("LAR2 DID 12;", "B1 02 85 04 000C 00"),
            ("LAR2 LD 20;", "B1 02 86 04 0014 00"),
            ("LAR2 PID 256;", "B1 02 80 04 0100 00"),
        ],
    ),
    (17, SYMBOLIC, [('LAR1 "Total";', "B0 02 83 04 03E8 00"), ('LAR2 "Total";', "B1 02 83 04 03E8 00")]),
    (17, FUNCTION, [("LAR1 #temp_dword;", "B0 02 86 04 0004 00"), ("LAR2 #temp_dword;", "B1 02 86 04 0004 00")]),
    (17, BLOCK, [("LAR1 #in_dword;", "B0 02 85 04 0004 00"), ("LAR2 #stat_dword;", "B1 02 85 04 001C 00")]),
    (
        18,
        OB,
        [
            ("TAR1;", "B2 00"),
            ("TAR1 ID 0;", "B2 02 81 04 0000 00"),
            ("TAR1 QD 4;", "B2 02 82 04 0004 00"),
            ("TAR1 MD 300;", "B2 02 83 04 012C 00"),
            ("TAR1 DBD 8;", "B2 02 84 04 0008 00"),
            ("TAR1 DID 12;", "B2 02 85 04 000C 00"),
            ("TAR1 LD 20;", "B2 02 86 04 0014 00"),
            ("TAR1 PQD 260;", "B2 02 80 04 0104 00"),
            ("TAR2;", "B3 00"),
            ("TAR2 ID 0;", "B3 02 81 04 0000 00"),
            ("TAR2 QD 4;", "B3 02 82 04 0004 00"),
            ("TAR2 MD 300;", "B3 02 83 04 012C 00"),
            ("TAR2 DBD 8;", "B3 02 84 04 0008 00"),
            ("TAR2 DID 12;", "B3 02 85 04 000C 00"),
            ("TAR2 LD 20;", "B3 02 86 04 0014 00"),
            ("TAR2 PQD 260;", "B3 02 80 04 0104 00"),
        ],
    ),
    (18, SYMBOLIC, [('TAR1 "Total";', "B2 02 83 04 03E8 00"), ('TAR2 "Total";', "B3 02 83 04 03E8 00")]),
    (18, FUNCTION, [("TAR1 #temp_dword;", "B2 02 86 04 0004 00"), ("TAR2 #temp_dword;", "B3 02 86 04 0004 00")]),
    (18, BLOCK, [("TAR1 #out_dword;", "B2 02 85 04 000C 00"), ("TAR2 #stat_dword;", "B3 02 85 04 001C 00")]),
    (19, OB, [("LAR1 AR2;", "B4 00"), ("TAR1 AR2;", "B5 00"), ("CAR;", "B6 00")]),
    (
        20,
        OB,
        [
            ("+AR1;", "B7 00"),
            ("+AR1 P#2.0;", "B7 01 00000010"),
            ("+AR1 P#65535.7;", "B7 01 0007FFFF"),
            ("+AR1 P#M 2.0;", "B7 01 83000010"),
            ("+AR2;", "B8 00"),
            ("+AR2 P#0.1;", "B8 01 00000001"),
            ("+AR2 P#4096.0;", "B8 01 00008000"),
            ("+AR2 P#L 0.1;", "B8 01 86000001"),
        ],
    ),
    (21, OB, [("TAK;", "B9 00"), ("PUSH;", "BA 00"), ("POP;", "BB 00"), ("CAW;", "BC 00"), ("CAD;", "BD 00")]),
    (
        22,
        OB,
        [
            ("INC 0;", "BE 01 00000000"),
            ("INC 5;", "BE 01 00000005"),
            ("INC 255;", "BE 01 000000FF"),
            ("DEC 0;", "BF 01 00000000"),
            ("DEC 16;", "BF 01 00000010"),
            ("DEC 255;", "BF 01 000000FF"),
        ],
    ),
    (
        23,
        OB,
        [
            ("+I;", "C1 00"),
            ("-I;", "C2 00"),
            ("*I;", "C3 00"),
            ("/I;", "C4 00"),
            ("+D;", "C5 00"),
            ("-D;", "C6 00"),
            ("*D;", "C7 00"),
            ("/D;", "C8 00"),
            ("MOD;", "C9 00"),
        ],
    ),
    (24, OB, [("==I;", "CA 00"), ("<>I;", "CB 00"), (">I;", "CC 00"), ("<I;", "CD 00"), (">=I;", "CE 00"), ("<=I;", "CF 00")]),
    (25, OB, [("==D;", "D0 00"), ("<>D;", "D1 00"), (">D;", "D2 00"), ("<D;", "D3 00"), (">=D;", "D4 00"), ("<=D;", "D5 00")]),
    (
        26,
        OB,
        [
            ("BTI;", "D6 00"),
            ("ITB;", "D7 00"),
            ("BTD;", "D8 00"),
            ("DTB;", "D9 00"),
            ("ITD;", "DA 00"),
            ("INVI;", "DB 00"),
            ("INVD;", "DC 00"),
            ("NEGI;", "DD 00"),
            ("NEGD;", "DE 00"),
        ],
    ),
    (
        27,
        OB,
        [
            ("AW;", "DF 00"),
            ("AW W#16#FF0F;", "DF 01 0000FF0F"),
            ("AW 65535;", "DF 01 0000FFFF"),
            ("AW 2#1_0000_0001;", "DF 01 00000101"),
            ("AW C#999;", "DF 01 00000999"),
            ("AW S5T#10S;", "DF 01 00001100"),
            ("AW 'ab';", "DF 01 00006162"),
            ("OW;", "E0 00"),
            ("OW W#16#8000;", "E0 01 00008000"),
            ("OW 0;", "E0 01 00000000"),
            ("XOW;", "E1 00"),
            ("XOW W#16#1;", "E1 01 00000001"),
            ("XOW 256;", "E1 01 00000100"),
        ],
    ),
    (
        28,
        OB,
        [
            ("AD;", "E2 00"),
            ("AD DW#16#FF00FF00;", "E2 01 FF00FF00"),
            ("AD 2#10000000_00000000_00000000_00000000;", "E2 01 80000000"),
            ("AD 'abcd';", "E2 01 61626364"),
            ("OD;", "E3 00"),
            ("OD DW#16#1;", "E3 01 00000001"),
            ("OD 2#101;", "E3 01 00000005"),
            ("XOD;", "E4 00"),
            ("XOD DWORD#16#FFFF_FFFF;", "E4 01 FFFFFFFF"),
        ],
    ),
    (
        29,
        OB,
        [
            ("SSI;", "E5 00"),
            ("SSI 0;", "E5 01 00000000"),
            ("SSI 15;", "E5 01 0000000F"),
            ("SLW;", "E7 00"),
            ("SLW 4;", "E7 01 00000004"),
            ("SLW 15;", "E7 01 0000000F"),
            ("SRW;", "E8 00"),
            ("SRW 1;", "E8 01 00000001"),
            ("SRW 15;", "E8 01 0000000F"),
        ],
    ),
    (
        30,
        OB,
        [
            ("SSD;", "E6 00"),
            ("SSD 0;", "E6 01 00000000"),
            ("SSD 32;", "E6 01 00000020"),
            ("SLD;", "E9 00"),
            ("SLD 16;", "E9 01 00000010"),
            ("SLD 32;", "E9 01 00000020"),
            ("SRD;", "EA 00"),
            ("SRD 31;", "EA 01 0000001F"),
            ("SRD 32;", "EA 01 00000020"),
            ("RLD;", "EB 00"),
            ("RLD 8;", "EB 01 00000008"),
            ("RLD 32;", "EB 01 00000020"),
            ("RRD;", "EC 00"),
            ("RRD 1;", "EC 01 00000001"),
            ("RRD 32;", "EC 01 00000020"),
        ],
    ),
    (31, OB, [("RLDA;", "ED 00"), ("RRDA;", "EE 00")]),
    # Each jump, backward and forward: a target is the offset of the first op of a statement in the code.
    (
        32,
        OB,
        [
            ("x: JU x;", "EF 08 00 00000000"),
            ("SET; | x: JC x;", "A7 00 | EF 08 02 00000002"),
            ("SET; | x: JCN x;", "A7 00 | EF 08 03 00000002"),
            ("SET; | x: JCB x;", "A7 00 | EF 08 04 00000002"),
            ("SET; | x: JNB x;", "A7 00 | EF 08 05 00000002"),
            ("SET; | x: JBI x;", "A7 00 | EF 08 06 00000002"),
            ("SET; | x: JNBI x;", "A7 00 | EF 08 07 00000002"),
            ("JO x; | SET; | x: CLR;", "EF 08 08 00000009 | A7 00 | A8 00"),
            ("JOS x; | SET; | x: CLR;", "EF 08 09 00000009 | A7 00 | A8 00"),
            ("JZ x; | SET; | x: CLR;", "EF 08 0A 00000009 | A7 00 | A8 00"),
            ("JN x; | SET; | x: CLR;", "EF 08 0B 00000009 | A7 00 | A8 00"),
            ("JP x; | SET; | x: CLR;", "EF 08 0C 00000009 | A7 00 | A8 00"),
            ("JM x; | SET; | x: CLR;", "EF 08 0D 00000009 | A7 00 | A8 00"),
            ("JPZ x; | SET; | x: CLR;", "EF 08 0E 00000009 | A7 00 | A8 00"),
            ("JMZ x; | SET; | x: CLR;", "EF 08 0F 00000009 | A7 00 | A8 00"),
            ("JUO x; | SET; | x: CLR;", "EF 08 10 00000009 | A7 00 | A8 00"),
            ("L 5; | _001: T MW 0; | LOOP _001;", "A0 01 00000005 | A1 02 83 03 0000 00 | EF 08 11 00000006"),
            # lists of JL: of two, with the next statement behind them; of one, whose label stands at a JU; of none
            (
                "JL more; | JU a; | JU b; | more: JU c; | a: NOP 0; | b: SET; | c: CLR;",
                "EF 08 01 00000015 | EF 08 00 0000001C | EF 08 00 00000022 | EF 08 00 00000024 | 81 01 00000000 | A7 00 | A8 00",
            ),
            ("a: JL x; | JU a; | x: JU x;", "EF 08 01 0000000E | EF 08 00 00000000 | EF 08 00 0000000E"),
            ("JL x; | x: SET;", "EF 08 01 00000007 | A7 00"),
            # labels with and without case, which are two; a jump inside of brackets and of a zone
            ("JU A; | a: SET; | A: CLR;", "EF 08 00 00000009 | A7 00 | A8 00"),
            ("A(; | JC x; | x: A M 0.0; | );", "98 00 | EF 08 02 00000009 | 90 02 83 01 0000 00 | 9E 00"),
            ("MCR(; | JU x; | x: SET; | )MCR;", "87 00 | EF 08 00 00000009 | A7 00 | 88 00"),
            # targets of two and three bytes
            ("JU x; | " + 50 * "NOP 0; | " + "x: SET;", "EF 08 00 00000133 | " + 50 * "81 01 00000000 | " + "A7 00"),
            ("JC x; | " + 11000 * "NOP 1; | " + "x: CLR;", "EF 08 02 000101D7 | " + 11000 * "81 01 00000001 | " + "A8 00"),
        ],
    ),
    # A target whose statement opens a data block, or passes parameters: its first op.
    (
        32,
        CALLER,
        [
            ("JU x; | SET; | x: L DB300.DBW 2; | JZ x;", "EF 08 00 00000009 | A7 00 | 02 0A 012C, A0 02 84 03 0002 00 | EF 08 0A 00000009"),
            (
                "JC y; | CALL FB 769, DB 261 (in_bool := TRUE, in_int := 5); | y: CLR;",
                "EF 08 02 0000001E | 04 0B 00 01 00000001, 04 0B 04 01 00000005, F8 0D 03 0301 0105 | A8 00",
            ),
            ("y: CALL FB 769, DB 261 (in_int := 5); | JCN y;", "04 0B 04 01 00000005, F8 0D 03 0301 0105 | EF 08 03 00000000"),
        ],
    ),
    (
        33,
        OB,
        [
            ("SP T 5;", "F0 06 01 0005"),
            ("SP T 300;", "F0 06 01 012C"),
            ("SP T [MW 2];", "F0 07 01 83 0002"),
            ("SP T [LW 4];", "F0 07 01 86 0004"),
            ("SE T 5;", "F1 06 01 0005"),
            ("SE T [LW 40];", "F1 07 01 86 0028"),
            ("SD T 5;", "F2 06 01 0005"),
            ("SD T [DBW 300];", "F2 07 01 84 012C"),
            ("SS T 5;", "F3 06 01 0005"),
            ("SS T [DIW 8];", "F3 07 01 85 0008"),
            ("SF T 65535;", "F4 06 01 FFFF"),
            ("SF T [MW 10];", "F4 07 01 83 000A"),
            ("FR T 5;", "F5 06 01 0005"),
            ("FR C 6;", "F5 06 02 0006"),
            ("FR T [MW 2];", "F5 07 01 83 0002"),
            ("FR T [LW 4];", "F5 07 01 86 0004"),
            ("FR C [DBW 6];", "F5 07 02 84 0006"),
            ("FR C [DIW 8];", "F5 07 02 85 0008"),
        ],
    ),
    (33, SYMBOLIC, [('SD "Delay";', "F2 06 01 0005"), ('FR "Delay";', "F5 06 01 0005"), ('FR "Parts";', "F5 06 02 0006")]),
    (
        34,
        OB,
        [
            ("CU C 6;", "F6 06 02 0006"),
            ("CU C 300;", "F6 06 02 012C"),
            ("CU C [MW 2];", "F6 07 02 83 0002"),
            ("CU C [LW 4];", "F6 07 02 86 0004"),
            ("CD C 6;", "F7 06 02 0006"),
            ("CD C 65535;", "F7 06 02 FFFF"),
            ("CD C [DBW 6];", "F7 07 02 84 0006"),
            ("CD C [DIW 8];", "F7 07 02 85 0008"),
        ],
    ),
    (34, SYMBOLIC, [('CU "Parts";', "F6 06 02 0006"), ('CD "Parts";', "F7 06 02 0006")]),
    # Calls that pass nothing.
    (
        35,
        CALLER,
        [
            ("CALL FC 516;", "F8 0D 02 0204 0000"),
            ("CALL FB 769, DB 261;", "F8 0D 03 0301 0105"),
            ("CALL FB 770, DB 262;", "F8 0D 03 0302 0106"),
            ("CALL SFC 43;", "F8 0D 05 002B 0000"),
            ("CALL SFC 46;", "F8 0D 05 002E 0000"),
            ("UC FC 516;", "F9 0D 02 0204 0000"),
            ("UC FB 770;", "F9 0D 03 0302 0000"),
            ("UC SFC 43;", "F9 0D 05 002B 0000"),
            ("CC FC 516;", "FA 0D 02 0204 0000"),
            ("CC FB 770;", "FA 0D 03 0302 0000"),
            ("CC SFC 46;", "FA 0D 05 002E 0000"),
        ],
    ),
    (
        35,
        SYMBOLIC,
        [
            ('CALL "Fill";', "F8 0D 02 0002 0000"),
            ('CALL "Mixer", "Mixer 1";', "F8 0D 03 0003 0004"),
            ('CALL FB 3, "Mixer 1";', "F8 0D 03 0003 0004"),
            ('UC "Fill";', "F9 0D 02 0002 0000"),
            ('CC "Fill";', "FA 0D 02 0002 0000"),
        ],
    ),
    # A block that calls itself.
    (35, PLAIN, [("CALL FC 2047;", "F8 0D 02 07FF 0000"), ("UC FC 2047;", "F9 0D 02 07FF 0000"), ("CC FC 2047;", "FA 0D 02 07FF 0000")]),
    (36, OB, [("BE;", "FB 00"), ("BEC;", "FC 00"), ("BEU;", "FD 00"), ("BEU; | SET; | BE; | CLR;", "FD 00 | A7 00 | FB 00 | A8 00")]),
    (36, BLOCK, [("BEC;", "FC 00"), ("BEU;", "FD 00"), ("BE;", "FB 00")]),
    (
        37,
        CALLER,
        [
            ("OPN DB 300;", "FE 0E 01 012C"),
            ("OPN DB 261;", "FE 0E 01 0105"),
            ("OPN DI 300;", "FE 0E 02 012C"),
            ("OPN DI 262;", "FE 0E 02 0106"),
            ("OPN DB [MW 2];", "FE 0F 01 83 0002"),
            ("OPN DB [LW 4];", "FE 0F 01 86 0004"),
            ("OPN DB [DBW 300];", "FE 0F 01 84 012C"),
            ("OPN DB [DIW 8];", "FE 0F 01 85 0008"),
            ("OPN DI [MW 10];", "FE 0F 02 83 000A"),
            ("OPN DI [LW 40];", "FE 0F 02 86 0028"),
            ("OPN DI [DBW 14];", "FE 0F 02 84 000E"),
            ("OPN DI [DIW 65535];", "FE 0F 02 85 FFFF"),
            ("CDB;", "FF 00"),
        ],
    ),
    (37, SYMBOLIC, [('OPN "Recipe";', "FE 0E 01 012C"), ('OPN "Mixer 1";', "FE 0E 01 0004")]),
]

# Ops that no source gives, in a block that is put together here and read alone: bits of P, pointers and offsets beyond every place, data blocks that
# aren't there, calls of function blocks with and without instance, a jump to the op that returns.
UNWRITTEN = [
    (2, CALLER, "02 0A 0000, A0 02 84 03 0002 00 | 02 0A FFFF, B3 02 84 04 FFFF 00"),
    (3, CALLER, "04 0B 07 01 00000001, 04 0B 10 0C FFFF 84 04 0000 00, F8 0D 03 0301 0105 | 04 0B 00 02 80 01 0000 07, F8 0D 03 0301 0105"),
    (5, OB, "90 02 80 01 0000 00 | 91 02 80 01 FFFF 07 | 92 02 80 01 0001 01 | 93 02 80 01 0001 02 | 94 02 80 01 0001 03 | 95 02 80 01 0001 04"),
    (5, OB, "90 04 83 01 01 FFFFFFFF | 95 04 00 01 02 80000000"),
    (9, OB, "A1 04 86 04 02 FFFFFFFF"),
    (10, OB, "A2 02 80 01 0000 01"),
    (11, OB, "A3 02 80 01 0000 02 | A4 02 80 01 0000 03"),
    (12, OB, "A5 02 80 01 0000 04 | A6 02 80 01 0000 05"),
    (17, OB, "B0 01 FFFFFFFF | B1 01 80000000"),
    (20, OB, "B7 01 FFFFFFFF | B8 01 00080000"),
    (32, OB, "EF 08 00 00000007"),
    (35, CALLER, "F8 0D 03 0302 0000 | F8 0D 03 0302 0105 | F9 0D 03 0301 0105 | FA 0D 03 0302 0106"),
    (37, OB, "FE 0E 01 0000 | FE 0E 02 FFFF"),
]

# The table of codes: a line's number, codes of it, and how their forms and payloads begin. Each code has a row for each beginning.
FIXED = "0281 0282 0283 0284 0285 0286"
BIT = f"{FIXED} 03 0400 048 05"
TIMER, COUNTER = "0601 0701", "0602 0702"
OP_TABLE = [
    (1, "01 03", "01"),
    (2, "02", "0A"),
    (3, "04", "0B"),
    (4, "05 06 07 08", "00"),
    (5, "10 11 12 13 14 15", f"{BIT} {TIMER} {COUNTER} 09"),
    (6, "16", "00"),
    (7, "17 40", "01"),
    (8, "18 19 1A 1B 1C 1D 1E", "00"),
    (9, "20", f"01 0280 {BIT} {TIMER} {COUNTER}"),
    (9, "21", f"0280 {BIT}"),
    (10, "22", BIT),
    (11, "23", f"{BIT} {COUNTER}"),
    (11, "24", f"{BIT} {TIMER} {COUNTER}"),
    (12, "25 26", BIT),
    (13, "27 28 29 2A", "00"),
    (14, "2B", f"{TIMER} {COUNTER}"),
    (15, "2C 2D", "00"),
    (16, "2E", "0100000000 0100000001 0100000002 0100000003"),
    (17, "30 31", f"00 01 0280 {FIXED}"),
    (18, "32 33", f"00 0280 {FIXED}"),
    (19, "34 35 36", "00"),
    (20, "37 38", "00 01"),
    (21, "39 3A 3B 3C 3D", "00"),
    (22, "3E 3F", "01"),
    (23, "41 42 43 44 45 46 47 48 49", "00"),
    (24, "4A 4B 4C 4D 4E 4F", "00"),
    (25, "50 51 52 53 54 55", "00"),
    (26, "56 57 58 59 5A 5B 5C 5D 5E", "00"),
    (27, "5F 60 61", "00 01"),
    (28, "62 63 64", "00 01"),
    (29, "65 67 68", "00 01"),
    (30, "66 69 6A 6B 6C", "00 01"),
    (31, "6D 6E", "00"),
    (32, "6F", "0800 0801 0802 0803 0804 0805 0806 0807 0808 0809 080A 080B 080C 080D 080E 080F 0810 0811"),
    (33, "70 71 72 73 74", TIMER),
    (33, "75", f"{TIMER} {COUNTER}"),
    (34, "76 77", COUNTER),
    (35, "78 79 7A", "0D02 0D03 0D05"),
    (36, "7B 7C 7D", "00"),
    (37, "7E", "0E01 0E02 0F01 0F02"),
    (37, "7F", "00"),
]

# What operands have a row, by form: bytes of the payload, counted from 0, and the values that they have, each with each.
PLACES = "81 82 83 84 85 86"
POINTERS = "83 84 85 86"
WIDTHS = "01 02 03 04"
OPERANDS = [
    ("02", (0, 1), (PLACES, WIDTHS)),
    ("02", (0, 1), ("80", "02 03 04")),
    ("02", (4,), ("00 01 02 03 04 05 06 07",)),
    ("03", (0, 1), (PLACES, WIDTHS)),
    ("03", (0, 2), (PLACES, POINTERS)),
    ("04", (0, 1), ("00 " + PLACES, WIDTHS)),
    ("04", (0, 2), ("00 " + PLACES, "01 02")),
    ("05", (1,), (WIDTHS,)),
    ("07", (0, 1), ("01 02", POINTERS)),
    ("09", (0,), ("01 02 03 04 05 06 07 08 09 0A",)),
    ("0B", (1,), ("01 05 0C",)),
    ("0B", (1, 2), ("02", "80 " + PLACES)),
    ("0F", (0, 1), ("01 02", POINTERS)),
]

# How many bytes a width takes.
BYTES = {1: 1, 2: 1, 3: 2, 4: 4}


def ops_of(text):
    """The ops of each statement."""
    return [[bytes.fromhex(op) for op in statement.split(",")] for statement in text.split(" | ")]


def all_ops(number):
    """The ops of the rows with a number."""
    return [op for line, _, rows in ROWS if line == number for _, text in rows for statement in ops_of(text) for op in statement]


def local_end(op):
    """Where a fixed place in L ends, as an operand or as what is passed, or 0."""
    fixed = op[2:] if op[1] == 0x02 else op[4:] if op[1] == 0x0B and op[3] == 0x02 else b""
    return int.from_bytes(fixed[2:4], "big") + BYTES[fixed[1]] if fixed[:1] == b"\x86" else 0


def image_at(place, statements, lines):
    """The image of a place in which these statements stand, and the one that returns."""
    ops = [op for statement in statements for op in statement]
    local_bytes = max(place.local_bytes, *map(local_end, ops))
    block = code_block(
        place.kind, place.number, place.params, local_bytes + local_bytes % 2, place.instance_bytes, b"".join(ops) + RETURN, lines
    )
    return image_of([block, *place.blocks], place.data_blocks, place.names)


def compiled(number, place, text, ops):
    """A case of a row."""
    statements, wanted = text.split(" | "), ops_of(ops)
    if len(statements) != len(wanted):
        raise ValueError(f"{text}: {len(statements)} statements, and ops of {len(wanted)}")
    front = place.front + place.head
    files = {"source": front + "\n".join(statements) + "\n" + ENDS[place.kind]}
    words = "compile source image"
    if place.symbols:
        files["symbols"] = place.symbols
        words += " --symbols symbols"
    first = front.count("\n") + 1
    image = image_at(place, wanted, range(first, first + len(statements) + 1))
    calls = [Call(words, 0, "OK\n", {"image": image}), Call("upgrade image again", 0, "OK\n", {"again": image})]
    return Case(f"line {number} {place.name}: {text[:80]}", files, calls)


def unwritten(number, place, ops):
    """A case of ops that no source gives."""
    image = image_at(place, ops_of(ops), range(1, len(ops_of(ops)) + 2))
    return Case(f"line {number} without a source: {ops[:80]}", {"image": image}, [Call("upgrade image again", 0, "OK\n", {"again": image})])


def codes_have_rows(_):
    """Each code stands in a row of its line with each beginning of its operand, and no row has an op that begins in no such way."""
    found = {line: {(f"{op[0] & 0x7F:02X}", op[1:].hex().upper()) for op in all_ops(line)} for line, _, _ in ROWS}
    wanted = [(line, code, begin) for line, codes, begins in OP_TABLE for code, begin in product(codes.split(), begins.split())]
    for line, code, begin in wanted:
        if not any(known == code and rest.startswith(begin) for known, rest in found.get(line, ())):
            raise Differs(f"no row of line {line} has code {code} with {begin}")
    for code, rest in set().union(*found.values()):
        if not any(known == code and rest.startswith(begin) for _, known, begin in wanted):
            raise Differs(f"rows have code {code} with {rest}, which the table lacks")


def operands_have_rows(_):
    """Each area, width, bit, register and condition stands in a row, and what is passed in each form."""
    ops = [op for line in sorted({line for line, _, _ in ROWS}) for op in all_ops(line)]
    for form, places, values in OPERANDS:
        found = {tuple(op[2 + place] for place in places) for op in ops if op[1] == int(form, 16)}
        for wanted in product(*map(bytes.fromhex, values)):
            if wanted not in found:
                raise Differs(f"no row has form {form} with {bytes(wanted).hex().upper()} in the bytes {places} of its payload")


CASES = [
    Case("codes and forms", {}, codes_have_rows),
    Case("operands", {}, operands_have_rows),
    *[compiled(number, place, text, ops) for number, place, rows in ROWS for text, ops in rows],
    *[unwritten(*row) for row in UNWRITTEN],
]
