"""Instructions of draft 0.5.0 for tests/cli_translate.py, by hand from documents 000 and 02: what each becomes, or why
it is not translatable."""
from oracle import P

TOP = P - 1
PRECOMPILE, OPCODES, FLAGS, DEREF_FLAGS, DEREF_AUX, OTHER_AUX, SECOND_AUX = range(7)  # the reasons, in document 02's order

# an instruction of draft 0.5.0 (operands; flags; ADD, MUL, DEREF, JUMP, IS_PRECOMPILE, PRECOMPILE_INDEX; AUX_1, AUX_2),
# and that of draft 0.6.0 (operands; fA, fB, fC, fpC, fpAB; MUL, JUMP, AUX; DATA)
GOOD = {
    "add, cells": ((1, 2, 3, 0, 0, 0, 1, 0, 0, 0, 0, 0, 0, 0), (1, 2, 3, 0, 0, 0, 0, 0, 0, 0, 1, 0)),
    "add, A immediate": ((4, 5, 6, 1, 0, 0, 1, 0, 0, 0, 0, 0, 0, 0), (4, 5, 6, 1, 0, 0, 0, 0, 0, 0, 1, 0)),
    "add, B immediate": ((7, 8, 9, 0, 1, 0, 1, 0, 0, 0, 0, 0, 0, 0), (7, 8, 9, 0, 1, 0, 0, 0, 0, 0, 1, 0)),
    "add, C is fp": ((1, 2, TOP, 0, 0, 1, 1, 0, 0, 0, 0, 0, 0, 0), (1, 2, 0, 0, 0, 0, 1, 0, 0, 0, 1, 0)),
    "add, all flags": ((TOP, TOP, 3, 1, 1, 1, 1, 0, 0, 0, 0, 0, 0, 0), (TOP, TOP, 0, 1, 1, 0, 1, 0, 0, 0, 1, 0)),
    "mul, cells": ((1, 2, 3, 0, 0, 0, 0, 1, 0, 0, 0, 0, 0, 0), (1, 2, 3, 0, 0, 0, 0, 0, 1, 0, 0, 0)),
    "mul, A immediate": ((4, 5, TOP, 1, 0, 0, 0, 1, 0, 0, 0, 0, 0, 0), (4, 5, TOP, 1, 0, 0, 0, 0, 1, 0, 0, 0)),
    "mul, B immediate, C is fp": ((7, 8, 9, 0, 1, 1, 0, 1, 0, 0, 0, 0, 0, 0), (7, 8, 0, 0, 1, 0, 1, 0, 1, 0, 0, 0)),
    "deref to an immediate": ((1, 2, 3, 0, 1, 1, 0, 0, 1, 0, 0, 0, 1, 0), (1, 3, 2, 0, 1, 1, 0, 0, 0, 0, 2, 0)),
    "deref to a cell": ((1, 2, 3, 0, 0, 1, 0, 0, 1, 0, 0, 0, 1, 0), (1, 3, 2, 0, 1, 0, 0, 0, 0, 0, 2, 0)),
    "deref to fp": ((1, 2, 3, 0, 1, 1, 0, 0, 1, 0, 0, 0, 0, 0), (1, 3, 0, 0, 1, 0, 1, 0, 0, 0, 2, 0)),
    "deref of large operands": ((TOP, TOP - 1, TOP - 2, 0, 0, 1, 0, 0, 1, 0, 0, 0, 1, 0), (TOP, TOP - 2, TOP - 1, 0, 1, 0, 0, 0, 0, 0, 2, 0)),
    "jump, cells": ((1, 2, 3, 0, 0, 0, 0, 0, 0, 1, 0, 0, 0, 0), (1, 2, 3, 0, 0, 0, 0, 0, 0, 1, 0, 0)),
    "jump, A immediate": ((0, 5, 6, 1, 0, 0, 0, 0, 0, 1, 0, 0, 0, 0), (0, 5, 6, 1, 0, 0, 0, 0, 0, 1, 0, 0)),
    "jump, B immediate, C is fp": ((7, 8, 9, 0, 1, 1, 0, 0, 0, 1, 0, 0, 0, 0), (7, 8, 0, 0, 1, 0, 1, 0, 0, 1, 0, 0)),
    "jump, all flags": ((TOP, TOP, 0, 1, 1, 1, 0, 0, 0, 1, 0, 0, 0, 0), (TOP, TOP, 0, 1, 1, 0, 1, 0, 0, 1, 0, 0)),
}
ADD, DEREF, JUMP = (GOOD[name][0] for name in ("add, cells", "deref to an immediate", "jump, cells"))
FLAG_A, FLAG_B, FLAG_C, ADD_AT, MUL_AT, DEREF_AT, JUMP_AT, PRECOMPILE_AT, INDEX_AT, AUX_1, AUX_2 = range(3, 14)


def but(instruction, **words):
    """The instruction with some words changed, named as above."""
    changed = list(instruction)
    for name, word in words.items():
        changed[globals()[name]] = word
    return tuple(changed)


# the instruction, and each reason why it is not translatable
BAD = {
    "a precompile": (but(ADD, ADD_AT=0, PRECOMPILE_AT=1), (PRECOMPILE, OPCODES)),
    "an add that is a precompile": (but(ADD, PRECOMPILE_AT=1), (PRECOMPILE,)),
    "an index": (but(ADD, INDEX_AT=1), (PRECOMPILE,)),
    "an index above 1": (but(JUMP, INDEX_AT=2), (PRECOMPILE,)),
    "a precompile above 1": (but(ADD, PRECOMPILE_AT=TOP), (PRECOMPILE,)),
    "no opcode": (but(ADD, ADD_AT=0), (OPCODES,)),
    "nothing": ((0,) * 14, (OPCODES,)),
    "no opcode, and AUX_1": (but(ADD, ADD_AT=0, AUX_1=1), (OPCODES, OTHER_AUX)),
    "add and mul": (but(ADD, MUL_AT=1), (OPCODES,)),
    "add and jump": (but(JUMP, ADD_AT=1), (OPCODES,)),
    "deref and jump": (but(DEREF, JUMP_AT=1), (OPCODES,)),
    "all four": ((1,) * 3 + (0, 1, 1, 1, 1, 1, 1, 0, 0, 1, 0), (OPCODES,)),
    "flag A 2": (but(ADD, FLAG_A=2), (FLAGS,)),
    "flag B 2": (but(JUMP, FLAG_B=2), (FLAGS,)),
    "flag C p - 1": (but(ADD, FLAG_C=TOP), (FLAGS,)),
    "ADD 2": (but(ADD, ADD_AT=2), (OPCODES, FLAGS)),
    "MUL 2 beside an add": (but(ADD, MUL_AT=2), (OPCODES, FLAGS)),
    "DEREF 2": (but(DEREF, DEREF_AT=2), (OPCODES, FLAGS, OTHER_AUX)),
    "JUMP p - 1": (but(JUMP, JUMP_AT=TOP), (OPCODES, FLAGS)),
    "opcodes whose sum is 1 modulo p": (but(ADD, ADD_AT=2, MUL_AT=TOP), (OPCODES, FLAGS)),
    "opcodes whose sum is 1 modulo 2^32": (but(ADD, ADD_AT=2**32 + 1 - 2 * TOP, MUL_AT=TOP, JUMP_AT=TOP), (OPCODES, FLAGS)),
    "a deref's flag A 1": (but(DEREF, FLAG_A=1), (DEREF_FLAGS,)),
    "a deref's flag A 2": (but(DEREF, FLAG_A=2), (FLAGS, DEREF_FLAGS)),
    "a deref's flag C 0": (but(DEREF, FLAG_C=0), (DEREF_FLAGS,)),
    "a deref's flag B 2": (but(DEREF, FLAG_B=2), (FLAGS,)),
    "a deref's AUX_1 0 and flag B 0": (but(DEREF, FLAG_B=0, AUX_1=0), (DEREF_FLAGS,)),
    "a deref's AUX_1 2": (but(DEREF, AUX_1=2), (DEREF_AUX,)),
    "a deref's AUX_1 p - 1": (but(DEREF, AUX_1=TOP), (DEREF_AUX,)),
    "an add's AUX_1 1": (but(ADD, AUX_1=1), (OTHER_AUX,)),
    "a mul's AUX_1 2": (but(GOOD["mul, cells"][0], AUX_1=2), (OTHER_AUX,)),
    "a jump's AUX_1 1": (but(JUMP, AUX_1=1), (OTHER_AUX,)),
    "an add's AUX_2": (but(ADD, AUX_2=1), (SECOND_AUX,)),
    "a deref's AUX_2": (but(DEREF, AUX_2=TOP), (SECOND_AUX,)),
    "everything": ((2,) * 14, (PRECOMPILE, OPCODES, FLAGS, OTHER_AUX, SECOND_AUX)),
}
