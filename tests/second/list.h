/* Inside only: what the lines of a listing are made of. */
#ifndef SECOND_LIST_H
#define SECOND_LIST_H

#include "parts.h"

enum { OP_ADD, OP_MUL, OP_DEREF, OP_JUMP, OP_XADD, OP_XMUL, OP_XPEQ };

/* Modes are bits, so that several may be allowed. */
enum { IMM = 1, CELL = 2, FRAME = 4, VALUES = IMM | CELL, ANY = VALUES | FRAME };

#endif
