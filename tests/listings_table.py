"""Listings by hand: lines with their 12 words, texts that are none, programs that have none (02, M-105; point 18).

Words are as in document 01: A, B, C; fA, fB, fC, fpC, fpAB; MUL, JUMP, AUX; DATA. -1 stands for p - 1.
"""

LINES = (
    ("op=add a=cell:1 b=imm:2 c=fp:3", "1 2 3  0 1 0 1 0  0 0 1  0"),
    ("op=add a=imm:0 b=cell:0 c=cell:0", "0 0 0  1 0 0 0 0  0 0 1  0"),
    ("op=add a=cell:2130706432 b=cell:2130706432 c=imm:2130706432", "-1 -1 -1  0 0 1 0 0  0 0 1  0"),
    ("op=mul a=imm:10 b=imm:99 c=imm:100", "10 99 100  1 1 1 0 0  1 0 0  0"),
    ("op=mul a=cell:999999999 b=imm:1000000000 c=fp:2130706431", "999999999 1000000000 -2  0 1 0 1 0  1 0 0  0"),
    ("op=deref a=cell:5 b=imm:6 c=imm:7", "5 6 7  0 1 1 0 0  0 0 2  0"),
    ("op=deref a=cell:5 b=imm:6 c=cell:7", "5 6 7  0 1 0 0 0  0 0 2  0"),
    ("op=deref a=cell:0 b=imm:0 c=fp:0", "0 0 0  0 1 0 1 0  0 0 2  0"),
    ("op=jump a=imm:1 b=imm:4 c=fp:0", "1 4 0  1 1 0 1 0  0 1 0  0"),
    ("op=jump a=cell:1 b=cell:4 c=cell:9", "1 4 9  0 0 0 0 0  0 1 0  0"),
    ("op=xadd a=imm:1 b=imm:2 c=imm:3 be=0 n=3", "1 2 3  1 1 1 0 0  0 0 0  100"),
    ("op=xadd a=cell:1 b=imm:2 c=cell:3 be=1 n=1", "1 2 3  0 1 0 0 0  0 0 0  38"),
    ("op=xmul a=fp:1 b=fp:2 c=cell:3 be=1 n=4", "1 2 3  0 0 0 0 1  0 0 0  138"),
    ("op=xmul a=imm:1 b=cell:2 c=fp:3 be=0 n=1048576", "1 2 3  1 0 0 1 0  0 0 0  33554440"),
    ("op=xpeq a=fp:0 b=fp:0 c=fp:0 be=0 n=3", "0 0 0  0 0 0 1 1  0 0 0  112"),
    ("op=xpeq a=cell:2130706432 b=cell:2130706432 c=cell:2130706432 be=1 n=1048576",
     "-1 -1 -1  0 0 0 0 0  0 0 0  33554450"),
)

# `|` stands before the first byte that no listing has there, or at the text's end
TEXTS = (
    "|", "|\n", "|\0", "| op=add", "|OP=add", "|\ufeffop=add", "o|", "o|P", "op|", "op| =add", "op=|", "op=| add",
    "op=|sub", "op=a|", "op=ad|", "op=add|", "op=add|\n", "op=add|d", "op=add|\ta=imm:1", "op=add |",
    "op=add | a=imm:1", "op=add |b=imm:1", "op=add a|", "op=add a=|", "op=add a=|1", "op=add a=|fp:1",
    "op=add a=|Imm:1", "op=add a=i|", "op=add a=imm|", "op=add a=imm|=1", "op=add a=imm:|", "op=add a=imm:| 1",
    "op=add a=imm:|-1", "op=add a=imm:|+1", "op=add a=imm:|x", "op=add a=imm:0|", "op=add a=imm:0|0",
    "op=add a=imm:0|1", "op=add a=imm:0|x1", "op=add a=imm:1|", "op=add a=imm:1|\n", "op=add a=imm:1|,",
    "op=add a=imm:213070643|3 b=imm:1", "op=add a=imm:213070643|9", "op=add a=imm:21307064|",
    "op=add a=imm:213070644|0", "op=add a=imm:2130706432|", "op=add a=imm:2130706432|0", "op=add a=imm:999999999|9",
    "op=add a=imm:429496729|6", "op=add a=imm:1 |\n", "op=add a=imm:1 b=|fp:1", "op=add a=imm:1 b=imm:1|",
    "op=add a=imm:1 b=imm:1|\n", "op=add a=imm:1 b=imm:1 c=imm:1|", "op=add a=imm:1 b=imm:1 c=imm:1| ",
    "op=add a=imm:1 b=imm:1 c=imm:1|\r\n", "op=add a=imm:1 b=imm:1 c=imm:1| be=0 n=1\n",
    "op=add a=imm:1 b=imm:1 c=imm:1\n|\n", "op=add a=imm:1 b=imm:1 c=imm:1\n|#",
    "op=add a=imm:1 b=imm:1 c=imm:1\nop=add|", "op=mul a=|fp:1", "op=mul a=cell:1 b=|fp:1", "op=deref a=|imm:1",
    "op=deref a=|fp:1", "op=deref a=cell:1 b=|cell:1", "op=deref a=cell:1 b=|fp:1", "op=jump a=|fp:1",
    "op=jump a=imm:1 b=|fp:1", "op=jump a=imm:1 b=imm:1 c=|imm:1", "op=jump a=imm:1 b=imm:1 c=cell:1| be=0 n=1\n",
    "op=x|", "op=x|deref", "op=xp|", "op=xadd|", "op=xadd a=fp:1 b=|imm:1", "op=xadd a=fp:1 b=|cell:1",
    "op=xmul a=imm:1 b=|fp:1", "op=xpeq a=cell:1 b=|fp:1", "op=xadd a=imm:1 b=imm:1 c=imm:1|\n",
    "op=xadd a=imm:1 b=imm:1 c=imm:1 |n=1", "op=xadd a=imm:1 b=imm:1 c=imm:1 b|",
    "op=xadd a=imm:1 b=imm:1 c=imm:1 be=|", "op=xadd a=imm:1 b=imm:1 c=imm:1 be=|2 n=1\n",
    "op=xadd a=imm:1 b=imm:1 c=imm:1 be=0|", "op=xadd a=imm:1 b=imm:1 c=imm:1 be=0|0 n=1\n",
    "op=xadd a=imm:1 b=imm:1 c=imm:1 be=0|\n", "op=xadd a=imm:1 b=imm:1 c=imm:1 be=0 n=|",
    "op=xadd a=imm:1 b=imm:1 c=imm:1 be=0 n=|0\n", "op=xadd a=imm:1 b=imm:1 c=imm:1 be=0 n=1|",
    "op=xadd a=imm:1 b=imm:1 c=imm:1 be=0 n=1| \n", "op=xadd a=imm:1 b=imm:1 c=imm:1 be=0 n=104857|7\n",
    "op=xadd a=imm:1 b=imm:1 c=imm:1 be=0 n=104858|0\n", "op=xadd a=imm:1 b=imm:1 c=imm:1 be=0 n=1048576|0\n",
    "op=xadd a=imm:1 b=imm:1 c=imm:1 be=0 n=999999|9\n",
)

GOOD = "0 0 0  1 1 1 0 0  0 0 1  0"
MALFORMED = (
    "0 0 0  2 0 0 0 0  0 0 1  0", "0 0 0  0 2 0 0 0  0 0 1  0", "0 0 0  0 0 2 0 0  0 0 1  0",
    "0 0 0  0 0 0 2 0  0 0 1  0", "0 0 0  0 0 0 0 2  0 0 0  36", "0 0 0  0 0 1 1 0  0 0 1  0",
    "0 0 0  1 0 0 0 1  0 0 0  36", "0 0 0  0 1 0 0 1  0 0 0  36", "0 0 0  0 0 0 0 1  0 0 1  0",
    "0 0 0  0 0 0 0 1  1 0 0  0", "0 0 0  0 1 0 0 1  0 0 2  0", "0 0 0  0 0 0 0 1  0 1 0  0",
    "0 0 0  0 0 0 0 0  0 0 0  0", "0 0 0  0 0 0 0 0  1 0 1  0", "0 0 0  0 0 0 0 0  2 0 0  0",
    "0 0 0  0 0 0 0 0  0 2 0  0", "0 0 0  0 0 0 0 0  0 0 3  0", "0 0 0  0 0 0 0 0  0 0 2  0",
    "0 0 0  1 1 0 0 0  0 0 2  0", "0 0 0  0 0 1 0 0  0 1 0  0", "0 0 0  0 0 0 0 0  0 0 1  36",
    "0 0 0  0 0 0 0 0  1 0 0  1", "0 0 0  0 0 0 0 0  0 0 0  4", "0 0 0  0 0 0 0 0  0 0 0  32",
    "0 0 0  0 0 0 0 0  0 0 0  34", "0 0 0  0 0 0 0 0  0 0 0  37", "0 0 0  0 0 0 0 0  0 0 0  44",
    "0 0 0  0 0 0 0 0  0 0 0  33554472", "0 0 0  0 0 0 0 0  0 0 0  -1",
)
