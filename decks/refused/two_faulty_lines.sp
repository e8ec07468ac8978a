a second source of a node, and above it a resistor whose value is too large: the least line is told
V1 a 0 1
R1 a b 2T
V2 a 0 1
C1 b 0 1p
.TRAN 1p 1n UIC
.END
