the deck does not end, which is told at its last line
V1 a 0 1
R1 a b 1k
C1 b 0 1p
.IC V(b)=0
.TRAN 1p 1n

