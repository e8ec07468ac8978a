a node without a capacitor is told at the first card that has it
V1 a 0 1
R1 a middle 1k
R2 middle b 1k
C1 b 0 1p
C2 middle 0 0
.TRAN 1p 1n UIC
.END
