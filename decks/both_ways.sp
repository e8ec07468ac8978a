seven ohms, so fast that the node swings past its end: a current each way, none of which divides evenly
V1 a 0 100u
R1 a b 7
C1 b 0 100f
.IC V(b)=20u
.OPTIONS GRAIN=6u
.TRAN 1p 20p
.END
