rc, stopped at once
V1 a 0 1
R1 a b 1k
C1 b 0 1p
.IC V(b)=0
.OPTIONS GRAIN=100m
.TRAN 1p 0
.END
