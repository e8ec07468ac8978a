a node above its source: the current flows out of the second node
V1 a 0 250m
R1 a b 3k
C1 b gnd 700f
.IC V(b)=1
.OPTIONS GRAIN=50m
.TRAN 1p 4n
.END
