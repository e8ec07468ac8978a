a node that no source drives begins at nothing without its .IC or UIC
V1 a 0 1
R1 a b 1k
R2 b c 1k
C1 b 0 1p
C2 c 0 1p
.IC V(a)=1 V(b)=0
.TRAN 1p 1n
.END
