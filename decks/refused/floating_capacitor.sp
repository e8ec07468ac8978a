a capacitor between two nodes, neither of which is ground
V1 a 0 1
R1 a b 1k
C1 a b 1p
.IC V(b)=0
.TRAN 1p 1n
.END
