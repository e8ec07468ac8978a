the source, the resistor and the capacitor with their nodes exchanged
V1 0 a 1
R1 b a 1k
C1 gnd b 3p

.IC V(b)=0
.OPTIONS GRAIN=100m
.TRAN 1p 2n
.END
what follows is not read
