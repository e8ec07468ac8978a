a source that is neither level nor of points
V1 a 0 PULSE(0 1 0 50p 50p 1n 2n)
R1 a b 1k
C1 b 0 1p
.IC V(b)=0
.TRAN 1p 1n
.END
