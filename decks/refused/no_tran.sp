no card tells the stop, which is told at the line of .END; that b has no initial voltage comes behind
V1 a 0 1
R1 a b 1k
C1 b 0 1p
* .TRAN 1p 1n
.END
