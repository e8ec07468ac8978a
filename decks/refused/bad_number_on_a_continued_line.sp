a fault on a continued line is told at the line where its card begins; a later line is not looked at
V1 a 0 PWL(0 0
* a comment between
+ 100p 1
+ 1mil 2)
R1 a b none
C1 b 0 1p
.TRAN 1p 1n UIC
.END
