switch
VG g 0 1
C1 d 0 1p
M1 d g 0 0 sw
.TABLE sw GATE(0.5) DRAIN(0) AMPS(0 0 0 1m)
.IC V(d)=1
.TRAN 1p 1n
.END
