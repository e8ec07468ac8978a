EVERY CARD IN EACH OF ITS FORMS: the title is not looked at, µV ; $ included
* Sources: a value, DC, PWL, both, and one that drives its second node.
V1 a GND 1
V2 b 0 DC 500mV
V3 c gnd PWL(0 0 100p 1V)
V4 d 0 0.3 PWL 10p 1 50P,0.5 0.06N=0.75
v5 e 0 dc 2 pwl(10p -200m 20p .2 30p 200000u 40p 0)
V6 GND f 1E-1
V7 g 0 DC=-5.e-1Volts

* Resistors of 1 kohm and more.
R1 a n1 1k
R2 b n2 1000
R3 c n3 0.001Meg
r4 n1 n3 1E3ohm
R5 d n2 +.02e2K
R6 e n4 1e-9T
R7 f n4 2000000m
R8 n4 GND 0.000001G
R9 n5 n6 1000x
R10 n5 g 1000a
R11 n5 0 2000e

* Capacitors of 0.1 to 1 pF, also from ground.
C1 n1 0 1p
C2 GND n2 0.5pF
C3 n3 0 1e-12
C4 n4 0 0.001n
C5 n5 0 1e-6u
C6 n6 0 1000f
C7 n6 0 100F
C8 n7 gnd .0000001u
C9 a 0 0

* Devices, before their tables: without keys, with each key, with keys twice, and with skipped values that are no numbers.
M1 n3 n1 0 0 sw
M2 n4 c n1 nowhere LOAD
m3 n5 n6 n2 gnd sw L=0.18u W=2u AD=1p AS=1p PD=4u PS=4u NRD=1 NRS=1
M4 n7 n1 0 0 sw W=1u L=1u W=2u AD=wide
M5 n6 GND n7 0 steady
M6 n6 n6 n6 n6 by_gate
.TABLE sw GATE(0.1 0.5) DRAIN(0 0.4)
+ AMPS(0 0 0  -10u 10u 20u  -100u 100u 200u)
.TABLE load GATE() DRAIN(-0.1 0.1) AMPS(-1u 0 1u)
.table by_gate gate=0.2 drain= amps=0,5u
.TABLE steady GATE DRAIN AMPS 3u

.IC V(n1)=0.9 V(n2)=200m V(n1)=0.1
.IC v n2 -.1
.ic v(gnd)=5 V(nobody)=3
.IC
.OPTIONS RELTOL=1m NOPAGE GRAIN=100m GRAIN 20m METHOD=GEAR
.OPTION grain=(40m)
.OPTIONS
.PRINT TRAN V(n1) V(n2)
.PLOT TRAN V(n1)
.PROBE V(n1)
.SAVE all
.TRAN 1p 80p 0 2p UIC
.END
.TRAN 1p 1n
