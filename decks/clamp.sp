a current source into a capacitor, and a diode that holds its voltage, each a device of a table
M1 out 0 0 0 source
M2 out 0 0 0 diode
C1 out 0 1p
.TABLE source GATE() DRAIN() AMPS(-100u)
.TABLE diode GATE() DRAIN(0.5 0.55 0.6 0.65 0.7) AMPS(0 2u 10u 40u 100u 400u)
.TRAN 1p 10n UIC
.END
