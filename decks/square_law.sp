the square law of level 1, device by device, at the beginning of the run
* KP / 2 * W / L is 100u / 0.18 for nch and 80u / 0.18 for pch. A free node's RATE is the current into it: at a drain the
* device's current with its sign turned. Between the gate voltage on and the threshold voltage there are 1.35 V.
VDD vdd 0 1.8
VON on 0 1.8
VOFF off 0 0
VTHR at_threshold 0 0.45
VABOVE above_threshold 0 0.5
VFAR far 0 20
* 1.35^2 saturated, also where the drain is just at the edge; 2 * 1.35 * 1.3 - 1.3^2 one cell below it.
M1 saturated on 0 0 nch L=0.18u W=1u
M2 edge on 0 0 nch L=0.18u W=1u
M3 below_edge on 0 0 nch L=0.18u W=1u
* 2 * 1.35 * 0.1 - 0.1^2; nothing at 0; and drain and source exchanged, 2 * 1.45 * 0.1 - 0.1^2 and 1.35^2.
M4 linear on 0 0 nch L=0.18u W=1u
M5 level on 0 0 nch L=0.18u W=1u
M6 below_source on 0 0 nch L=0.18u W=1u
M7 far_below_source off 0 0 nch L=0.18u W=1u
* Nothing up to the threshold voltage, and 0.05^2 one cell above it.
M8 not_conducting at_threshold 0 0 nch L=0.18u W=1u
M9 hardly_conducting above_threshold 0 0 nch L=0.18u W=1u
* The middle of a cell counts: 0.1 V from 0.075 V on, and 0.05 V below that. The last cell counts as 6.4 V.
M10 in_the_cell on 0 0 nch L=0.18u W=1u
M11 in_the_cell_below on 0 0 nch L=0.18u W=1u
M12 of_the_last_gate_cell far 0 0 nch L=0.18u W=1u
* The other channel, twice as wide: the same laws with every sign turned.
M13 p_saturated off vdd vdd pch L=0.18u W=2u
M14 p_linear off vdd vdd pch L=0.18u W=2u
M15 p_above_source off vdd vdd pch L=0.18u W=2u
M16 p_not_conducting on vdd vdd pch L=0.18u W=2u
* 91 A are cut to 1 A, one way and the other.
M17 cut on 0 0 strong L=1u W=1m
M18 cut_below_source off 0 0 strong L=1u W=1m
C1 saturated 0 1f
C2 edge 0 1f
C3 below_edge 0 1f
C4 linear 0 1f
C5 level 0 1f
C6 below_source 0 1f
C7 far_below_source 0 1f
C8 not_conducting 0 1f
C9 hardly_conducting 0 1f
C10 in_the_cell 0 1f
C11 in_the_cell_below 0 1f
C12 of_the_last_gate_cell 0 1f
C13 p_saturated 0 1f
C14 p_linear 0 1f
C15 p_above_source 0 1f
C16 p_not_conducting 0 1f
C17 cut 0 1f
C18 cut_below_source 0 1f
.IC V(saturated)=1.8 V(edge)=1.35 V(below_edge)=1.3 V(linear)=0.1 V(level)=0 V(below_source)=-0.1
+ V(far_below_source)=-1.8 V(not_conducting)=1.8 V(hardly_conducting)=1.8 V(in_the_cell)=0.075
+ V(in_the_cell_below)=0.074999 V(of_the_last_gate_cell)=0.1 V(p_saturated)=0 V(p_linear)=1.7
+ V(p_above_source)=1.9 V(p_not_conducting)=0 V(cut)=1.8 V(cut_below_source)=-1.8
.MODEL nch NMOS(VTO=0.45 KP=200u)
.MODEL pch PMOS(VTO=-0.45 KP=80u)
.MODEL strong NMOS(VTO=0.45 KP=0.1)
.TRAN 1p 0
.END
