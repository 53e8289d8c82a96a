//! Where the age of a cell shows (paper 02, A5).

use super::Part;

events! {
    Ageing;
    AgedGaf0 "GAF 0 with a quotient above 0, where GAF 1 would show" Lists Gauges,
    AgedGaf1 "age shows with GAF 1" Lists Gauges,
    AgedGaf2 "age shows with GAF 2" Lists Gauges,
    AgedGaf3 "age shows with GAF 3" Lists Gauges,
    AgedCac "age shows in CAC" Lists Gauges,
    AgedFcac "age shows in FCAC" Lists Gauges,
    AgedTte "age shows in TTE" Lists Gauges,
    AgedArtte "age shows in ARTTE" Lists Gauges,
    AgedCacToZero "age brings CAC to 0" Lists Gauges,
    AgedFcacToZero "age brings FCAC to 0" Lists Gauges,
    AgedFixedDcomp "age shows with DCOMP taken as 0x6C" Lists Gauges,
    AgedCold "age shows below 4 × (273 + TOFF)" Lists Gauges,
    AgedUnmeasured "age shows with TEMP not measured yet" Gauges,
    AgedFloored "one ceiling; ADCGN rounded down by itself would show" Lists Gauges,
    AgedCeiled "one ceiling; ADCGN rounded up by itself would show" Lists Gauges,
    AgedOffset "DCOFF untouched; an aged one would show" Lists Gauges,
    AgedQuotient "whole quotient of CYCT / 16; its fraction would show" Lists Gauges,
    AgedHighBits "GAF in the low bits of ID3; the two high ones would show" Lists Gauges,
    AgedAllBits "GAF in the low bits of ID3; all of them would show" Lists Gauges,
    AgedGreatest "greatest first term of DCMP" Gauges,
    AgedIn32Bits "first term of DCMP that would show if cut to 32 bits" Gauges,
    AgedIn51Bits "first term of DCMP that would show if cut to 51 bits" Gauges,
    AgeStep "cycles of a window show in the compensation after it" Lists Gauges,
}
