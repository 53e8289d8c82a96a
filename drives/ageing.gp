# ageing.gp FOLDER OUT TITLE: TTE and CAC of the first and of the last round, and CYCT after each round, from the tables in FOLDER.
folder = ARG1
load folder.'/marks'
load folder.'/ageing-marks'
first = folder.'/first'; last = folder.'/last'    # hour since the round began, NAC, CAC, TTE
cycles = folder.'/cycles'                         # round, CYCT
set terminal pngcairo size 1200,700 font 'DejaVu Sans,12' linewidth 1 rounded noenhanced
set output ARG2
new = '#0072B2'; old = '#D55E00'; held = '#bbbbbb'; charger = '#f0f0f0'

# How far the axes go, before a range is set, which would leave rows out. Of rounds without a discharge there is no TTE to draw.
discharges = low_hour >= 0
minutes_top = 1
if (discharges) {
    stats first using 4 name 'minutes' nooutput
    minutes_top = 1.12 * (minutes_max > 1 ? minutes_max : 1)
}
whole = work_end
cyct_top = 1.1 * (cycles_end > 1 ? cycles_end : 1)

set multiplot
set border lc '#666666'
set grid lc '#dddddd' lt 1
unset key

# Title and legend.
set label 1 ARG3.': the time to empty of a new and of an old cell' at screen 0.5,0.965 center font ',15'
row = 0.915
set arrow 1 from screen 0.085,row to screen 0.115,row nohead lc rgb new lw 2.5
set label 2 sprintf('round 1, from CYCT %d on', cycles_before) at screen 0.12,row
set arrow 2 from screen 0.305,row to screen 0.335,row nohead lc rgb old lw 2.5
set label 3 sprintf('round %d, from CYCT %d on', rounds, cycles_last) at screen 0.34,row
set arrow 3 from screen 0.565,row to screen 0.595,row nohead lc rgb held lw 6
set label 4 'NAC of both' at screen 0.60,row
charging = ''
if (strstrt(bands, '1') > 0) {
    charging = "folder.'/bands' using ($2 - begin):($1 == 1 ? 0 : NaN):($2 - begin):($3 - begin):(0):(top) ". \
        "with boxxyerror lc rgb charger fs solid 1 noborder,"
    set object 1 rectangle from screen 0.715,row-0.014 to screen 0.74,row+0.014 fc rgb charger fs solid 1 noborder
    set label 8 'charging: no TTE, and CAC is NAC' at screen 0.745,row
}

# Left above: TTE, with its values where NAC is least.
top = minutes_top
set lmargin at screen 0.075; set rmargin at screen 0.63
set xrange [-0.01*whole:1.01*whole]
set tmargin at screen 0.865; set bmargin at screen 0.50
set format x ''
set yrange [0:top]
set label 5 'TTE (minutes)' at screen 0.015,0.68 rotate center
if (discharges) {
    before = low_hour > 0.8*whole
    set arrow 4 from low_hour,low_first to low_hour,low_last nohead lc '#000000' dt 2 lw 1 front
    set label 6 sprintf('%d minutes', low_first) at low_hour,low_first left offset (before ? -9.5 : 1.2),0 tc rgb new front
    set label 7 sprintf('%d minutes', low_last) at low_hour,low_last left offset (before ? -9.5 : 1.2),0 tc rgb old front
    plot @charging first using 1:4 with lines lc rgb new lw 2.5, last using 1:4 with lines lc rgb old lw 2.5
}
if (!discharges) { plot @charging -1 with lines }

# Left below: the counts. CAC is drawn where there is a load.
unset label; unset arrow; unset object
loaded(tte, cac) = tte == tte ? cac : NaN
top = 1.07 * greatest
set tmargin at screen 0.46; set bmargin at screen 0.10
set format x '%g'
set xlabel 'time of a round (hours)'
set yrange [0:top]; set ytics 0,2*count_tic
set label 1 'NAC, CAC (counts)' at screen 0.015,0.28 rotate center
plot @charging first using 1:2 with lines lc rgb held lw 6, last using 1:2 with lines lc rgb held lw 6, \
     first using 1:(loaded($4, $3)) with lines lc rgb new lw 2.5, last using 1:(loaded($4, $3)) with lines lc rgb old lw 2.5

# Right: the cycles.
unset label
set lmargin at screen 0.72; set rmargin at screen 0.975
set tmargin at screen 0.865; set bmargin at screen 0.10
set xrange [0:1.02*rounds]; set xtics autofreq
set yrange [0:cyct_top]; set ytics autofreq
set xlabel 'round'
set label 1 'CYCT after the round' at screen 0.668,0.48 rotate center
set label 2 sprintf('%d', cycles_end) at rounds,cycles_end right offset -1,0.6 front
plot cycles using 1:2 with lines lc '#000000' lw 2.5
unset multiplot
