# compare.gp FOLDER OUT TITLE: the gauge beside one that sums rounded steps, from the tables in FOLDER.
load ARG1.'/marks'
load ARG1.'/beside-marks'
table = ARG1.'/beside'    # hour, NAC, charge held, rounded NAC, rounded charge held, true charge
set terminal pngcairo size 1200,700 font 'DejaVu Sans,12' linewidth 1 rounded noenhanced
set output ARG2
set multiplot
exact = '#0072B2'; rounded = '#D55E00'; cell = '#c8c8c8'
set border lc '#666666'
set grid lc '#dddddd' lt 1
unset key

# Title, legend and caption.
set label 1 ARG3.': the exact gauge beside one that sums rounded steps' at screen 0.5,0.965 center font ',15'
set arrow 1 from screen 0.20,0.92 to screen 0.23,0.92 nohead lc rgb exact lw 2.5
set label 2 'NAC, exact gauge' at screen 0.235,0.92
set arrow 2 from screen 0.42,0.92 to screen 0.45,0.92 nohead lc rgb rounded lw 2.5
set label 3 'NAC, sum of rounded steps' at screen 0.455,0.92
set arrow 3 from screen 0.69,0.92 to screen 0.72,0.92 nohead lc rgb cell lw 8
set label 4 'true charge of the cell' at screen 0.725,0.92
set label 5 "A simulation: the cell's true charge leaks at the gauge's own rate, and nothing is measured wrongly." \
    at screen 0.5,0.022 center font ',11' tc '#444444'

# The end of the list: three quarters of an hour before the handset goes dark, or before the last window.
until = dark < 0 ? end : dark
from = until > 0.75 ? until - 0.75 : 0
to = end > until + 0.05 ? until + 0.05 : end
stats [from:to] table using 1:($4 > $2 ? $4 : $2) every ::1 name 'last' nooutput
box = last_max_y > 1 ? last_max_y : 1
scaled(hour) = hour * per_hour

# Left, above: the whole list.
set lmargin at screen 0.075; set rmargin at screen 0.52
set tmargin at screen 0.85; set bmargin at screen 0.49
set xrange [0:scaled(end)]; set xtics time_tic; set format x ''
set yrange [0:1.1*top]; set ytics 0,top_tic
set ylabel 'NAC (counts)'
set title 'whole list; the box is shown on the right' font ',11' offset 0,-0.6
set object 1 rectangle from scaled(from),0 to scaled(to),box fs empty border lc '#000000' lw 1.5 front
plot table using (scaled($1)):6 every ::1 with lines lc rgb cell lw 7, \
     '' using (scaled($1)):2 every ::1 with lines lc rgb exact lw 2, \
     '' using (scaled($1)):4 every ::1 with lines lc rgb rounded lw 2

# Left, below: the error.
unset label; unset arrow; unset object
set tmargin at screen 0.43; set bmargin at screen 0.135
set format x '%g'
set xlabel 'time ('.unit.')'
set yrange [*:*]; set ytics auto
set ylabel 'error (counts)'
set title 'error: charge held by the gauge less true charge' font ',11'
known = dark < 0 ? end : empty
plot table using (scaled($1)):($1 < known ? $3 - $6 : NaN) every ::1 with lines lc rgb exact lw 2, \
     '' using (scaled($1)):($1 < known ? $5 - $6 : NaN) every ::1 with lines lc rgb rounded lw 2

# Right: the end of the list.
set lmargin at screen 0.59; set rmargin at screen 0.975
set tmargin at screen 0.85; set bmargin at screen 0.135
over = 1.5 * box
set xrange [from:to]; set xtics 0.25
set yrange [0:over]
set xlabel 'time (hours)'
unset ylabel
set label 7 'NAC (counts)' at screen 0.541,0.49 rotate center
set title (dark < 0 ? 'the last three quarters of an hour' : 'the three quarters of an hour before it goes dark') font ',11'
if (dark >= 0) {
    set arrow 1 from dark,0 to dark,0.93*over nohead dt 2 lc '#444444' lw 1.5
    set label 1 'EDVF window: the handset goes dark' at dark,0.96*over right
}
if (dark >= 0 && empty < dark) {
    set label 2 'exact gauge: NAC 0' at empty,0.88*over right offset -1,0 tc rgb exact
    set label 3 sprintf('sum of rounded steps: NAC %d,', empty_rounded) at empty,0.83*over right offset -1,0 tc rgb rounded
    set label 4 sprintf('%.1f min more at %.0f units', 60 * empty_rounded / load, load) at empty,0.78*over right offset -1,0 tc rgb rounded
    set arrow 2 from empty,0.90*over to empty,0 nohead dt 3 lc rgb exact lw 2
    set label 5 '' at empty,0 point pt 7 ps 1.4 lc rgb exact front
    set label 6 '' at empty,empty_rounded point pt 7 ps 1.4 lc rgb rounded front
}
# A voltage that falls to EDVF before the charge is gone, as in the cold, finds both above 0.
if (dark >= 0 && empty >= dark) {
    set label 2 sprintf('in the window before, exact gauge: NAC %d', dark_nac) at dark,0.88*over right offset -1,0 tc rgb exact
    set label 3 sprintf('sum of rounded steps: NAC %d', dark_rounded) at dark,0.83*over right offset -1,0 tc rgb rounded
}
plot table using 1:6 every ::1 with lines lc rgb cell lw 7, \
     '' using 1:2 every ::1 with lines lc rgb exact lw 2, \
     '' using 1:4 every ::1 with lines lc rgb rounded lw 2
unset multiplot
