# standby.gp FOLDER OUT TITLE: SI and STTE beside those by the rule of form 1, from the tables in FOLDER.
folder = ARG1
load folder.'/marks'
table = folder.'/standby'    # hour, load, SI, STTE, SI and STTE by the rule of form 1
set terminal pngcairo size 1200,700 font 'DejaVu Sans,12' linewidth 1 rounded noenhanced
set output ARG2
now = '#0072B2'; before = '#D55E00'; drawn = '#c8c8c8'; off = '#eeeeee'

# How high the axes go, before a range is set, which would leave rows out.
stats table using ($3 > $5 ? $3 : $5) name 'units' nooutput
stats table using ($4 > $6 ? $4 : $6) name 'minutes' nooutput
units_top = 1.15 * (units_max > 1 ? units_max : 1)
minutes_top = 1.15 * (minutes_max > 1 ? minutes_max : 1)

set multiplot
scaled(hour) = hour * per_hour
whole = scaled(end)
set lmargin at screen 0.08; set rmargin at screen 0.97
set xrange [-0.01*whole:1.01*whole]; set xtics 0,time_tic
set grid lc '#dddddd' lt 1
set border lc '#666666'
unset key

# Title and legend. Rests are shaded; gnuplot warns of an empty table, so they are named only where there are some.
set label 1 ARG3.': the standby current, and the time to empty at it' at screen 0.5,0.965 center font ',15'
row = 0.915
set arrow 1 from screen 0.085,row to screen 0.115,row nohead lc rgb drawn lw 8
set label 2 'load' at screen 0.12,row
set arrow 2 from screen 0.17,row to screen 0.20,row nohead lc rgb now lw 2.5
set label 3 'SI and STTE as the registers show them' at screen 0.205,row
set arrow 3 from screen 0.495,row to screen 0.525,row nohead lc rgb before lw 1.2
set label 4 'by the rule of form 1, SI = floor((15 × SI + IAV) / 16)' at screen 0.53,row
rests = ''
if (strstrt(bands, '6') > 0) {
    rests = "folder.'/bands' using (scaled($2)):($1 == 6 ? 0 : NaN):(scaled($2)):(scaled($3)):(0):(top) ". \
        "with boxxyerror lc rgb off fs solid 1 noborder,"
    set object 1 rectangle from screen 0.905,row-0.014 to screen 0.93,row+0.014 fc rgb off fs solid 1 noborder
    set label 5 'rest' at screen 0.935,row
}

# Above: SI and the load. A register holds from its row on; a load is that of the window which ends at its row, and one beyond the axis is cut
# off.
top = units_top
set tmargin at screen 0.87; set bmargin at screen 0.51
set format x ''
set label 6 'SI, load (units)' at screen 0.015,0.69 rotate center
set yrange [0:top]
plot @rests table using (scaled($1)):($2 < top ? $2 : top) with fsteps lc rgb drawn lw 8, \
     '' using (scaled($1)):5 with steps lc rgb before lw 1.2, \
     '' using (scaled($1)):3 with steps lc rgb now lw 2.5

# Below: STTE.
unset label; unset arrow; unset object
top = minutes_top
set tmargin at screen 0.47; set bmargin at screen 0.10
set format x '%g'
set xlabel 'time ('.unit.')'
set label 1 'STTE (minutes)' at screen 0.015,0.285 rotate center
set yrange [0:top]
plot @rests table using (scaled($1)):6 with steps lc rgb before lw 1.2, \
     '' using (scaled($1)):4 with steps lc rgb now lw 2.5
unset multiplot
