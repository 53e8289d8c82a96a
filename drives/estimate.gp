# estimate.gp FOLDER OUT TITLE: NAC with and without the settings by an estimate, and the table of the estimate, from the tables in FOLDER.
folder = ARG1
load folder.'/marks'
load folder.'/estimate-marks'
asked = folder.'/asked/estimates'    # hour, voltage, permille
estimates = folder.'/given'          # hour, voltage, counts, distance, permille
set terminal pngcairo size 1200,700 font 'DejaVu Sans,12' linewidth 1 rounded noenhanced
set output ARG2
set multiplot
now = '#0072B2'; left_out = '#D55E00'; estimated = '#009E73'; off = '#eeeeee'; stored = '#444444'
set border lc '#666666'
set grid lc '#dddddd' lt 1
unset key

# Title and legend. What may be absent is named only where it is there: gnuplot warns of an empty table.
set label 1 ARG3.': the charge of a rested cell' at screen 0.5,0.965 center font ',15'
row = 0.915
set arrow 1 from screen 0.085,row to screen 0.115,row nohead lc rgb now lw 2.5
set label 2 'NAC' at screen 0.12,row
without = ''
if (settings > 0) {
    without = "folder.'/without/curves' using (scaled(column('hour'))):'nac' with lines lc rgb left_out lw 1.5,"
    set arrow 2 from screen 0.17,row to screen 0.20,row nohead lc rgb left_out lw 1.5
    set label 3 'NAC without the setting' at screen 0.205,row
}
estimate_signs = ''
if (given > 0) {
    estimate_signs = ", estimates using (scaled($1)):3 with points pt 7 ps 1.5 lc rgb estimated"
    set label 4 '' at screen 0.405,row point pt 7 ps 1.5 lc rgb estimated
    set label 5 'estimate' at screen 0.415,row
}
rests = ''
if (strstrt(bands, '6') > 0) {
    rests = "folder.'/bands' using (scaled($2)):($1 == 6 ? 0 : NaN):(scaled($2)):(scaled($3)):(0):(top) ". \
        "with boxxyerror lc rgb off fs solid 1 noborder,"
    set object 1 rectangle from screen 0.50,row-0.014 to screen 0.525,row+0.014 fc rgb off fs solid 1 noborder
    set label 6 'rest' at screen 0.53,row
}
refused_signs = ''
if (crosses > 0) {
    refused_signs = ", folder.'/refused' using (scaled($1)):(0.5*bottom) with points pt 2 ps 0.9 lc '#000000'"
    set label 7 '' at screen 0.585,row point pt 2 ps 0.9 lc '#000000'
    set label 8 'refused call' at screen 0.595,row
}

# Left, on half of the picture and so with half of the tics: NAC. The refused calls stand below 0. The first estimate is labelled, on the side that has
# room, and NAC where the handset goes dark after it.
scaled(hour) = hour * per_hour
whole = scaled(end)
bottom = -0.05 * greatest
top = 1.07 * greatest
set lmargin at screen 0.075; set rmargin at screen 0.555
set tmargin at screen 0.865; set bmargin at screen 0.10
set xrange [-0.01*whole:1.01*whole]; set xtics 0,2*time_tic
set yrange [bottom:top]; set ytics 0,count_tic
set xlabel 'time ('.unit.')'
set style textbox opaque noborder margins 0.3,0.1
set label 9 'NAC (counts)' at screen 0.015,0.48 rotate center
if (given > 0) {
    words = sprintf('estimate %d, NAC %d', first_counts, first_nac)
    if (first_hour > 0.5*end) { set label 10 words at scaled(first_hour),first_counts right offset -1.2,0 tc rgb estimated boxed front }
    if (first_hour <= 0.5*end) { set label 10 words at scaled(first_hour),first_counts left offset 1.2,0 tc rgb estimated boxed front }
}
if (dark_hour >= 0) {
    set arrow 3 from scaled(dark_hour),bottom to scaled(dark_hour),top nohead dt 2 lc '#000000' lw 1.5
    words = sprintf('dark at NAC %d', dark_nac)
    other = settings == 0 ? '' : sprintf('without the setting at NAC %d', dark_without)
    set label 11 words at scaled(dark_hour),0.965*top right offset -0.7,0 tc rgb now boxed front
    set label 12 other at scaled(dark_hour),0.91*top right offset -0.7,0 tc rgb left_out boxed front
}
plot @rests @without folder.'/curves' using (scaled(column('hour'))):'nac' with lines lc rgb now lw 2.5 @refused_signs @estimate_signs

# Right: the table, with the nine points between which paper 02 has its straight lines.
unset label; unset arrow; unset object
nine = ' 3000 3400 3600 3700 3800 3900 4000 4100 4200 '
is_point(voltage) = strstrt(nine, sprintf(' %d ', voltage)) > 0
set lmargin at screen 0.64; set rmargin at screen 0.975
set xrange [2960:4240]; set xtics 3000,300
set yrange [-50:1070]; set ytics 0,200
set xlabel 'voltage (mV)'
set label 1 'the table, permille of LMD' at screen 0.588,0.48 rotate center
estimate_signs = ''
if (given > 0) {
    estimate_signs = ", estimates using 2:5 with points pt 7 ps 1.5 lc rgb estimated"
    set arrow 1 from first_voltage,-50 to first_voltage,first_permille nohead lc rgb estimated lw 1
    set arrow 2 from 2960,first_permille to first_voltage,first_permille nohead lc rgb estimated lw 1
    words = sprintf('%d mV: %d ‰', first_voltage, first_permille)
    if (first_voltage > 3850) { set label 2 words at first_voltage,first_permille right offset -1.5,0.8 tc rgb estimated boxed front }
    if (first_voltage <= 3850) { set label 2 words at first_voltage,first_permille left offset 1.5,-0.8 tc rgb estimated boxed front }
}
plot asked using 2:3 with steps lc rgb stored lw 1.5, \
     '' using (is_point($2) ? $2 : NaN):3 with points pt 6 ps 1.3 lw 1.5 lc rgb stored @estimate_signs
unset multiplot
