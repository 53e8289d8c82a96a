# plot.gp FOLDER OUT TITLE: NAC, LMD and RSOC over the flags' bands, from the tables in FOLDER.
folder = ARG1
load folder.'/marks'
set terminal pngcairo size 1200,700 font 'DejaVu Sans,12' linewidth 1 rounded noenhanced
set output ARG2
set multiplot

# Sign, colour and width of the name of each kind of point, in the order of `kind`. An odd sign is filled and gets the one below as outline.
array sign[10] = [6, 4, 5, 8, 15, 9, 7, 11, 13, 3]
array colour[10] = ['#666666', '#000000', '#56B4E9', '#0072B2', '#F0E442', '#009E73', '#E69F00', '#D55E00', '#CC79A7', '#000000']
array room[10] = [0.054, 0.034, 0.060, 0.040, 0.060, 0.022, 0.077, 0.090, 0.085, 0.030]
filled(k) = sign[k] > 3 && int(sign[k]) % 2 == 1
outline(k) = filled(k) ? sign[k] - 1 : sign[k]
edge(k) = filled(k) ? '#333333' : colour[k]
width(k) = filled(k) ? 1 : 2.5
percent = '#A6CEE3'; capacity = '#777777'; between = '#F3EFE6'
array band[6] = ['#5B7083', '#5B7083', '#5B7083', '#5B7083', '#5B7083', '#C4C4C4']

scaled(hour) = hour * per_hour
whole = scaled(end)
set lmargin at screen 0.08; set rmargin at screen 0.92
set xrange [-0.01*whole:1.01*whole]; set xtics 0,time_tic
set grid lc '#dddddd' lt 1
set border lc '#666666'
unset key

# Title and legend: the curves and the refused calls in one row, the kinds of points that there are in another.
set label 1 ARG3.': NAC, LMD and RSOC after each call' at screen 0.5,0.97 center font ',15'
row = 0.922
set arrow 1 from screen 0.09,row to screen 0.12,row nohead lc '#000000' lw 1.5
set label 2 'NAC' at screen 0.125,row
set arrow 2 from screen 0.18,row to screen 0.21,row nohead lc rgb percent lw 4
set label 3 'RSOC' at screen 0.215,row
set arrow 3 from screen 0.28,row to screen 0.31,row nohead lc rgb capacity dt 2 lw 1.5
set label 4 'LMD' at screen 0.315,row
if (crosses > 0) { set label 5 '' at screen 0.40,row point pt 2 ps 0.9 lc '#000000' }
set label 6 (refused == 0 ? 'no call' : refused == 1 ? '1 call' : sprintf('%d calls', refused)).sprintf(' refused (of %d)', calls) at screen 0.41,row
if (rounds > 0) {
    set object 1 rectangle from screen 0.675,row-0.014 to screen 0.70,row+0.014 fc rgb between fs solid 1 noborder
    set label 9 'rounds, drawn by their ends alone' at screen 0.705,row
}
row = 0.882
at = 0.187
solid = ''
set label 7 'fixing points:' at screen 0.09,row
do for [k in made] {
    n = int(k)
    if (filled(n)) {
        solid = solid.' '.k
        set label 10+3*n '' at screen at,row point pt sign[n] ps 1.5 lc rgb colour[n]
    }
    set label 11+3*n '' at screen at,row point pt outline(n) ps 1.5 lw width(n) lc rgb edge(n)
    set label 12+3*n kind[n] at screen at+0.010,row
    at = at + 0.024 + room[n]
}

# Above. NAC is at most LMD, so the greatest LMD sets the axis. What may be absent is named only where it is there: gnuplot warns of an
# empty table.
bottom = -0.05 * greatest
top = 1.07 * greatest
set tmargin at screen 0.85; set bmargin at screen 0.34
set format x ''
set label 8 'NAC, LMD (counts)' at screen 0.015,0.595 rotate center
set y2label 'RSOC (%)'
set yrange [bottom:top]; set ytics nomirror 0,count_tic
set y2range [100.*bottom/greatest:100.*top/greatest]; set y2tics 0,25,100
set style textbox opaque noborder margins 0.3,0.1
beside(hour) = scaled(hour) < 0.05*whole ? 0.023*whole : -0.023*whole
dark_lines = dark == 0 ? '' : \
    "folder.'/dark' using (scaled($1)):(bottom):(0):(top-bottom) with vectors nohead dt 2 lc '#000000' lw 1.5, ". \
    "'' using (scaled($1)+beside($1)):(0.6*greatest):($2 == 1 ? 'dark' : '') with labels boxed,"
refused_marks = crosses == 0 ? '' : ", folder.'/refused' using (scaled($1)):(0.5*bottom) with points pt 2 ps 0.9 lc '#000000'"
round_spans = rounds == 0 ? '' : "folder.'/rounds' using (scaled($1)):(bottom):(scaled($1)):(scaled($2)):(bottom):(top) ". \
    "with boxxyerror lc rgb between fs solid 1 noborder,"
filled_signs = solid eq '' ? '' : ", for [k in solid] folder.'/points' using ($1 == k ? scaled($2) : NaN):3 ". \
    "with points pt sign[int(k)] ps 1.5 lc rgb colour[int(k)]"
plot @round_spans @dark_lines folder.'/curves' using (scaled(column('hour'))):'lmd' with lines lc rgb capacity dt 2 lw 1.5, \
     '' using (scaled(column('hour'))):'rsoc' axes x1y2 with lines lc rgb percent lw 4, \
     '' using (scaled(column('hour'))):'nac' with lines lc '#000000' lw 1.5 @refused_marks @filled_signs, \
     for [k in made] folder.'/points' using ($1 == k ? scaled($2) : NaN):3 with points pt outline(int(k)) ps 1.5 lw width(int(k)) lc rgb edge(int(k))

# Below: a band for each flag, and one for rests if there are any.
unset label; unset arrow; unset object; unset y2tics; unset y2label
set tmargin at screen 0.31; set bmargin at screen 0.10
set format x '%g'
set xlabel 'time ('.unit.')'
set label 1 'FLAGS' at screen 0.015,0.205 rotate center
rests = strstrt(bands, '6') > 0
set yrange [5.6 + rests : 0.4]
set ytics scale 0 ('CHGS' 1, 'VDQ' 2, 'EDV1' 3, 'EDVF' 4, 'CI' 5)
if (rests) { set ytics add ('(rest)' 6) }
set grid noytics
round_spans = rounds == 0 ? '' : ", folder.'/rounds' using (scaled($1)):(1):(scaled($1)):(scaled($2)):(0.4):(5.6 + rests) ". \
    "with boxxyerror lc rgb between fs solid 1 noborder"
set_bands = bands eq '' ? '' : ", for [k in bands] folder.'/bands' ". \
    "using (scaled($2)):($1 == k ? $1 : NaN):(scaled($2)):(scaled($3)):($1 - 0.32):($1 + 0.32) ". \
    "with boxxyerror lc rgb band[int(k)] fs solid 1 border lc rgb band[int(k)]"
plot -1 with lines @round_spans @set_bands
unset multiplot
