# shelf.gp FOLDER OUT TITLE: months on the shelf, what is found at their end, and the work after them, from the tables in FOLDER.
folder = ARG1
load folder.'/marks'
load folder.'/estimate-marks'
load folder.'/without/shelf-marks'
without_tte = tte; without_taught = taught_hour; without_nac = taught_nac; without_lmd = taught_lmd
load folder.'/shelf-marks'
curves = folder.'/curves'; without = folder.'/without/curves'    # hour, NAC, ..
cell = folder.'/cell'                                            # hour, true charge
estimates = folder.'/given'                                      # hour, voltage, counts, distance, permille
temperatures = folder.'/temperatures'                            # first hour of a rest, last hour, degrees Celsius
set terminal pngcairo size 1200,700 font 'DejaVu Sans,12' linewidth 1 rounded noenhanced
set output ARG2
now = '#0072B2'; left_out = '#D55E00'; estimated = '#009E73'; charge = '#c8c8c8'; quiet = '#444444'

# Months are shown in days, thirty to a tic, a shorter rest in hours.
length = shelf_to - shelf_from
in_days = length > 72
shelved(hour) = (hour - shelf_from) / (in_days ? 24.0 : 1.0)
whole = shelved(shelf_to)
on_shelf(hour) = hour >= shelf_from && hour <= shelf_to
after(hour) = hour >= shelf_to ? hour - shelf_to : NaN
percent(counts) = int(100 * counts / found_lmd)
top = 1.07 * greatest
stats temperatures using 3 name 'celsius' nooutput

set multiplot
set border lc '#666666'
set grid lc '#dddddd' lt 1
unset key

# Title, legend and caption.
set label 1 ARG3.': NAC beside the estimate, and the work after it' at screen 0.5,0.965 center font ',15'
set label 10 'A simulation: what is assumed of the cell and of the handset that is switched off stands in drives/README.md.' \
    at screen 0.5,0.022 center font ',11' tc rgb quiet
row = 0.915
set arrow 1 from screen 0.085,row to screen 0.115,row nohead lc rgb now lw 2.5
set label 2 'NAC' at screen 0.12,row
set label 3 '' at screen 0.185,row point pt 7 ps 1.5 lc rgb estimated
set label 4 "estimate by the cell's voltage" at screen 0.195,row
set arrow 2 from screen 0.42,row to screen 0.45,row nohead lc rgb charge lw 8
set label 5 'true charge of the cell' at screen 0.455,row
if (settings > 0) {
    set arrow 3 from screen 0.645,row to screen 0.675,row nohead lc rgb left_out lw 1.5
    set label 6 'NAC without the setting' at screen 0.68,row
}

# Left, above: the shelf. The estimates have their voltages, and what is found at the end is said in full.
set lmargin at screen 0.075; set rmargin at screen 0.60
set tmargin at screen 0.865; set bmargin at screen 0.35
set xrange [-0.02*whole:1.02*whole]; set format x ''
if (in_days && whole > 60) { set xtics 0,30 }
set yrange [0:top]; set ytics 0,count_tic
set style textbox opaque noborder margins 0.3,0.1
set label 7 'charge (counts)' at screen 0.015,0.61 rotate center
set label 8 sprintf('NAC %d, %d %%', found_nac, found_rsoc) at whole,found_nac right offset 0,1 tc rgb now boxed front
set label 9 sprintf('%d mV: estimate %d, %d %%', found_voltage, found_counts, percent(found_counts)) \
    at whole,found_counts right offset 0,-1.2 tc rgb estimated boxed front
set label 11 sprintf('true charge %.0f', found_true) at whole,found_counts right offset 0,-2.4 tc rgb quiet boxed front
plot cell using (on_shelf($1) ? shelved($1) : NaN):2 with lines lc rgb charge lw 8, \
     curves using (on_shelf($1) ? shelved($1) : NaN):2 every ::1 with lines lc rgb now lw 2.5, \
     estimates using (on_shelf($1) ? shelved($1) : NaN):3 with points pt 7 ps 1.5 lc rgb estimated, \
     '' using (on_shelf($1) && $1 < shelf_to ? shelved($1) : NaN):3:(sprintf('%d mV', $2)) with labels right offset -0.6,-0.9 font ',10' tc rgb estimated

# Left, below: the temperatures of the rests.
unset label; unset arrow
set tmargin at screen 0.315; set bmargin at screen 0.135
set format x '%g'
set xlabel (in_days ? 'days on the shelf' : 'hours on the shelf')
set yrange [celsius_min-5:celsius_max+8]; set ytics 10
set label 1 'temperature (°C)' at screen 0.015,0.225 rotate center
plot temperatures using (shelved($1)):3:(shelved($2)-shelved($1)):(0) with vectors nohead lc rgb quiet lw 2.5, \
     '' using (shelved(($1+$2)/2)):3:(sprintf('%g °C', $3)) with labels offset 0,0.9 font ',10'

# Right, above: the work, on the same counts.
unset label
set lmargin at screen 0.68; set rmargin at screen 0.975
set tmargin at screen 0.865; set bmargin at screen 0.35
worked = end - shelf_to
hour_tic = worked > 3 ? 1 : worked > 1 ? 0.5 : 0.1
set xrange [0:1.02*worked]; set xtics 0,hour_tic
set yrange [0:top]; set ytics 0,count_tic
set xlabel 'hours of work'
if (dark_hour >= 0) {
    set arrow 1 from after(dark_hour),0 to after(dark_hour),top nohead dt 2 lc '#000000' lw 1.5
    set label 1 'dark' at after(dark_hour),0.96*top right offset -0.7,0 boxed front
}
other = ''
if (settings > 0) { other = ", without using (after($1)):2 every ::1 with lines lc rgb left_out lw 1.5" }
if (settings > 0 && without_taught >= 0) {
    set label 2 sprintf('NAC %d at E1,', without_nac) at graph 0.95,0.66 right tc rgb left_out boxed front
    set label 3 sprintf('where LMD becomes %d', without_lmd) at graph 0.95,0.60 right tc rgb left_out boxed front
}
if (settings > 0 && without_taught < 0 && dark_hour >= 0) {
    set label 2 sprintf('NAC %d', dark_without) at after(dark_hour),dark_without right offset -1,-1 tc rgb left_out boxed front
}
plot cell using (after($1)):2 with lines lc rgb charge lw 8 @other, \
     curves using (after($1)):2 every ::1 with lines lc rgb now lw 2.5

# Right, below: how long it works.
unset arrow; unset label; unset xlabel; unset xtics; unset ytics; unset border; unset grid
set tmargin at screen 0.25; set bmargin at screen 0.135
set xrange [0:1]; set yrange [0:1]
set label 1 sprintf('at the first window: TTE %d minutes', tte) at screen 0.68,0.235 tc rgb now
if (settings > 0) { set label 2 sprintf('without the setting: TTE %d minutes', without_tte) at screen 0.68,0.195 tc rgb left_out }
if (dark_hour >= 0) { set label 3 sprintf('dark after %.0f minutes', 60*after(dark_hour)) at screen 0.68,0.155 }
plot -1 with lines
unset multiplot
