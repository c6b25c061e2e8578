# How many times the cycles of the run without faults seven programs take, by how often a fault comes.
set terminal svg size 760,640 font 'sans-serif,13' background '#ffffff'
set output 'cost.svg'
set datafile separator ','
set logscale x
set xrange [0.15:70]
set yrange [0.95:*]
set grid lc rgb '#dddddd'
set tics nomirror
set key top left Left reverse
set xlabel 'faults in 1,000 cycles'
set ylabel 'cycles, times those without'
set style data linespoints

# The rows of a kind of fault and a machine: the period at column 5, the ratio at 11.
of(kind, core, width, port) = sprintf("< awk -F , '$1 == \"%s\" && $2 == \"%s\" && $3 == %d && $4 == %d' cost.csv", kind, core, width, port)

set multiplot layout 2, 2 margins 0.1, 0.98, 0.09, 0.94 spacing 0.12, 0.18
set title 'a bit of a value is flipped, by core'
plot of('flip', 'own', 2, 1) using (1000 / $5):11 title 'own' pt 7 ps 0.7 lc rgb '#000000', \
     of('flip', 'scalar', 2, 1) using (1000 / $5):11 title 'scalar' pt 5 ps 0.7 dt 2 lc rgb '#b2182b', \
     of('flip', 'lockstep', 2, 1) using (1000 / $5):11 title 'lockstep' pt 8 dt 4 lc rgb '#2166ac'
set title '70 cycles without a claim, by core'
plot of('hush', 'own', 2, 1) using (1000 / $5):11 title 'own' pt 7 ps 0.7 lc rgb '#000000', \
     of('hush', 'scalar', 2, 1) using (1000 / $5):11 title 'scalar' pt 5 ps 0.7 dt 2 lc rgb '#b2182b', \
     of('hush', 'lockstep', 2, 1) using (1000 / $5):11 title 'lockstep' pt 8 dt 4 lc rgb '#2166ac'
set title 'flipped bits, own, by width'
plot of('flip', 'own', 1, 1) using (1000 / $5):11 title 'width 1' pt 6 dt 2 lc rgb '#2166ac', \
     of('flip', 'own', 2, 1) using (1000 / $5):11 title 'width 2' pt 7 ps 0.7 lc rgb '#000000', \
     of('flip', 'own', 3, 1) using (1000 / $5):11 title 'width 3' pt 8 dt 3 lc rgb '#1b7837', \
     of('flip', 'own', 4, 1) using (1000 / $5):11 title 'width 4' pt 4 dt 4 lc rgb '#b2182b'
set title 'flipped bits, own of width 2, by port'
plot of('flip', 'own', 2, 1) using (1000 / $5):11 title 'port 1' pt 7 ps 0.7 lc rgb '#000000', \
     of('flip', 'own', 2, 2) using (1000 / $5):11 title 'port 2' pt 8 dt 3 lc rgb '#1b7837', \
     of('flip', 'own', 2, 4) using (1000 / $5):11 title 'port 4' pt 6 dt 2 lc rgb '#2166ac', \
     of('flip', 'own', 2, 6) using (1000 / $5):11 title 'port 6' pt 4 dt 4 lc rgb '#b2182b'
unset multiplot
