# In how many cycles the checker has flushed, of the faults that it flushed for, by model and core.
set terminal svg size 720,640 font 'sans-serif,13' background '#ffffff'
set output 'latency.svg'
set datafile separator ','
set logscale x
set xrange [5:100000]
set yrange [0:1.02]
set ytics 0, 0.2, 1
set grid lc rgb '#dddddd'
set tics nomirror
set ylabel 'share of the found faults'

# The rows of a core and a model: the latency at column 3, and the share that has no longer one at 5; before them one from which the first step rises.
of(core, model) = sprintf("< awk -F , '$1 == \"%s\" && $2 == \"%s\" { if (!rows++) print \",,\" $3 \",0,0\"; print }' latency.csv", core, model)

set multiplot layout 2, 1 margins 0.1, 0.78, 0.09, 0.95 spacing 0, 0.11
do for [core in 'own lockstep'] {
    set title 'core '.core offset 0, -0.7
    if (core eq 'lockstep') { set xlabel 'cycles from the first of the fault to the flush' }
    if (core eq 'own') { set key at graph 1.03, graph 1 left top Left reverse spacing 1.2 } else { unset key }
    plot of(core, 'flip') using 3:5 with steps title 'flip' lw 2 lc rgb '#000000', \
         of(core, 'set') using 3:5 with steps title 'set' lw 2 dt 2 lc rgb '#b2182b', \
         of(core, 'lose') using 3:5 with steps title 'lose' lw 2 dt 3 lc rgb '#2166ac', \
         of(core, 'double') using 3:5 with steps title 'double' lw 2 dt 4 lc rgb '#1b7837', \
         of(core, 'hush') using 3:5 with steps title 'hush' lw 2 dt 5 lc rgb '#777777', \
         of(core, 'stuck0') using 3:5 with steps title 'stuck at 0' lw 2 dt 6 lc rgb '#762a83', \
         of(core, 'stuck1') using 3:5 with steps title 'stuck at 1' lw 2 lc rgb '#e08214'
}
unset multiplot
