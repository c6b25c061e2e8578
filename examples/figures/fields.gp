# What would have become of the flipped bits that hit a claim, by field and core, and that the checker found them.
set terminal svg size 760,720 font 'sans-serif,13' background '#ffffff'
set output 'fields.svg'
set datafile separator ','
set style data histograms
set style histogram rowstacked
set style fill solid 1 border rgb '#333333'
set boxwidth 0.7
set yrange [0:1.1]
set ytics 0, 0.2, 1
set tics nomirror
set ylabel 'share of the hits'

# The rows of a core: one of each field, with the share at column 7 and its interval at 8 and 9.
of(core, what) = sprintf("< awk -F , '$1 == \"%s\" && $2 == \"field\" && $4 == \"%s\"' fields.csv", core, what)

set multiplot layout 3, 1 margins 0.1, 0.7, 0.08, 0.96 spacing 0, 0.09
do for [core in 'own scalar lockstep'] {
    set title 'core '.core offset 0, -0.7
    if (core eq 'lockstep') { set xlabel 'field of the claim in which a bit is flipped' }
    if (core eq 'own') { set key at graph 1.03, graph 1 left top Left reverse spacing 1.2 } else { unset key }
    plot of(core, 'masked') using 7:xtic(3) title 'masked' lc rgb '#f2f2f2', \
         of(core, 'stray') using 7 title 'stray' lc rgb '#fdb863', \
         of(core, 'trap') using 7 title 'trap' lc rgb '#80b1d3', \
         of(core, 'hang') using 7 title 'hang' lc rgb '#542788', \
         of(core, 'silent') using 7 title 'silent' lc rgb '#b2182b', \
         of(core, 'masked') using 0:8:(0):($9 - $8) with vectors nohead lw 3 lc rgb '#000000' title 'masked, at 95 %', \
         of(core, 'found') using 0:7 with points title 'found by the checker' pt 9 ps 0.8 lc rgb '#000000'
}
unset multiplot
