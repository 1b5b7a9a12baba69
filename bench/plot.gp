# Draws docs/benchmarks.png from docs/benchmarks.csv.
set terminal pngcairo size 1400,1050 font "sans,11"
set output "docs/benchmarks.png"
set datafile separator ","
set logscale xy
set grid
set key top left
curve(name) = sprintf("< grep '^%s,' docs/benchmarks.csv", name)
set multiplot layout 2,2 title "Processor time, medians of repeated runs, microseconds, both axes logarithmic"

set title "Comparing two filters"
set key outside bottom center
set xlabel "states"
set ylabel "µs"
set yrange [1:*]
plot curve("library: renumbered") using 2:3 with linespoints lw 2 title "library, renumbered", \
     curve("library: late and split") using 2:3 with linespoints lw 2 title "library, late and split", \
     curve("library: cycles of n and n-1") using 2:3 with linespoints lw 2 title "library, cycles", \
     curve("OpenFst tools: renumbered") using 2:3 with linespoints dt 2 title "OpenFst tools, renumbered", \
     curve("OpenFst in one process: renumbered") using 2:3 with linespoints dt 3 title "OpenFst in one process, renumbered", \
     curve("OpenFst in one process: cycles of n and n-1") using 2:3 with linespoints dt 3 title "OpenFst in one process, cycles"

set key inside top left
set yrange [*:*]
set title "Comparing a filter with itself renumbered"
set xlabel "states (8 rules each), or rules (32 states)"
plot curve("compare by states") using 2:3 with linespoints lw 2 title "by states", \
     curve("compare by rules") using 2:3 with linespoints lw 2 title "by rules", \
     curve("check by rules") using 2:3 with linespoints lw 2 title "check by rules"

set title "Transducing by the escape filter"
set xlabel "symbols"
plot curve("transduce by length") using 2:3 with linespoints lw 2 title "by length"

set title "Transducing 65,536 random bytes by one state"
set xlabel "rules"
plot curve("transduce by rules") using 2:3 with linespoints lw 2 title "by rules"
unset multiplot
