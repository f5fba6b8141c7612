# gnuplot -c bench/plot.gp TIMES OUTPUT: the times of `evaluate time` by records, a panel for each question, as SVG.
times = ARG1
questions = int(system(sprintf("sed 1d '%s' | cut -f 1 | sort -u | wc -l", times)))
across = 3
down = (questions + across) / across # with a panel for the key
contenders = 4
first_column = 6 # of the times
array label[contenders] = ["ours", "C", "SQLite", "SQLite, indexed"]
set style line 1 lw 2 lc rgb "#c0392b"
set style line 2 lw 2 lc rgb "#2c3e50"
set style line 3 lw 2 lc rgb "#2980b9" dt 2
set style line 4 lw 2 lc rgb "#27ae60" dt 3

set terminal svg size 1120,280 * down font "sans-serif,12" background "white"
set output ARG2
set datafile separator tab
set datafile missing "inf"
set logscale xy
set format y "%g"
set grid lt 1 lc rgb "#dddddd"
set xrange [3500:80000]
set yrange [0.001:10000]
set xtics ("4,095" 4095, "" 8191, "16,383" 16383, "" 32767, "65,535" 65535)
set mytics 1
unset key
set multiplot layout down,across title "Milliseconds by records, both on logarithmic scales"
do for [i = 0:questions - 1] {
    set title system(sprintf("sed -n %dp '%s' | cut -f 1", i + 2, times)) noenhanced
    plot for [c = 1:contenders] times skip 1 every questions::i using 2:(column(first_column + c - 1) / 1e6) with lines ls c
}
# The last panel is the key.
set title ""
unset border
unset tics
unset grid
set key center center
plot for [c = 1:contenders] NaN with lines ls c title label[c]
unset multiplot
