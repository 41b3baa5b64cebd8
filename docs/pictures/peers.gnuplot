# Durable changes a second of the stores: a group of bars for each row of docs/TIMES.md that tools/pictures gives as $rates, with a head of names.
set terminal svg size 560,300 font "Helvetica,Arial,sans-serif,12" background "white"
set style data histogram; set style histogram clustered gap 1; set style fill solid border rgb "#333333"; set boxwidth 0.9
set logscale y; set yrange [50:*]; set format y "10^{%L}"; set ylabel "durable changes a second"
set border 3; set tics nomirror scale 0.5; set grid y lc rgb "#d3d3d3"; set key outside right top reverse Left
array colours[6] = ["#2f6fb0", "#b9c4d0", "#8aa5c6", "#e0b070", "#9fd3a8", "#d3d3d3"]
plot for [i=2:columns] $rates using i:xtic(1) title columnheader(i) linecolor rgb colours[i - 1]
