# Which sections of examples/scripts/survives its recovery keeps: a line is a thread, a bar one of its sections, from the first lock to the last.
set terminal svg size 400,350 font "Helvetica,Arial,sans-serif,12" background "white"
unset key; unset border; unset tics
set lmargin 0; set rmargin 0; set tmargin 0; set bmargin 0
set xrange [0:400]; set yrange [350:0]
kept = "#9fd3a8"; unfinished = "#ffb6c1"; after = "#ffa500"; unsettled = "#f0e68c"
bar(x, to, y, colour, what, below) = sprintf("set object rectangle from %d,%d to %d,%d fillcolor rgb '%s' fillstyle solid border lc rgb '#333333'; set label '%s' at %d,%d center; set label '%s' at %d,%d left font ',11'", x, y, to, y + 36, colour, what, (x + to) / 2, y + 18, below, x, y + 48)
set label "t1" at 4,52 font ",14"; set label "t2" at 4,136 font ",14"; set label "t3" at 4,220 font ",14"
eval bar(41, 88, 34, kept, "f0 = 11", "1 kept")
eval bar(150, 375, 34, unfinished, "f0 = 12", "2 dropped:\nunfinished")
eval bar(88, 135, 118, kept, "f3 = 41", "1 kept")
eval bar(212, 259, 118, after, "f0 = 13", "2 dropped:\nafter t1 2")
eval bar(258, 306, 202, kept, "f2 = 31", "1 kept")
eval bar(320, 367, 202, unsettled, "f2 = 32", "2 dropped:\nunsettled")
set arrow from 222,118 to 222,72 lc rgb "#333333"; set label "took o0" at 228,104 left
do for [x in "142 313"] { set arrow from x,22 to x,278 nohead dt 2 lc rgb "#2f6fb0"; set label "round" at x,12 center tc rgb "#2f6fb0" }
set arrow from 375,22 to 375,278 nohead lw 3 lc rgb "#333333"; set label "crash" at 376,12 right
set label "t1's section 2 hasn't ended. t2's section 2 has ended,\nbut took o0 from it, so it is dropped with it.\nt3's section 2 came after the last round." at 4,292 left
plot NaN
