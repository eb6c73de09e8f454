# Both pictures, for figures.sh: folder has the data, a line a gap and a column a peer, whose names are in its first line.
set terminal svg size 800,500 dynamic background rgb 'white' font 'sans-serif,14'
set logscale xy
set grid xtics ytics linecolor rgb '#dddddd' linetype 1
set border 3
set tics nomirror
set key left top reverse Left
set format y '%g'
set xlabel 'D, the gap of the binary exponents'
set ylabel 'nanoseconds a remainder'
set style data linespoints
# a colour and a sign for each peer, the same in both pictures
set linetype 1 linecolor rgb '#c8102e' linewidth 3 pointtype 7 pointsize 0.5
set linetype 2 linecolor rgb '#1f5fa8' linewidth 2 pointtype 5 pointsize 0.5
set linetype 3 linecolor rgb '#6fa8dc' linewidth 2 pointtype 4 pointsize 0.5
set linetype 4 linecolor rgb '#3a7d34' linewidth 2 pointtype 9 pointsize 0.6
set linetype 5 linecolor rgb '#7a5195' linewidth 2 pointtype 13 pointsize 0.7

first = folder . '/first.gaps'
second = folder . '/second.gaps'
x87 = folder . '/x87.gaps'

set output pictures . '/remainder64.svg'
set title 'binary64, truncated'
set xrange [1:2045]
set xtics (1, 2, 4, 8, 16, 32, 64, 128, 256, 512, 1024, '2045' 2045)
plot second using 1:2 linetype 1 title columnheader(2), \
     second using 1:3 linetype 2 title columnheader(3), \
     first using 1:3 linetype 3 title columnheader(3), \
     second using 1:4 linetype 4 title columnheader(4), \
     second using 1:5 linetype 5 title columnheader(5)

set output pictures . '/remainder80.svg'
set title 'x87, truncated'
set xrange [1:32765]
set xtics (1, 4, 16, 64, 256, 1024, 4096, '32765' 32765)
plot x87 using 1:2 linetype 1 title columnheader(2), \
     x87 using 1:3 linetype 2 title columnheader(3), \
     x87 using 1:4 linetype 5 title columnheader(4)
