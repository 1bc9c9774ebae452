# Draws one kind of range of arrbench: turns a second by threads, with a panel for each share of readers, the spread of the
# rounds as bars, what perfect scaling would be of one thread under the range lock, and a mark where threads are more than
# processors.
#
#     gnuplot -e 'lines="FILE"; kind="full"; processors=4; taken="ON WHAT"; to="FILE.svg"' arrbench.gp
if (!exists("terminal")) terminal = "svg"
set terminal @terminal size 1200,470 noenhanced font "sans-serif,13" background "white" linewidth 1.2
set output to
set datafile separator "\t"
set datafile missing NaN

peers = '"range lock, one list" "range lock, regions" "pthread_mutex" "pthread_rwlock" "64 mutexes" "16 rwlocks" "256 rwlocks" "interval tree" "tree, writers only" "FIFO range lock" "fcntl record locks" "no lock"'
colours = '#0b62b8 #d1350f #111111 #2e8b57 #8a5fbf #c08a00 #c08a00 #00a0a0 #00a0a0 #e377c2 #b05080 #999999'
widths = '3.5 3.5 1.8 1.8 1.8 1.8 1.8 1.8 1.8 1.8 1.8 1.5'
dashes = '1 1 1 1 1 1 2 1 2 1 1 3'
points = '7 5 9 13 11 1 1 4 4 12 2 0'
colour(i) = word(colours, i)
width(i) = real(word(widths, i))
dash(i) = int(word(dashes, i))
point(i) = int(word(points, i))

set style line 100 linecolor rgb "#dddddd" linewidth 1
set grid ytics linestyle 100
set border 3 linecolor rgb "#666666"
set tics nomirror out
set logscale x 2
set xrange [0.9:18]
set xtics (1, 2, 4, 16)
set xlabel "threads (log)"
unset key
stats lines using (strcol(1) eq kind ? column(5) : NaN) name "M" nooutput
set logscale y
set yrange [0.8 * (M_min < 0.01 ? 0.01 : M_min):1.3 * M_max]
set ytics (0.01, 0.02, 0.05, 0.1, 0.2, 0.5, 1, 2, 5, 10, 20, 50)

of(readers, peer) = (strcol(1) eq kind && column(2) == readers && strcol(4) eq peer)
rate(readers, peer, n) = (of(readers, peer) ? column(n) : NaN)
# Where they aren't given, the range is the figure itself.
ends(readers, peer, n) = (of(readers, peer) ? (valid(n) ? column(n) : column(5)) : NaN)

set multiplot
do for [panel = 0:2] {
    readers = word("100 60 0", panel + 1)
    set lmargin at screen 0.07 + panel * 0.245
    set rmargin at screen 0.07 + panel * 0.245 + 0.225
    set bmargin at screen 0.21
    set tmargin at screen 0.88
    unset label
    if (panel == 0) { set label taken."; bars are from the least to the greatest of three rounds" at screen 0.01,0.03 left font ",11" }
    set label "more threads\nthan processors" at sqrt(processors * 18.0) * 1.1,graph 0.1 center font ",10" textcolor rgb "#777777"
    set object 1 rectangle from processors * 1.2,graph 0 to 18,graph 1 fillcolor rgb "#f2f2f2" fillstyle solid noborder behind
    set title (readers eq "0" ? "writers alone" : readers eq "100" ? "readers alone" : readers." readers of 100")
    set format y (panel == 0 ? "%g" : "")
    set ylabel (panel == 0 ? "million turns a second of all threads (log)" : "") offset 0.5
    stats lines using ((of(int(readers), word(peers, 2)) && column(3) == 1) ? column(5) : NaN) name "ONE" nooutput
    plot for [i = 1:words(peers)] lines using 3:(rate(int(readers), word(peers, i), 5)) with linespoints \
        linecolor rgb colour(i) linewidth width(i) dashtype dash(i) pointtype point(i) pointsize 0.8 notitle, \
        for [i = 1:words(peers)] lines using 3:(rate(int(readers), word(peers, i), 5)):(ends(int(readers), word(peers, i), 9)):(ends(int(readers), word(peers, i), 10)) \
        with yerrorbars linecolor rgb colour(i) linewidth 1 pointtype 0 notitle, \
        [1:processors] ONE_max * x with lines linecolor rgb "#000000" linewidth 1 dashtype 4 notitle
}

# The names, in a panel without axes.
set lmargin at screen 0.79
set rmargin at screen 0.995
set bmargin at screen 0.05
set tmargin at screen 0.97
unset label; unset object 1
unset border; unset tics; unset grid; unset xlabel; unset ylabel; unset title; unset logscale
set xrange [0:1]
set yrange [0:1]
set key at graph 0.02,0.98 left top Left reverse samplen 2.5 spacing 1.25
plot for [i = 1:words(peers)] NaN with linespoints linecolor rgb colour(i) linewidth width(i) dashtype dash(i) \
    pointtype point(i) pointsize 0.8 title word(peers, i), \
    NaN with lines linecolor rgb "#000000" linewidth 1 dashtype 4 title "ideal for regions"
unset multiplot
