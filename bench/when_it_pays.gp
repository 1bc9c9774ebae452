# Draws one mode of when_it_pays: holds a second of each lock beside those of a mutex, by the work under the lock, with the
# spread of the rounds as bars, and what each thread would do that never waits: as many holds as the work leaves time for.
#
#     gnuplot -e 'lines="FILE"; mode="writers of a page"; threads=4; taken="ON WHAT"; to="FILE.svg"' when_it_pays.gp
if (!exists("terminal")) terminal = "svg"
set terminal @terminal size 860,470 noenhanced font "sans-serif,13" background "white" linewidth 1.2
set output to
set datafile separator "\t"
set datafile missing NaN

peers = '"range lock, one list" "range lock, regions" "pthread_mutex" "pthread_rwlock" "64 mutexes" "interval tree" "FIFO range lock"'
colours = '#0b62b8 #d1350f #111111 #2e8b57 #8a5fbf #00a0a0 #e377c2'
widths = '3.5 3.5 1.8 1.8 1.8 1.8 1.8'
points = '7 5 9 13 11 4 12'
works = '0 100 300 1000 3000 10000'

rate(work, peer) = (strcol(1) eq mode && column(2) == threads && column(3) == work && strcol(4) eq peer ? column(5) : NaN)

# The mutex' holds by the place of the work in its row.
array mutex[words(works)]
do for [w = 1:words(works)] {
    stats lines using (rate(int(word(works, w)), "pthread_mutex")) name "M" nooutput
    mutex[w] = M_max
}
place(work) = (work == 0 ? 1 : work == 100 ? 2 : work == 300 ? 3 : work == 1000 ? 4 : work == 3000 ? 5 : 6)
of(peer) = (strcol(1) eq mode && column(2) == threads && strcol(4) eq peer)
beside(peer, n) = (of(peer) ? (valid(n) ? column(n) : column(5)) / mutex[place(column(3))] : NaN)
# Threads that never wait: a thousand holds a second of each thread for a microsecond of work.
set print $ideal
do for [w = 2:words(works)] { print sprintf("%d\t%g", w, threads * 1e6 / real(word(works, w)) / mutex[w]) }
unset print

set style line 100 linecolor rgb "#dddddd" linewidth 1
set grid ytics linestyle 100
set border 3 linecolor rgb "#666666"
set tics nomirror out
set logscale y 2
set yrange [0.125:*]
set ytics ("1/8" 0.125, "1/4" 0.25, "1/2" 0.5, "1" 1, "2" 2, "4" 4, "8" 8, "16" 16)
set xrange [0.8:6.2]
set xtics ("none" 1, "100 ns" 2, "300 ns" 3, "1 µs" 4, "3 µs" 5, "10 µs" 6)
set xlabel "work while a range is held (log)"
set ylabel "holds a second, times those of the mutex (log)" offset 1
set title sprintf("%s, %d threads", mode, threads)
set bmargin at screen 0.24
set label taken.";\nbars are from the least to the greatest of three rounds" at screen 0.01,0.065 left font ",11"
set key outside right top Left reverse samplen 3 spacing 1.3
plot for [i = 1:words(peers)] lines using (place(column(3))):(beside(word(peers, i), 5)) with linespoints \
    linecolor rgb word(colours, i) linewidth real(word(widths, i)) pointtype int(word(points, i)) pointsize 0.8 \
    title word(peers, i), \
    for [i = 1:words(peers)] lines using (place(column(3))):(beside(word(peers, i), 5)):(beside(word(peers, i), 6)):(beside(word(peers, i), 7)) \
    with yerrorbars linecolor rgb word(colours, i) linewidth 1 pointtype 0 notitle, \
    $ideal using 1:2 with lines linecolor rgb "#000000" linewidth 1 dashtype 4 title "ideal: work alone"
