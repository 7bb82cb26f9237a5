# From the requests of a sheet's input, and its answers in the file `answers`, the commands for gnuplot: see tools/plot.
# The averages are for the eye only; the positions are those of the answers.

# The mean of n values of the array x that end at bar i.
function mean(x, i, n,    j, sum) {
    for (j = i - n + 1; j <= i; j++) sum += x[j]
    return sum / n
}

# Reads one answer: its refusal, count and positions.
function read_answer(    i, text) {
    getline text < answers
    refusal = substr(text, 9, 4) + 0
    count = substr(text, 13, 6) + 0
    for (i = 0; i < count; i++) {
        getline text < answers
        position[i] = text + 0
    }
}

# The two lines that the rule compares, where they have cells; rule 1 compares the price itself.
function reckon(    i, j, high, low) {
    first_name = rule == 2 ? "mean of " n : rule == 3 ? "mean of " n : ""
    second_name = rule == 1 ? "mean of " n " means" : rule == 2 ? "mean of " m : "middle of " n " means"
    for (i = 0; i < bars; i++) {
        first[i] = second[i] = means[i] = "NaN"
        if (n >= 1 && i >= n - 1) means[i] = mean(price, i, n)
        if (rule != 1) first[i] = means[i]
        if (rule == 2 && m >= 1 && i >= m - 1) second[i] = mean(price, i, m)
        if (rule == 2 || n < 1 || i < 2 * n - 2) continue
        if (rule == 1) {
            second[i] = mean(means, i, n)
            continue
        }
        high = low = means[i]
        for (j = i - n + 1; j < i; j++) {
            if (means[j] > high) high = means[j]
            if (means[j] < low) low = means[j]
        }
        second[i] = (high + low) / 2
    }
}

function why() {
    if (refusal == 5) return "a price is beyond 1,073,741,824"
    if (refusal == 7) return "a window is above 720"
    if (refusal == 9) return "n is not below m"
    if (refusal == 15) return "the desk is not one of 1 to 16"
    return "a line breaks its columns, and nothing more is read"
}

# Keeps the commands of one panel; `panels` counts them.
function add(command) { commands = commands command "\n" }

# A place in the panel: a share of its height, from its top.
function at(share) { return "at screen (1 - (" panels " + " share ") / N)" }

# The data of the panel: bar, price, the two lines, position.
function data(    i) {
    printf "$r%d << END\n", panels
    for (i = 0; i < bars; i++)
        print i, price[i], first[i], second[i], (count > 0 ? position[i] : "NaN")
    print "END"
}

# A step of 1, 2 or 5 times a power of ten that divides so much into at most `most` parts.
function step_for(span, most,    step) {
    step = 1
    while (span / step > most) step *= (substr(step, 1, 1) == 2) ? 2.5 : 2
    return step
}

# A panel with its title, and a note where there are no positions.
function panel(title, note,    low, high, pad, i, plot) {
    low = high = bars ? price[0] : 0
    for (i = 1; i < bars; i++) {
        if (price[i] < low) low = price[i]
        if (price[i] > high) high = price[i]
    }
    pad = (high - low) * 0.08
    if (pad < 0.5) pad = 0.5
    data()

    add("set tmargin " at("0.15") "; set bmargin " at("0.63") "; unset label; unset arrow; set key on")
    add("set label '" title "' at graph 0, graph 1 offset 0, 0.9 font ',14'")
    add("set xrange [-0.6:" (bars ? bars : 1) - 0.4 "]; set xtics " step_for(bars, 16) " format ''")
    add("set yrange [" low - pad ":" high + pad "]; set ylabel 'ticks' offset 1")
    add("set ytics " step_for(high - low + 2 * pad, 5) " format '" (bars ? "%.0f" : "") "'")
    add("set boxwidth " (bars > 60 ? 1 : 0.9))
    plot = "plot $r" panels
    if (!note && first_name) plot = plot " using 1:3 with lines ls 2 title '" first_name "', ''"
    if (!note) plot = plot " using 1:4 with lines ls 3 title '" second_name "', ''"
    add(bars ? plot " using 1:2 with " (bars > 60 ? "lines" : "linespoints") " ls 1 title 'price'" : "plot NaN notitle")

    add("set tmargin " at("0.67") "; set bmargin " at("0.85") "; unset label; unset key; unset ylabel")
    add("set yrange [-1.2:1.2]; set ytics ('long' 1, 'flat' 0, 'short' -1)")
    add("set xtics format '" (bars ? "%g" : "") "'")
    add("set label '" (bars ? "bar" : "") "' at graph 0, graph 0 offset -1, -1.5 right textcolor rgb '#444444'")
    if (note) {
        add("set label '" note "' at graph 0.5, graph 0.5 center font ',14' textcolor rgb '#D55E00'")
        add("plot NaN notitle")
    } else {
        add("set arrow from graph 0, first 0 to graph 1, first 0 nohead lc rgb '#999999'")
        add("plot $r" panels " using 1:($5 == 1 ? 1 : NaN) with boxes ls 4, " \
            "'' using 1:($5 == -1 ? -1 : NaN) with boxes ls 5, '' using 1:($5 == 0 ? 0 : NaN) with points ls 6")
    }
    panels++
}

BEGIN {
    panels = 0
    name[1] = "one average"
    name[2] = "double"
    name[3] = "middle"
}

# Each request that the sheet read whole has an answer with its desk and rule, in order; after refusal 10 come no more.
{
    rule = substr($0, 5, 4) + 0
    n = substr($0, 9, 6) + 0
    m = substr($0, 15, 6) + 0
    bars = substr($0, 21, 6) + 0
    read_answer()
    if (refusal == 10) {
        bars = 0
        panel("request " panels + 1, "refused with 10: " why())
        exit
    }
    title = "desk " substr($0, 1, 4) + 0 ", " name[rule] ", n " n (rule == 2 ? ", m " m : "")
    for (i = 0; i < bars; i++) {
        getline line
        price[i] = line + 0
    }
    reckon()
    if (refusal) panel(title, "refused with " refusal ": " why())
    else panel(title, count ? "" : "answered with no position: " (bars ? "a window is 0" : "no bar"))
}

# Colours of Okabe and Ito, which colour-blind readers tell apart; lines differ in their dashes too.
END {
    print "N = " (panels ? panels : 1) ".0"
    print "set terminal svg size 900," 220 * (panels ? panels : 1) " noenhanced font 'sans-serif,13' background 'white'"
    print "set lmargin at screen 0.1; set rmargin at screen 0.98; set style fill solid 1.0 noborder"
    print "set key at graph 1, graph 1 right bottom horizontal samplen 3; set tics nomirror out"
    print "set border 3 lc rgb '#444444'; set grid ytics lt 1 lc rgb '#dddddd'"
    print "set style line 1 lc rgb '#000000' lw 1.5 pt 7 ps 0.4"
    print "set style line 2 lc rgb '#E69F00' lw 2.5"
    print "set style line 3 lc rgb '#009E73' lw 2.5 dt (8, 4)"
    print "set style line 4 lc rgb '#0072B2'"
    print "set style line 5 lc rgb '#D55E00'"
    print "set style line 6 lc rgb '#777777' pt 7 ps 0.5"
    print "set multiplot"
    printf "%s", commands
    if (!panels) print "unset border; unset tics; set title 'no request' offset 0,-5; plot [0:1][0:1] NaN notitle"
    print "unset multiplot"
}
