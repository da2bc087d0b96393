# best.awk - of several runs of bench the least time of each measurement, yardstick and kernel alike; prints what bench prints.
/^#/ { next }
$1 == "refusal" {
    if (!($2 in refused)) { refusal[++refusals] = $2; refused[$2] = $3; refused_test[$2] = $4 }
    if ($3 < refused[$2]) refused[$2] = $3
    if ($4 < refused_test[$2]) refused_test[$2] = $4
    next
}
$1 == "growth" { key = $2 " " $3; if (!(key in live)) growth[++grows] = key; live[key] = $6; next }
$1 == "bytes" { bytes[$2 " " $3 " " $4] = $5; next }
NF == 6 {
    key = $1 " " $2 " " $3
    if (!(key in yard)) { line[++lines] = key; yard[key] = $4; test[key] = $5 }
    if ($4 < yard[key]) yard[key] = $4
    if ($5 < test[key]) test[key] = $5
    next
}
{ print; bad = 1 }
END {
    if (bad) exit 1
    print "# call dim slots yardstick_ns kernel_ns ratio"
    for (x = 1; x <= lines; x++) {
        key = line[x]
        ratio = test[key] / yard[key]
        printf "%s %d %d %.2f\n", key, yard[key], test[key], ratio
        if (key ~ /^vtk-words /) { plain = yard[key] < test[key] ? yard[key] : test[key]; continue }
        calls++
        sum += log(ratio)
        if (ratio > worst) { worst = ratio; worst_key = key }
    }
    print "# room call dim slots: the kernel's time where the journal just has room, over its time where it is large"
    for (x = 1; x <= lines; x++) {
        key = line[x]
        if (sub(/-just-room /, " ", key)) printf "room %s %.2f\n", key, test[line[x]] / test[key]
    }
    print "# list dim slots: the kernel's time for a list of sews over its time for them as single calls; at most 0.02"
    for (x = 1; x <= lines; x++) {
        key = line[x]
        if (sub(/^sew-list /, "sew-singles ", key) && key in test) printf "list %s %.4f\n", substr(key, 13), test[line[x]] / test[key]
    }
    print "# pick sheet dim slots: the kernel's time for pick over its time for sheet, in the line of that name"
    for (x = 1; x <= lines; x++) {
        key = line[x]
        if (!sub(/^pick/, "sheet", key)) continue
        quotient = test[line[x]] / test[key]
        printf "pick %s %.3f\n", key, quotient
        picks++
        pick_sum += log(quotient)
        if (quotient > pick_worst) { pick_worst = quotient; pick_key = key }
        if (key ~ /-random / && quotient > random_worst) { random_worst = quotient; random_key = key }
    }
    print "# bytes line dim slots number yardstick kernel: of the text that the line reads, and how many million of them in a second"
    for (x = 1; x <= lines; x++) {
        key = line[x]
        if (key in bytes) printf "bytes %s %d %.0f %.0f\n", key, bytes[key], 1000 * bytes[key] / yard[key], 1000 * bytes[key] / test[key]
    }
    print "# words line dim slots yardstick kernel: time of reading over that of finding the words of the same text"
    for (x = 1; x <= lines; x++) {
        key = line[x]
        if (key ~ /^vtk-read /) printf "words %s %.2f %.2f\n", key, yard[key] / plain, test[key] / plain
    }
    print "# refusal call yardstick_ns kernel_ns: n = 9"
    for (x = 1; x <= refusals; x++) printf "refusal %s %.1f %.1f\n", refusal[x], refused[refusal[x]], refused_test[refusal[x]]
    print "# growth call dim yardstick kernel live: time at 65k over time at 8k, over live darts; 1 is linear"
    for (x = 1; x <= grows; x++) {
        key = growth[x]
        printf "growth %s %.2f %.2f %s\n", key, yard[key " 65536"] / yard[key " 8192"] / live[key], \
            test[key " 65536"] / test[key " 8192"] / live[key], live[key]
    }
    printf "worst ratio %.2f (%s), geometric mean %.2f, of %d measurements\n", worst, worst_key, exp(sum / calls), calls
    if (picks > 0)
        printf "pick over sheet: worst %.3f (%s), geometric mean %.3f, of %d; worst of -random %.3f (%s)\n", \
            pick_worst, pick_key, exp(pick_sum / picks), picks, random_worst, random_key
}
