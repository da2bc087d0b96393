# Shows a session beside its answers: awk -f show.awk NAME.session OUTPUT. A line for each request, then the live darts, the first
# 24 of them.
FNR == NR {
    part[FNR] = $0
    next
}
FNR == 1 { print part[1], part[2] }
/^no=/ {
    at = 3 + 4 * asked++
    printf "%-32s", part[at] " " part[at + 1] " " part[at + 2] " " part[at + 3]
}
/^(no|at)=/ { printf " %-6s", $0 }
/^(n|live|bad)=/ { print ($0 ~ /^n=/ ? " " : "") $0 }
/^dart=/ { dart = $0 }
/^to=/ && ++darts <= 24 { printf "%-9s %s\n", dart, $0 }
END {
    if (darts > 24)
        print "and " darts - 24 " darts more"
}
