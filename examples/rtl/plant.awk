# Plants a bug: OLD, which has to stand in the file exactly once, becomes NEW.    Run: OLD='..' NEW='..' awk -f plant.awk CORE.v > BUG.v
BEGIN { old = ENVIRON["OLD"] }

{
    while ((place = index($0, old)) > 0) {
        printf "%s%s", substr($0, 1, place - 1), ENVIRON["NEW"]
        $0 = substr($0, place + length(old))
        found++
    }
    print
}

END {
    if (found != 1) {
        print "plant.awk: it stands there " found + 0 " times, and not once: " old > "/dev/stderr"
        exit 1
    }
}
