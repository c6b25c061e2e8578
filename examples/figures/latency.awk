# How many faults were found after so many cycles, by model: rows `CORE,MODEL,LATENCY,FAULTS,SHARE`. A latency of three digits or more is rounded up to
# two of them, so LATENCY says how many cycles it took at most. FAULTS is how many took so long, and SHARE is of all found faults of the model that of
# those which took no longer.
#
# usage: awk -v core=CORE -f latency.awk LINES..
BEGIN { FS = "," }
$9 ~ /^[0-9]+$/ {
    latency = rounded($9)
    many[$2, latency]++
    found[$2]++
    if (latency > most) most = latency
}
END {
    for (model in found) {
        sum = 0
        for (latency = 0; latency <= most; latency = rounded(latency + 1))
            if ((model, latency) in many) {
                sum += many[model, latency]
                printf "%s,%s,%d,%d,%.4f\n", core, model, latency, many[model, latency], sum / found[model]
            }
    }
}

function rounded(n,    unit) {
    for (unit = 1; n > 99 * unit; unit *= 10) ;
    return unit * int((n + unit - 1) / unit)
}
