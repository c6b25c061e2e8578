# An SVG without its groups that have nothing in them, which are half of what gnuplot writes.
#
# usage: awk -f slim.awk FIGURE.svg
/^<g fill/ {
    if (held != "") print held
    held = $0
    next
}
held != "" {
    if ($0 != "</g>") print held "\n" $0
    held = ""
    next
}
{ print }
