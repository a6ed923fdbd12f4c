# Cuts the receptions of its starts out of a stream, each a line with the moment of its start in front, in seconds.
#
#     awk -v begins=SECONDS -v baud=100 [-v dsc=../dsc] -f receptions.awk stream starts
#
# stream is the input of `dsc capture`, and starts its output; begins is the moment of the stream's first element. A reception ends
# where the next start begins, or after 1,600 elements, as far as `capture` reads to decide a start. `join` takes the first start that it
# finds in a reception: where that is an earlier one that shows through, as `dsc capture` of the reception says, it is told and left out.
BEGIN { longest = 1600; if (!dsc) dsc = "dsc" }
NR == FNR { if (/^s /) heard = heard substr($0, 3); next }
$1 == "at" { cut($2); origin = $2; is_open = 1 }
END { cut(origin + longest) }

# Writes the reception from the last origin up to this one.
function cut(next_origin,    most, elements) {
    if (!is_open) return
    most = next_origin - origin < longest ? next_origin - origin : longest
    elements = substr(heard, origin + 1, most)
    if (begins_there(elements, origin < 0 ? origin : 0)) printf "%.2f %s\n", begins + origin / baud, elements
    else print "receptions.awk: left out the start at " origin > "/dev/stderr"
}

# Whether the first start in a reception is at this element of it.
function begins_there(elements, place,    run, line) {
    run = "echo s " elements " | " dsc " capture"
    run | getline line
    close(run)
    return index(line, "at " place " ") == 1
}
