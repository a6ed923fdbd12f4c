# Puts receptions that begin close to each other into one group. Each line has a moment in seconds in front, and they rise.
#
#     sort -n heard | awk -v apart=10 -f groups.awk | dsc join
#
# A reception that begins more than `apart` seconds after the one before it begins a new group.
NR == 1 || $1 > last + apart { group = NR == 1 ? 0 : group + 1 }
{ last = $1; print "r g" group, $2 }
