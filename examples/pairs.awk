# Puts each reception of one call into a group of its own, and each two of them into one, for `dsc join`: up to 44 receptions.
/^r/ { heard[++count] = $NF }
END {
    for (one = 1; one <= count; one++)
        for (other = one; other <= count; other++) {
            print "r g" group + 0, heard[one]
            if (other > one) print "r g" group, heard[other]
            group++
        }
}
