#!/bin/sh
# Writes each sentence of a line that goes on, with the time in UTC at which it came and its verdict in front.
#
#     receiver | sh verdicts.sh >> verdicts.log
grep --line-buffered '^[$]' | while IFS= read -r line; do
    echo "$(date -u +%FT%TZ) $(printf '%s\n' "$line" | dsc sentences) $line"
done
