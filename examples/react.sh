#!/bin/sh
# Says what the status of a run of `dsc` asks for, on the standard error, where systemd's journal takes it: `ExecStopPost=` of
# dsc-joining.service. systemd puts the status into EXIT_STATUS, or a signal's name where one ended the run.
case ${EXIT_STATUS-} in
0) exit ;;
1) say="notice: look at the answers: one at least is no report" ;;
2) say="error: the unit's command line is wrong" ;;
3 | 7) say="error: repair or split the input: the last line of the output says which line" ;;
4 | 5 | 6) say="warning: the input, the output or memory failed, and the run is tried again" ;;
*) say="error: the run ended otherwise: ${EXIT_STATUS:-no status}" ;;
esac
echo "dsc: $say" >&2
