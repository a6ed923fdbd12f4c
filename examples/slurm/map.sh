#!/bin/sh
#SBATCH --array=0-7 --requeue
# A mapper: evidence of one part of the receptions. It is written under another name first, so that a task that is ended in the
# middle, or runs twice, leaves one whole file. Status 1 says something of the signals.
part=part.$SLURM_ARRAY_TASK_ID
dsc evidence <"$part" >"$part.new" || [ $? = 1 ] || exit
mv "$part.new" "$part.evidence"
