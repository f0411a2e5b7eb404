#!/bin/bash
# Cuts the capture on one line of captures.txt: sbatch --array="1-$(wc -l < captures.txt)%4" cut.sbatch
#SBATCH --cpus-per-task=1 --mem=64M --output=cut-%A_%a.txt
capture=$(sed -n "${SLURM_ARRAY_TASK_ID}p" captures.txt)
to=out/${capture##*/}
bpftap cut -s 0 -e 'udp port 5353' "$capture" "$to.part" && mv -- "$to.part" "$to"
