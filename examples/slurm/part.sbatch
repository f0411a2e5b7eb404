#!/bin/bash
# Cuts the part of big.pcap on one line of ranges.txt: sbatch --array="1-$(wc -l < ranges.txt)" part.sbatch
#SBATCH --cpus-per-task=1 --mem=64M --output=line-%A_%a.txt --error=fault-%A_%a.txt
range=$(sed -n "${SLURM_ARRAY_TASK_ID}p" ranges.txt)
bpftap cut --bytes "$range" -s 0 -e 'udp port 5353' big.pcap "part-$range.pcap"
