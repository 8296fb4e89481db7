#!/usr/bin/env bash
#SBATCH --job-name=aec
#SBATCH --array=0-63%16
#SBATCH --time=00:10:00
#SBATCH --mem=64M
# Compresses one file in each task: task N compresses the file in line N of `names`, counted from 0.
set -euo pipefail
: "${SLURM_ARRAY_TASK_ID:?usage: sbatch array.slurm}"
name=$(sed -n "$((SLURM_ARRAY_TASK_ID + 1))p" names)
aec -n 16 -m -s -j 32 -r 128 "$name" "$name.part"
mv "$name.part" "$name.aec"
