#!/bin/bash
#SBATCH --job-name=solve_apart --output=/dev/null --error=/dev/null
# A task of the array that `solve_apart --slurm` submits: one part, solved by its own parts for so many seconds.
#   sbatch --array=A-B part.sbatch SOLVE_APART DIR SECONDS
number=$SLURM_ARRAY_TASK_ID
exec "$1" "$2/$number.osil" --workers "${SLURM_CPUS_PER_TASK:-1}" --seconds "$3" --folder "$2/$number.parts" --output "$2/$number.osrl" --quiet
