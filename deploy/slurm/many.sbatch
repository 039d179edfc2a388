#!/bin/bash
#SBATCH --job-name=solve_many --no-requeue --output=/dev/null --error=/dev/null
# A task of the array that solve_many submits: FILES is the command that solves a share of a folder's files. What a task leaves that was lost,
# solve_many submits again.
#   sbatch --array=0-N many.sbatch FILES DIR LIST TASKS [WORDS..]
exec "$1" "$2" "$3" "$SLURM_ARRAY_TASK_ID" "$4" "${@:5}"
