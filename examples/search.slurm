#!/bin/sh
#SBATCH --job-name=deals
#SBATCH --ntasks=1
#SBATCH --cpus-per-task=1
#SBATCH --output=deals-%A_%a.log
# A shard of a search for each number of the array, COUNT candidates each:
#
#   sbatch --array=0-99 search.slurm FOLDER COUNT OPTIONS_OF_FIND..
#
# The folder is shared by all machines. Each has the script `shard`: where the package puts it, or where SHARD says.
set -eu
if [ $# -lt 2 ]; then
    echo "usage: sbatch --array=0-99 search.slurm FOLDER COUNT OPTIONS_OF_FIND.." >&2
    exit 2
fi
folder=$1
# In ten, without zeros in front: the shell's own arithmetic takes 010 for eight.
count=$(printf '%s\n' "$2" | sed 's/^0*\(.\)/\1/')
case $count in
'' | *[!0-9]* | ??????????????*)
    echo "search.slurm: '$2' is not a number of at most 13 digits" >&2
    exit 2
    ;;
esac
shift 2
exec "${SHARD:-/usr/share/doc/deals/examples/shard}" "$folder" $((SLURM_ARRAY_TASK_ID * count)) "$count" "$@"
