#!/usr/bin/env bash
#SBATCH --job-name=cilknow
#SBATCH --signal=B:TERM@60
# The house on the job's first node, and a worker for each task of the job: sbatch --ntasks=64 slurm.sbatch FILE INPUT..
# A node that is lost costs its workers' work (-K0: the others go on). Queued again over the same store, the job goes on with the values
# that were saved; behind an outcome it answers that at once. STORE, KEY and PORT are taken from the environment.
set -eu
[ $# -gt 0 ] || { echo "usage: sbatch slurm.sbatch FILE INPUT.." >&2; exit 2; }
port=${PORT:-7700} store=${STORE:-$1.store} key=${KEY:-key}
[ -e "$key" ] || (umask 077 && head -c 32 /dev/urandom > "$key")
srun -K0 cilknow-node worker --join "${SLURMD_NODENAME:-$(hostname)}:$port" --key "$key" --grace 5 &
workers=$!
cilknow-node house "$@" --store "$store" --listen "0.0.0.0:$port" --key "$key" &
house=$!
# (told that its time is over, the job ends the house, and with it all else)
trap 'kill "$house" "$workers" 2> /dev/null || true' TERM
status=0
wait "$house" || status=$?
# (a signal ends the waiting, and not the house at once)
[ "$status" -lt 128 ] || { status=0 && wait "$house" || status=$?; }
# (workers that hear of the end go by themselves; a house that was refused has told none)
sleep 2
while kill "$workers" 2> /dev/null; do sleep 1; done
exit "$status"
