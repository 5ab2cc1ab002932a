#!/bin/sh
#SBATCH --requeue
#SBATCH --open-mode=append
#SBATCH --signal=B:USR1@30
# A job over CSV as a job array of Slurm. Task K of N runs the slices K, K + N, K + 2N and so on. All tasks read the same file of records, and
# store their checkpoints in the same folder. Both are on a file system that all nodes see. Its locks have to hold between nodes: by them no two
# processes take one slice. docs/OPERATING.md says what to do if they don't.
#
#     sbatch --wait --array=0-15 --cpus-per-task=2 --mem=200M --time=60 examples/array/csv-slurm.sh 16 out/payroll november sheets.csv
#
# The arguments are N, the program, the folder and the file of records. A task that is run again resumes. So it is put into the queue again
#
# - if its time is over: 30 seconds before, Slurm sends USR1, and the program is ended, which costs at most the work since its last checkpoint;
# - a minute after the program's status 4: no memory, no room, a busy file. PAUSE names another number of seconds. Not after 20 times.
#
# It stays out of the queue if it FAILED (status 1), was stopped by FOLDER/stop (2), is refused (3) or has wrong words (5), since the same line
# won't help then; and if it is cancelled (scancel sends TERM). After the last task `PROGRAM --collect --output RESULTS FOLDER < RECORDS` writes
# the results.
#
# The status is the program's. SCONTROL names Slurm's command, else it is scontrol.
set -eu

if [ $# -ne 4 ]; then
    echo "csv-slurm.sh: it takes the number of tasks, the program, the folder and the file of records" >&2
    exit 5
fi
run= happened=

stop() {
    happened=$1
    [ -z "$run" ] || kill -TERM "$run" 2> /dev/null || true # it may have ended
}
trap '[ "$happened" = cancelled ] || stop "out of time"' USR1
trap 'stop cancelled' TERM

requeue() {
    [ "$happened" != cancelled ] && "${SCONTROL:-scontrol}" requeue "${SLURM_ARRAY_JOB_ID}_$SLURM_ARRAY_TASK_ID"
}

"$2" --threads "${SLURM_CPUS_PER_TASK:-1}" --part "$SLURM_ARRAY_TASK_ID/$1" "$3" < "$4" &
run=$!
[ -z "$happened" ] || stop "$happened" # a signal may have come before there was a process
status=0
wait "$run" || status=$?
while kill -0 "$run" 2> /dev/null; do # a signal ends a wait, and not yet the program
    status=0
    wait "$run" || status=$?
done
run=

case "$status $happened" in
    "0 "* | "1 "* | "2 "* | "3 "* | "5 "*) exit "$status" ;; # the program said what to do
    *"out of time") ! requeue || exit "$status" ;;
    "4 ")
        happened="status 4"
        if [ "${SLURM_RESTART_COUNT:-0}" -lt 20 ]; then
            sleep "${PAUSE:-60}"
            ! requeue || exit "$status"
        fi
        ;;
esac
echo "part $SLURM_ARRAY_TASK_ID/$1: ${happened:-stopped}, and not in the queue: submit the same line once more; it resumes" >&2
exit "$status"
