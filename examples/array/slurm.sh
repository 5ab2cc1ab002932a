#!/bin/sh
#SBATCH --requeue
#SBATCH --signal=B:USR1@90
# A job array of Slurm: each task runs its slice, and if it is run again, resumes from its last report. 90 seconds before its time is
# over Slurm sends USR1: the task ends with the run that is at work, and is put into the queue again. A cancel (scancel) sends TERM: it
# ends in the same way, and stays out of the queue. A stopped task that isn't in the queue says what to type. Slurm kills what hasn't ended 30
# seconds after a TERM (KillWait), so a run has about 15 seconds of rounds; RUN_SECONDS names another number.
#
# `cut` prints the line that submits it, with the numbers of the tasks and what each asks for:
#
#     sbatch --wait --array=0-15 --cpus-per-task=2 --mem=104M --time=7 --output=slices/task-%a.log --open-mode=append \
#         examples/array/slurm.sh examples/array/task slices
#
# The first argument is the script `task`, seen from the folder in which sbatch is called, on a file system that all nodes see, since
# Slurm runs a copy of this script. The status is the task's. SCONTROL names Slurm's command, else it is scontrol.
set -eu
export RUN_SECONDS="${RUN_SECONDS:-15}"

task= happened=stopped

stop() {
    happened=$1
    [ -z "$task" ] || kill -TERM "$task" 2> /dev/null || true # it may have ended
}
trap '[ "$happened" = cancelled ] || stop "out of time"' USR1
trap 'stop cancelled' TERM

"$1" "$2" "$SLURM_ARRAY_TASK_ID" &
task=$!
status=0
wait "$task" || status=$?
while kill -0 "$task" 2> /dev/null; do # a signal ends a wait, and not yet the task
    status=0
    wait "$task" || status=$?
done

if [ "$status" -eq 2 ]; then
    if [ "$happened" = "out of time" ] && "${SCONTROL:-scontrol}" requeue "${SLURM_ARRAY_JOB_ID}_$SLURM_ARRAY_TASK_ID"; then
        exit 2
    fi
    echo "task $SLURM_ARRAY_TASK_ID: $happened, and not in the queue: submit the same line once more; a completed task ends at once" >&2
fi
exit "$status"
