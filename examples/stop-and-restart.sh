#!/bin/sh
# Runs payroll.json in one go, and then in runs of two rounds each, every restart on another number of threads; compares what comes of both.
#
#     examples/stop-and-restart.sh
#
# BATCHRUN names the program, else it is ./batchrun at the top, which builds the program where it isn't built.
set -eu

here=$(cd "$(dirname "$0")" && pwd)
program=${BATCHRUN:-$here/../batchrun}
job=$here/payroll.json
room=$(mktemp -d)
trap 'rm -r "$room"' EXIT

status=0
"$program" run < "$job" > "$room/whole.json" || status=$?
echo "in one go: status $status"

status=0
"$program" run --rounds 2 < "$job" > "$room/report.json" || status=$?
echo "two rounds: status $status"
threads=1
while [ "$status" = 2 ]; do
    threads=$((threads + 1))
    # The document of the restart: the job's, with the last step's outputs and saved object, and then with another number of threads.
    "$here/../tools/restart-document" "$job" < "$room/report.json" | sed "s/\"threads\":[0-9]*/\"threads\":$threads/" > "$room/restart.json"
    status=0
    "$program" restart --rounds 2 < "$room/restart.json" > "$room/report.json" || status=$?
    echo "two rounds more, on $threads threads: status $status"
done

# The outputs, rows and status of the step, however it was run.
for run in whole report; do
    sed 's/.*"outputs":\(.*\),"plans":.*,"saved":\(.*\)/\1 \2/' "$room/$run.json" > "$room/$run.left"
done
if [ -s "$room/whole.left" ] && cmp -s "$room/whole.left" "$room/report.left"; then
    echo "the outputs and rows are those of the run in one go"
else
    echo "THE OUTPUTS OR ROWS DIFFER from those of the run in one go" >&2
    exit 1
fi
