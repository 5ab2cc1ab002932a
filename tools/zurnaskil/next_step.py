"""What to type next for a job that isn't completed, by the cause."""
import shlex

OTHER_RECORDS = "put the records of the reports back, or start again in another folder"
SAVED = {
    "Saved(Records)": f"the job's records end before the ranges of its reports do: {OTHER_RECORDS}",
    "Saved(Step)": "the job has no step of the last report's id: give it that id, or start again in another folder",
}


def after_refusal(refused, place, check, call):
    """After the program has refused a document: `place` is the report that a restart resumes from, `check` the line that looks for all
    faults of the job's document."""
    name = refused.said.removeprefix("refused: ")
    if refused.word == "restart" and name in SAVED:
        return f"next: {SAVED[name]}"
    if refused.word == "restart" and (name.startswith("Saved(") or name.endswith("(outputs)")):
        return f"next: {place} was changed: move it away, to resume from the report before; then: {call}"
    return f"next: {check}"


def after_other_data(status, words):
    """If the document's data are others than those of the reports, whose job has this status; the words are those of the call."""
    if status == "COMPLETED":
        return "next: name another folder; the job of these reports is completed"
    changed = shlex.join([words[0], "--changed", *words[1:]])
    return f"next: to start again, name another folder; to do the rest with the new data: {changed}"


def after_failure(failures, job, call):
    """After partitions have failed; of each its failure, or None if it isn't known."""
    reasons = {failure.is_at_limit() for failure in failures if failure is not None}
    if not reasons:
        return f"go on: {call}"
    mended = {(True,): "raise the limit or mend the fault", (False,): "mend the fault or the rules"}.get(tuple(reasons))
    return f"next: {mended or 'mend the faults, the rules or the limits'} in {job} (a changed record needs --changed), then: {call}"
