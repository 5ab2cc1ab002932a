"""A step in rounds: its plans, what its analyzer hears, how its reducer is called, and its report."""
from .. import limits

from . import chunks, rows
from .parts import Refused
from .rounds import wrapped


class Broken(Exception):
    """A step that came to no end."""


class Partition(chunks.Partition):
    """One whose results are kept, with all its counts."""

    def __init__(self, chunk, data, row, outputs):
        super().__init__(chunk, data, row)
        self.outputs = outputs[: row.written]

    def commit(self, end, skipped):
        block, dropped = range(self.row.at, end), {record for fault in skipped for record in fault.dropped}
        results = self.results_of(block, dropped)
        self.outputs += [self.data.prefix + self.data.records[record] for record in results]
        read, filtered = len(block) - sum(fault.kind == "read" for fault in skipped), len(block) - len(dropped) - len(results)
        self.add(READ=read, FILTER=filtered, WRITE=len(results), written=len(results))
        super().commit(end, skipped)


class StepRun:
    """A run of a step: the plans of its rounds, and what was heard of each partition."""

    def __init__(self, step, tasks, partitions):
        self.name, self.tasks, self.threads = step.name, tasks, min(step.plan.threads or partitions, limits.THREADS)
        self.begun, self.stopped, self.plans, self.heard = ["begin"], False, [], [[] for _ in tasks]

    def run(self, limit):
        """Runs the partitions to their ends, in at most so many rounds. A chunk that isn't committed ends the plan after its round."""
        while any(counts := [task.chunks_left() for task in self.tasks]):
            if limit == 0:
                return self.stop()
            certificate, rounds = wrapped(counts, self.threads)
            self.plans.append([certificate, len(rounds), 0])
            for slots in rounds:
                are_committed = [self.attempt(slot[0]) for slot in slots if slot is not None]
                self.plans[-1][2] += 1
                limit -= 1
                if limit == 0 or not all(are_committed):
                    break

    def stop(self):
        self.stopped = True
        for task, heard in zip(self.tasks, self.heard):
            if task.chunks_left():
                heard.append("STOPPED")

    def attempt(self, partition):
        """Whether the next chunk was committed. It begins only where there is room for a rollback and for all repeats in place."""
        task, heard = self.tasks[partition], self.heard[partition]
        if task.row.ROLLBACK == limits.ROLLBACKS or task.row.in_place > limits.IN_PLACE - limits.RETRY_LIMIT:
            raise Broken(f"repository {len(self.tasks)}")
        committed = task.attempt()
        if committed:
            text = f"{partition}:{task.row.at}:{task.row.WRITE}"
            heard += [text, f"{text}:end", "COMPLETED"] if task.row.state == "done" else [text]
        elif task.failure:
            heard.append("FAILED")
        return committed

    @property
    def status(self):
        return "FAILED" if any(task.failure for task in self.tasks) else "STOPPED" if self.stopped else "COMPLETED"

    def report(self):
        return {
            "heard": self.heard,
            "outputs": [task.outputs for task in self.tasks],
            "plans": self.plans,
            "reducer": self.begun + (["before", "after COMMIT"] if self.status == "COMPLETED" else ["rollback", "after ROLLBACK"]),
            "saved": {"rows": [task.row for task in self.tasks], "step": self.name, "version": rows.VERSION},
            "status": self.status,
            "step": self.name,
        }


def begun(step, data):
    """A run of a step that begins."""
    ranges = step.plan.ranges_of(len(data.records))
    run = StepRun(step, [Partition(step.chunk, data, rows.begun(*each), []) for each in ranges], len(ranges))
    run.heard = [["COMPLETED"] if task.row.state == "done" else [] for task in run.tasks]
    return run


def resumed(step, data, resume):
    """A run that goes on from saved rows, where the plan gives the number of threads alone; with `override` it begins anew."""
    ranges = step.plan.ranges_of(len(data.records))
    if step.plan.override:
        run = begun(step, data)
        run.begun.append("rollback")
        return run
    if resume.past_end(len(data.records)):
        raise Refused("Saved(Records)")
    return StepRun(step, [Partition(step.chunk, data, *each) for each in zip(resume.rows.values(), resume.outputs)], len(ranges))
