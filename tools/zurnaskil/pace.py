"""How many rounds a run of `run-job` gets, and how far a job is: its share, the time that it took, and the time that is left."""
import time

from . import bound, limits

A_MINUTE = 60  # of rounds, in a run
MOST_GROWTH, TEN_TIMES = 100, 10
UNSURE, LEAST_UNSURE = 0.05, 0.01  # of what reading and printing takes, and seconds: taken for time of rounds


class Pace:
    """`rounds` is the number of the next run. A fixed one stays. Else the first run has `first`, and later ones as many as take about so many
    seconds, or as long as reading and printing takes, if that is longer.

    The time of rounds alone counts. What reading and printing takes is measured once, by a run of no round, and reckoned for each byte of a
    run's document and report."""

    def __init__(self, rounds, first, seconds=A_MINUTE):
        self.rounds, self.is_fixed, self.seconds = rounds or first, rounds is not None, seconds
        self.seconds_of_byte = 0
        self.seconds_of_round = None

    def measured(self, seconds, length):
        """Takes what a run without rounds took, with so many bytes of document and report."""
        self.seconds_of_byte = seconds / max(length, 1)

    def ran(self, rounds, seconds, length):
        """Takes what a run took, which has done so many rounds, with so many bytes of document and report."""
        beside = self.seconds_of_byte * length
        self.seconds_of_round = (max(seconds - beside, 0) + UNSURE * beside + LEAST_UNSURE) / max(rounds, 1)
        if not self.is_fixed:
            wanted = max(self.seconds, beside) / self.seconds_of_round
            self.rounds = max(1, min(int(wanted), self.rounds * MOST_GROWTH, limits.ROUNDS))

    def grow(self, rounds):
        """Takes ten times so many rounds; says whether these are more."""
        self.rounds = min(rounds * TEN_TIMES, limits.ROUNDS)
        return self.rounds > rounds

    def seconds_left(self, rounds, seconds_beside):
        """How long so many rounds take, where each run takes so many seconds beside its rounds."""
        return rounds * self.seconds_of_round + -(-rounds // self.rounds) * seconds_beside


class Progress:
    """How far a job is, over the runs of a call."""

    def __init__(self, document, pace):
        self.pace, self.began = pace, time.monotonic()
        self.at, self.done = self.began, 0  # when the last run ended, and how many records were done then
        try:
            self.records = {step["id"]: numbers.records for step, numbers in zip(document["job"]["step"], bound.all_numbers(document), strict=True)}
        except bound.UNSHAPED:
            self.records = {}

    def counted(self, report):
        """How many records of the job are done after this report, and how many it has: a step's ranges are those of its rows, once it has some."""
        step, done, all_records = report.steps[-1], 0, 0
        names = list(self.records) if step.name in self.records else [step.name]
        for place, name in enumerate(names):
            if place < names.index(step.name):
                done += self.records[name]
            all_records += sum(row.hi - row.lo for row in step.rows) if name == step.name else self.records[name]
        return done + sum(row.at - row.lo for row in step.rows), all_records

    def begin(self, report):
        """Takes the report that a call resumes from, if there is one."""
        self.at = time.monotonic()
        self.done = self.counted(report)[0] if report else 0

    def words_after(self, report, rounds, seconds):
        """How far the job is after a run of so many rounds, which took so many seconds. The call has taken more since the run before: for reading
        and writing by itself, too."""
        now, before = time.monotonic(), self.done
        self.done, all_records = self.counted(report)
        share = 100 * self.done // all_records if all_records else 100
        words = [f"{share}% of the job", f"{in_time(now - self.began)} elapsed"]
        if report.status == "STOPPED" and self.done > before:
            beside = now - self.at - rounds * min(self.pace.seconds_of_round, seconds / max(rounds, 1))
            rounds_left = rounds * (all_records - self.done) / (self.done - before)
            words.append(f"some {in_time(self.pace.seconds_left(rounds_left, beside))} left")
        self.at = now
        return ", ".join(words)


def in_time(seconds):
    """A time in its two largest units."""
    minutes, seconds = divmod(round(seconds), 60)
    hours, minutes = divmod(minutes, 60)
    days, hours = divmod(hours, 24)
    parts = [(days, "d"), (hours, "h"), (minutes, "min"), (seconds, "s")]
    first = next((place for place, (number, _) in enumerate(parts) if number), len(parts) - 1)
    return " ".join(f"{number} {unit}" for number, unit in parts[first : first + 2])
