"""Plans of rounds: which chunks run at once, and why there are no fewer rounds."""


def certificate_of(counts, rounds):
    if not sum(counts):
        return "Nothing"
    return next((f"Longest({partition})" for partition, count in enumerate(counts) if count == rounds), "FullLoad")


def wrapped(counts, threads):
    """The certificate, and for each round what each lane has in it: a partition and the number of a chunk, or None."""
    rounds = max([0, *counts, -(-sum(counts) // threads)])
    slots = [[None] * threads for _ in range(rounds)]
    unit = 0
    for partition, count in enumerate(counts):
        places = [divmod(place, rounds) for place in range(unit, unit + count)]
        for chunk, (lane, turn) in enumerate(sorted(places, key=lambda place: place[1])):
            slots[turn][lane] = partition, chunk
        unit += count
    return certificate_of(counts, rounds), slots


def first_fault(counts, threads, rounds):
    """Why these rounds are no lawful plan, or None. A round lists a lane, a partition and a chunk for each of its chunks."""
    ran = [0] * len(counts)
    for slots in rounds:
        lanes, partitions = set(), set()
        for lane, partition, chunk in slots:
            if lane >= threads:
                return "LaneRange"
            if partition >= len(counts) or chunk >= counts[partition]:
                return "Stranger"
            if lane in lanes or partition in partitions:
                return "TwiceInRound"
            if chunk != ran[partition]:
                return "OutOfOrder"
            lanes.add(lane)
            partitions.add(partition)
        for partition in partitions:
            ran[partition] += 1
    return None if ran == counts else "Missing"


def holds(certificate, counts, threads, rounds):
    """Whether it shows that no plan has fewer rounds than these; a number is a partition, the longest one."""
    if certificate == "Nothing":
        return sum(counts) == 0 and rounds == 0
    if certificate == "FullLoad":
        return rounds >= 1 and (rounds - 1) * threads < sum(counts)
    return certificate < len(counts) and counts[certificate] == rounds
