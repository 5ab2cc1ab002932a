"""The documents that are measured: jobs of one step on one thread, restarts, and loads to be planned."""
import json
import subprocess
import sys

from measure import PROGRAM, in_a_process

STOPPED = 2


def even(records, partitions):
    """The ranges that divide so many records evenly."""
    cuts = [records * place // partitions for place in range(partitions + 1)]
    return [list(pair) for pair in zip(cuts, cuts[1:])]


def skewed(records, partitions):
    """Ranges of which the last one has half of the records."""
    half = records // 2
    return [*even(half, partitions - 1), [half, records]]


def job(texts, ranges, item_count):
    """A job of one step with these records, without faults."""
    plan = {"threads": 1, "ranges": ranges}
    step = {"id": "pay", "chunk": {"item-count": item_count}, "partition": {"plan": plan}}
    return {"job": {"id": "bench", "step": [step]}, "data": [{"records": texts}]}


def short(records, item_count, partitions=8, cut=even):
    """Records of ten bytes, which come out as they are."""
    return job([f"{place:010d}" for place in range(records)], cut(records, partitions), item_count)


def wide(records, item_count):
    """Records of 1,000 bytes."""
    return job([f"{place:010d}" * 100 for place in range(records)], even(records, 8), item_count)


def foreign(records, item_count):
    """Records of 30 bytes, of which two in three are of letters that aren't ASCII."""
    return job([f"{place:010d}" + "äöüßéñçøåž" for place in range(records)], even(records, 8), item_count)


def of_kind(records, characters):
    """Records of 4,096 bytes, or nearly so many, of these characters."""
    return job([characters * (4_096 // len(characters.encode()))] * records, even(records, 8), 1_000)


def faulty(records, item_count):
    """Pay slips of about 28 bytes with a prefix, of which 1 in 100 is shaky and 1 in 100 bad when it is processed."""
    texts = [f"{place:08d};{place % 977} h;{place % 3131}.{place % 100:02d} EUR" for place in range(records)]
    document = job(texts, even(records, 64), item_count)
    document["job"]["exception-classes"] = ["Busy", "Broken"]
    document["job"]["step"][0]["chunk"] |= {
        "retryable-exception-classes": {"include": ["Busy"]},
        "skippable-exception-classes": {"include": ["Broken"]},
        "retry-limit": 100_000,
    }
    shaky = [[place, "shaky", ["Busy"]] for place in range(50, records, 100)]
    bad = [[place, "bad", "Broken"] for place in range(99, records, 100)]
    document["data"][0] |= {"prefix": "PAY ", "drop": "#", "faults": {"process": sorted(shaky + bad)}}
    return document


def in_place(records, item_count):
    """The same pay slips, of which the shaky ones are repeated in place."""
    document = faulty(records, item_count)
    document["job"]["step"][0]["chunk"]["no-rollback-exception-classes"] = {"include": ["Busy"]}
    return document


def half_done(records, item_count, hundredths=50):
    """The restart of short records in 64 partitions that were stopped after so many of a hundred of their rounds."""
    document = short(records, item_count, partitions=64)
    words = [PROGRAM, "run", "--rounds", str(records // item_count * hundredths // 100)]
    stopped = subprocess.run(words, input=json.dumps(document).encode(), stdout=subprocess.PIPE, check=False)
    if stopped.returncode != STOPPED:
        sys.exit("the run wasn't stopped")
    step = json.loads(stopped.stdout)["steps"][-1]
    return document | {"resume": {"outputs": step["outputs"], "saved": step["saved"]}}


def threaded(make, threads, *given):
    """The same document, for so many threads."""
    document = make(*given)
    document["job"]["step"][0]["partition"]["plan"]["threads"] = threads
    return document


LARGE = 10_000_000


def write_large(path, kind):
    """Writes, piece by piece, a document with so many records of a byte, each of which is `bad` and skipped, or `shaky` and repeated in place;
    or, `refused`, with one fault more than a list may have."""
    rule, fault = '{"include":["Busy"]}', '[%d,"bad","Busy"]'
    rules = f'"skippable-exception-classes":{rule}'
    if kind == "shaky":
        fault, rules = '[%d,"shaky",["Busy"]]', f'"retryable-exception-classes":{rule},"no-rollback-exception-classes":{rule}'
    chunk = f'{{"item-count":1000,"retry-limit":100000,{rules}}}'
    plan = json.dumps({"threads": 1, "ranges": even(LARGE, 8)})
    step = f'{{"id":"pay","chunk":{chunk},"partition":{{"plan":{plan}}}}}'
    with open(path, "w", encoding="utf-8") as file:
        file.write(f'{{"job":{{"id":"bench","exception-classes":["Busy"],"step":[{step}]}},"data":[{{"records":["0"')
        file.write(',"1"' * (LARGE - 1))
        file.write('],"faults":{"process":[' + fault % 0)
        for place in range(1, LARGE + (kind == "refused")):
            file.write("," + fault % place)
        file.write("]}}]}")


def load(counts, threads):
    return {"counts": counts, "threads": threads}


def write(path, make, *given):
    """Writes a document that is made so."""
    in_a_process(write_here, path, make, *given)


def write_here(path, make, *given):
    with open(path, "w", encoding="utf-8") as file:
        json.dump(make(*given), file, ensure_ascii=False)
