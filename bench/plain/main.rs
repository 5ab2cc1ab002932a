//! A plain program that does what `batchrun` does on the documents of bench/compare.py: `plain run`, `plain restart`, `plain plan`.
//!
//! It reads the document into a tree that borrows its texts, runs each partition's chunks, and prints the outputs of each partition and
//! what a collector told of its commits; or it prints the plan. It is written as one would ship it, to measure against. A partition's
//! results are written, as the report has them, into one buffer of its own; those that a restart's document has of it go there as they are
//! read. With more than one thread in the document's plan, a pool of so many takes the partitions in turn, each to its end. What it leaves
//! out: it checks nothing of a document but that it is JSON, has one step, and no limits, listeners, analyzer or reducer; it makes no plan
//! for the chunks that it runs; it knows faults of processing alone, in their order, `bad` ones, which are skipped, and `shaky` ones, which
//! are retried after a rollback, record by record, or in place; it keeps no counts but that of results written, and no history. It looks
//! for the faults of a chunk before it makes the results, so that nothing has to be undone. Where something isn't as it expects, it ends
//! with status 1 and says nothing.

mod json;
mod number;
mod plan;

use json::{Texts, Tree, read};
use number::write_number;
use std::io::{Read, Write};
use std::mem;
use std::process::ExitCode;
use std::sync::Mutex;
use std::thread;

/// A record whose processing fails.
struct Fault {
    record: usize,
    /// How often it fails still; none where it always does.
    left: Option<usize>,
}

struct Step<'a> {
    records: &'a [Tree<'a>],
    prefix: &'a str,
    drop: Option<&'a str>,
    item_count: usize,
    threads: usize,
}

/// A partition's records from `at` on are still to be run.
struct Partition {
    at: usize,
    end: usize,
    faults: Vec<Fault>,
    outputs: Texts,
    /// What stands between the brackets of the report's list.
    heard: Vec<u8>,
}

impl Partition {
    fn new(at: usize, end: usize, outputs: Texts) -> Partition {
        Partition { at, end, faults: Vec::new(), outputs, heard: Vec::new() }
    }

    /// Notes what a collector tells of a commit, without the end of its text.
    fn hear(&mut self, place: usize) {
        self.heard.push(b'"');
        write_number(&mut self.heard, place as u64);
        self.heard.push(b':');
        write_number(&mut self.heard, self.at as u64);
        self.heard.push(b':');
        write_number(&mut self.heard, self.outputs.count as u64);
    }
}

/// The ranges of a plan, or of a step without one.
fn fresh(plan: Option<&Tree>, records: usize) -> Option<Vec<Partition>> {
    let Some(ranges) = plan.and_then(|it| it.get("ranges")) else { return Some(vec![Partition::new(0, records, Texts::default())]) };
    ranges
        .list()
        .iter()
        .map(|range| {
            let [at, end] = range.list() else { return None };
            Some(Partition::new(number(at)?, number(end)?, Texts::default()))
        })
        .collect()
}

/// The partitions of a stopped run: a row has its checkpoint behind its range, a writer its outputs, which are taken.
fn resumed(resume: &mut Tree) -> Option<Vec<Partition>> {
    let outputs = resume.take_texts("outputs")?;
    let rows = resume.get("saved")?.get("rows")?.list();
    rows.iter()
        .zip(outputs)
        .map(|(row, outputs)| {
            let row = row.list();
            Some(Partition::new(number(row.get(2)?)?, number(row.get(1)?)?, outputs))
        })
        .collect()
}

fn number(tree: &Tree) -> Option<usize> {
    tree.number()?.try_into().ok()
}

/// A fault of the document. One whose call is repeated in place fails no more when the chunk's faults are looked for.
fn fault(entry: &Tree, in_place: bool) -> Option<Fault> {
    let [record, kind, classes] = entry.list() else { return None };
    Some(Fault { record: number(record)?, left: if kind.text()? == "bad" { None } else { Some(if in_place { 0 } else { classes.list().len() }) } })
}

/// Gives each partition the faults of its records.
fn hand_out(faults: &[Tree], partitions: &mut [Partition], in_place: bool) -> Option<()> {
    let faults: Vec<Fault> = faults.iter().map(|it| fault(it, in_place)).collect::<Option<_>>()?;
    let mut faults = faults.into_iter().peekable();
    for partition in partitions {
        while let Some(fault) = faults.next_if(|it| it.record < partition.end) {
            if fault.record >= partition.at {
                partition.faults.push(fault);
            }
        }
    }
    Some(())
}

/// Whether a record of a chunk fails for a time: then it fails one time less from now on.
fn has_to_be_retried(faults: &mut [Fault]) -> bool {
    faults.iter_mut().filter_map(|it| it.left.as_mut()).find(|left| **left > 0).map(|left| *left -= 1).is_some()
}

/// Writes the results of a chunk, of those records that aren't skipped or filtered; these are its faults.
fn write_chunk(step: &Step, partition: &mut Partition, end: usize, faults: std::ops::Range<usize>) -> Option<()> {
    let mut next = faults.start;
    for record in partition.at..end {
        if next < faults.end && partition.faults[next].record == record {
            next += 1;
            if partition.faults[next - 1].left.is_none() {
                continue;
            }
        }
        let item = step.records[record].text()?;
        if !step.drop.is_some_and(|drop| item.starts_with(drop)) {
            partition.outputs.push([step.prefix, item]);
        }
    }
    partition.at = end;
    Some(())
}

/// Runs a partition to its end. What was rolled back is run again record by record.
fn run_partition(step: &Step, place: usize, partition: &mut Partition) -> Option<()> {
    if partition.at == partition.end {
        return Some(());
    }
    let (mut singly_to, mut fault) = (partition.at, 0);
    while partition.at < partition.end {
        let size = if partition.at < singly_to { 1 } else { step.item_count };
        let end = partition.end.min(partition.at + size);
        let count = partition.faults[fault..].iter().take_while(|it| it.record < end).count();
        if has_to_be_retried(&mut partition.faults[fault..fault + count]) {
            singly_to = singly_to.max(end);
            continue;
        }
        write_chunk(step, partition, end, fault..fault + count)?;
        fault += count;
        partition.hear(place);
        partition.heard.extend(b"\",");
    }
    partition.hear(place);
    partition.heard.extend(b":end\",\"COMPLETED\"");
    Some(())
}

/// Takes partitions in turn, until all are taken or one isn't as expected.
fn work<'a>(step: &Step, left: &Mutex<impl Iterator<Item = (usize, &'a mut Partition)>>) -> Option<()> {
    loop {
        let taken = left.lock().ok()?.next();
        match taken {
            Some((place, partition)) => run_partition(step, place, partition)?,
            None => return Some(()),
        }
    }
}

/// Runs all partitions, over a pool of threads.
fn run_all(step: &Step, partitions: &mut [Partition]) -> Option<()> {
    let threads = step.threads.min(partitions.len());
    let left = Mutex::new(partitions.iter_mut().enumerate());
    thread::scope(|scope| {
        let others: Vec<_> = (1..threads).map(|_| scope.spawn(|| work(step, &left))).collect();
        let own = work(step, &left);
        others.into_iter().try_fold((), |(), other| other.join().ok()?).and(own)
    })
}

fn write_lists<'a>(to: &mut impl Write, lists: impl Iterator<Item = &'a [u8]>) -> Option<()> {
    for (place, list) in lists.enumerate() {
        to.write_all(if place == 0 { b"[" } else { b",[" }).ok()?;
        to.write_all(list).ok()?;
        to.write_all(b"]").ok()?;
    }
    Some(())
}

fn run(document: &mut Tree) -> Option<()> {
    let resumed = match document.get_mut("resume") {
        Some(resume) => Some(resumed(resume)?),
        None => None,
    };
    let ([job_step], [data]) = (document.get("job")?.get("step")?.list(), document.get("data")?.list()) else { return None };
    let plan = job_step.get("partition").and_then(|it| it.get("plan"));
    let step = Step {
        records: data.get("records")?.list(),
        prefix: data.get("prefix").and_then(Tree::text).unwrap_or(""),
        drop: data.get("drop").and_then(Tree::text),
        item_count: number(job_step.get("chunk")?.get("item-count")?)?,
        threads: plan.and_then(|it| number(it.get("threads")?)).unwrap_or(1),
    };
    let mut partitions = match resumed {
        Some(partitions) => partitions,
        None => fresh(plan, step.records.len())?,
    };
    let faults = data.get("faults").and_then(|it| it.get("process")).map_or(&[][..], Tree::list);
    let in_place = job_step.get("chunk")?.get("no-rollback-exception-classes").is_some();
    hand_out(faults, &mut partitions, in_place)?;
    run_all(&step, &mut partitions)?;
    let mut out = std::io::stdout().lock();
    out.write_all(b"{\"heard\":[").ok()?;
    write_lists(&mut out, partitions.iter().map(|it| it.heard.as_slice()))?;
    out.write_all(b"],\"outputs\":[").ok()?;
    write_lists(&mut out, partitions.iter().map(|it| it.outputs.text.as_bytes()))?;
    out.write_all(b"]}\n").ok()
}

fn main() -> ExitCode {
    let word = std::env::args().nth(1).unwrap_or_default();
    let mut text = String::new();
    let ran = std::io::stdin().read_to_string(&mut text).ok().and_then(|_| read(&text)).and_then(|mut document| {
        let ran = match word.as_str() {
            "run" | "restart" => run(&mut document),
            "plan" => plan::plan(&document),
            _ => None,
        };
        // The system takes the memory back as a whole.
        mem::forget(document);
        ran
    });
    if ran.is_some() { ExitCode::SUCCESS } else { ExitCode::FAILURE }
}
