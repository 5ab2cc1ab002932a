//! McNaughton's wrap-around: the chunks of all partitions in a row, cut into lanes as long as the plan has rounds. A partition that a cut
//! divides runs its part behind the cut first.

use crate::json::Tree;
use crate::number::write_number;
use std::io::Write;
use std::vec::IntoIter;

/// So many bytes are handed on at once, and a line more.
const BLOCK: usize = 65_536;

/// Chunks of a partition, one after another, that a lane runs in as many rounds.
struct Stretch {
    partition: u64,
    chunk: u64,
    end: u64,
}

/// What a lane has still to run. Its label is what is written before each chunk of a stretch.
struct Lane {
    stretches: IntoIter<Stretch>,
    label: Vec<u8>,
    chunk: u64,
    end: u64,
}

impl Lane {
    fn new(stretches: Vec<Stretch>) -> Lane {
        let mut lane = Lane { stretches: stretches.into_iter(), label: Vec::new(), chunk: 0, end: 0 };
        lane.begin_stretch();
        lane
    }

    fn begin_stretch(&mut self) {
        if let Some(Stretch { partition, chunk, end }) = self.stretches.next() {
            (self.chunk, self.end) = (chunk, end);
            self.label.clear();
            self.label.push(b' ');
            write_number(&mut self.label, partition);
            self.label.push(b'.');
        }
    }

    fn is_idle(&self) -> bool {
        self.chunk == self.end
    }

    fn write_chunk(&mut self, line: &mut Vec<u8>) {
        line.extend_from_slice(&self.label);
        write_number(line, self.chunk);
        self.chunk += 1;
        if self.chunk == self.end {
            self.begin_stretch();
        }
    }
}

/// The lanes of a load that isn't empty.
fn lanes(counts: &[u64], rounds: u64, threads: u64) -> Vec<Lane> {
    let mut lanes: Vec<Vec<Stretch>> = (0..threads).map(|_| Vec::new()).collect();
    let mut place = 0;
    for (partition, &count) in (0..).zip(counts) {
        let behind = count.saturating_sub(rounds - place % rounds);
        for (chunk, end) in [(behind, count), (0, behind)] {
            if chunk < end {
                lanes[(place / rounds) as usize].push(Stretch { partition, chunk, end });
                place += end - chunk;
            }
        }
    }
    lanes.into_iter().map(Lane::new).collect()
}

/// Writes the lines of all rounds. Lanes become idle from the last one on.
fn write_rounds(out: &mut impl Write, mut lanes: Vec<Lane>, rounds: u64) -> Option<()> {
    let idle = b" -".repeat(lanes.len());
    let mut block = Vec::with_capacity(2 * BLOCK);
    let mut busy = lanes.len();
    for round in 0..rounds {
        while busy > 0 && lanes[busy - 1].is_idle() {
            busy -= 1;
        }
        write_number(&mut block, round);
        block.push(b':');
        for lane in &mut lanes[..busy] {
            lane.write_chunk(&mut block);
        }
        block.extend_from_slice(&idle[2 * busy..]);
        block.push(b'\n');
        if block.len() >= BLOCK {
            out.write_all(&block).ok()?;
            block.clear();
        }
    }
    out.write_all(&block).ok()
}

/// Prints a least plan of the document's load, as `batchrun plan` does.
pub fn plan(document: &Tree) -> Option<()> {
    let counts: Vec<u64> = document.get("counts")?.list().iter().map(Tree::number).collect::<Option<_>>()?;
    let threads = document.get("threads")?.number()?;
    let total: u64 = counts.iter().sum();
    let longest = counts.iter().copied().max().unwrap_or(0);
    let mut out = std::io::stdout().lock();
    if total == 0 {
        return out.write_all(b"rounds 0 Nothing\n").ok();
    }
    let rounds = longest.max(total.div_ceil(threads));
    match counts.iter().position(|count| *count == rounds) {
        Some(longest) => writeln!(out, "rounds {rounds} Longest({longest})").ok()?,
        None => writeln!(out, "rounds {rounds} FullLoad").ok()?,
    }
    write_rounds(&mut out, lanes(&counts, rounds, threads), rounds)
}
