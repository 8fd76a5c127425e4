//! How long each task takes on a section, in nanoseconds of the whole round: the best of the rounds, and the median.
//! Before it is timed each task tells what it answers, so that the two programs are compared.

use crate::crc::crc32;
use crate::looks::Seen;
use crate::numbers::Numbers;
use crate::open::{open, Keep, Section};
use crate::save::{File, With};
use std::time::{Duration, Instant};

const LOOKS: usize = 20_000;
const MOST_PIECE: u64 = 4096;
const ADDS: u64 = 400;
const COMMITS: u64 = 100;
/// What saving may add.
const GROWTH: usize = 1 << 20;

type Failed = Box<dyn std::error::Error>;

/// A node to look at.
struct Pick {
    list: u32,
    index: u64,
}

struct Times(Vec<Duration>);

impl Times {
    fn tell(mut self, name: &str, units: usize) {
        self.0.sort();
        let (best, median) = (self.0[0], self.0[self.0.len() / 2]);
        println!(
            "time {name} {} {} {units}",
            best.as_nanos(),
            median.as_nanos()
        );
    }
}

/// The times of a task's rounds, and the sum of what they answered.
fn timed(
    rounds: usize,
    mut task: impl FnMut() -> Result<u64, u32>,
) -> Result<(Times, u64), Failed> {
    let mut times = Times(Vec::new());
    let mut sum = 0u64;
    for _ in 0..rounds {
        let start = Instant::now();
        let answer = task().map_err(|number| format!("refused {number}"))?;
        times.0.push(start.elapsed());
        sum = sum.wrapping_add(answer);
    }
    Ok((times, sum))
}

pub fn measure(path: &str, rounds: usize, saved: &str, keep: Keep) -> Result<(), Failed> {
    let bytes = std::fs::read(path)?;
    println!("answer crc {}", crc32(&bytes));
    let (times, sum) = timed(rounds, || Ok(u64::from(crc32(&bytes))))?;
    println!("answer crc-timed {sum}");
    times.tell("crc", bytes.len());
    let section = open(&bytes, keep).map_err(|fault| format!("{fault:?}"))?;
    measure_opening(&bytes, rounds, keep, &section)?;
    let count = u64::from(section.header.count);
    measure_looks("newest", &section, &bytes, rounds, count)?;
    measure_looks("old", &section, &bytes, rounds, count.div_ceil(2))?;
    measure_data(&section, &bytes, rounds, count)?;
    measure_saving(&bytes, rounds, saved, keep)
}

fn measure_opening(
    bytes: &[u8],
    rounds: usize,
    keep: Keep,
    section: &Section,
) -> Result<(), Failed> {
    let header = section.header;
    let (lists, fragments) = (section.lists.len(), section.fragments);
    println!(
        "answer open {} {} {lists} {fragments} {}",
        header.count, header.end, section.percent
    );
    let nodes: usize = section.lists.iter().map(|list| list.count as usize).sum();
    let opened = || {
        open(bytes, keep)
            .map(|s| s.lists.len() as u64)
            .map_err(|f| f.number)
    };
    timed(rounds, opened)?.0.tell("open", nodes);
    Ok(())
}

/// Nodes of the lists as they were when `k` transactions were finished.
fn picks(section: &Section, k: u64) -> Result<Vec<Pick>, Failed> {
    let mut numbers = Numbers::new(k);
    let mut picks = Vec::new();
    for _ in 0..LOOKS {
        let list = section.lists[numbers.below(section.lists.len() as u64) as usize].id;
        let count = section
            .count_at(k, list)
            .map_err(|number| format!("refused {number}"))?;
        if count > 0 {
            picks.push(Pick {
                list,
                index: numbers.below(u64::from(count)),
            });
        }
    }
    Ok(picks)
}

fn mix(sum: u64, value: u64) -> u64 {
    (sum ^ value).wrapping_mul(0x0000_0100_0000_01B3)
}

/// All that a look answers, in one number.
fn all_of(sum: u64, seen: &Seen, payload: &[u8]) -> u64 {
    let sum = mix(mix(sum, u64::from(seen.id)), u64::from(seen.base));
    let sum = match seen.reference {
        None => mix(sum, 1),
        Some(span) => mix(mix(sum, span.start), span.size),
    };
    payload
        .iter()
        .fold(mix(sum, payload.len() as u64), |sum, byte| {
            mix(sum, u64::from(*byte))
        })
}

fn measure_looks(
    name: &str,
    section: &Section,
    bytes: &[u8],
    rounds: usize,
    k: u64,
) -> Result<(), Failed> {
    let picks = picks(section, k)?;
    let mut buffer = [0; 8192];
    let mut sum = 0;
    for Pick { list, index } in &picks {
        let seen = section
            .node(bytes, k, *list, *index, &mut buffer)
            .map_err(|n| n.to_string())?;
        sum = all_of(sum, &seen, &buffer[..seen.payload]);
    }
    let mut alike = 0;
    for pair in picks.windows(2) {
        let (one, other) = ((pair[0].list, pair[0].index), (pair[1].list, pair[1].index));
        alike += u32::from(
            section
                .alike(bytes, k, one, other)
                .map_err(|n| n.to_string())?,
        );
    }
    println!("answer {name} {} {sum} {alike}", picks.len());
    let looks = || {
        let mut sum = 0u64;
        for Pick { list, index } in &picks {
            let seen = section.node(bytes, k, *list, *index, &mut buffer)?;
            sum = sum.wrapping_add(u64::from(seen.id) + seen.payload as u64 + u64::from(buffer[0]));
        }
        Ok(sum)
    };
    let (times, sum) = timed(rounds, looks)?;
    println!("answer {name}-timed {sum}");
    times.tell(name, picks.len());
    Ok(())
}

fn measure_data(section: &Section, bytes: &[u8], rounds: usize, k: u64) -> Result<(), Failed> {
    let mut buffer = [0; 8192];
    let mut pieces = Vec::new();
    let mut sum = 0;
    for pick in picks(section, k)? {
        let look = section.node(bytes, k, pick.list, pick.index, &mut buffer);
        let seen = look.map_err(|n| n.to_string())?;
        if let (1, Some(span)) = (seen.base, seen.reference) {
            let size = span.size.min(MOST_PIECE);
            section
                .data(bytes, k, (pick.list, pick.index), (0, size), &mut buffer)
                .map_err(|n| n.to_string())?;
            sum = buffer[..size as usize]
                .iter()
                .fold(sum, |sum, byte| mix(sum, u64::from(*byte)));
            pieces.push((pick, size));
        }
    }
    println!("answer data {} {sum}", pieces.len());
    let looks = || {
        let mut sum = 0u64;
        for (Pick { list, index }, size) in &pieces {
            section.data(bytes, k, (*list, *index), (0, *size), &mut buffer)?;
            sum = sum.wrapping_add(u64::from(buffer[0]));
        }
        Ok(sum)
    };
    let (times, sum) = timed(rounds, looks)?;
    println!("answer data-timed {sum}");
    times.tell("data", pieces.len());
    Ok(())
}

/// The i-th add: a plain node, a node with data, or the first node of a new list.
fn add_of<'a>(i: u64, numbers: &mut Numbers, pattern: &'a [u8]) -> (u32, u32, &'a [u8], With<'a>) {
    let list = 16 + numbers.below(8) as u32;
    let id = 0x100 + numbers.below(0x200) as u32;
    let payload = &pattern[..numbers.below(56) as usize];
    let with = match i % 100 {
        50 => With::List { id: 5, payload },
        part if part % 4 == 1 => With::Data(&pattern[..1 + numbers.below(480) as usize]),
        _ => With::Nothing,
    };
    (list, id, payload, with)
}

/// Adds many nodes in one draft, commits it, and then commits many drafts with one node each.
fn save(file: &mut File, pattern: &[u8]) -> Result<(Duration, Duration), u32> {
    let mut numbers = Numbers::new(7);
    let start = Instant::now();
    let draft = file.begin()?;
    for i in 0..ADDS {
        let (list, id, payload, with) = add_of(i, &mut numbers, pattern);
        file.add(&draft, list, id, payload, with)?;
    }
    let adds = start.elapsed();
    file.commit(draft, &[1; 16]).map_err(|(_, number)| number)?;
    let start = Instant::now();
    for i in 0..COMMITS {
        let draft = file.begin()?;
        let (list, id, payload, with) = add_of(4 * i, &mut numbers, pattern);
        file.add(&draft, list, id, payload, with)?;
        file.commit(draft, &[2 + i as u8; 16])
            .map_err(|(_, number)| number)?;
    }
    let commits = start.elapsed();
    let draft = file.begin()?;
    file.add(&draft, 16, 5, pattern, With::Nothing)
        .map_or_else(|_| Ok(()), |_| Err(0u32))?;
    file.add(&draft, 16, 5, &pattern[..9], With::Nothing)?;
    file.abandon(draft)?;
    Ok((adds, commits))
}

fn measure_saving(bytes: &[u8], rounds: usize, saved: &str, keep: Keep) -> Result<(), Failed> {
    let pattern: Vec<u8> = (0..4096u32).map(|i| (7 * i + 3) as u8).collect();
    let ceiling = bytes.len() + GROWTH;
    let (mut adds, mut commits) = (Times(Vec::new()), Times(Vec::new()));
    for round in 0..rounds {
        // the room behind the bytes is touched before, so that no page of it is new to the saves
        let mut copy = bytes.to_vec();
        copy.resize(ceiling, 0);
        copy.truncate(bytes.len());
        let mut file = File::open(copy, ceiling as u64, keep).map_err(|f| format!("{f:?}"))?;
        let (some, more) = save(&mut file, &pattern).map_err(|n| format!("refused {n}"))?;
        adds.0.push(some);
        commits.0.push(more);
        if round == 0 {
            std::fs::write(saved, &file.bytes)?;
            looks_after(&file, saved)?;
        }
    }
    adds.tell("adds", ADDS as usize);
    commits.tell("commits", COMMITS as usize);
    Ok(())
}

/// What a file shows after its commits is what its bytes show when they are opened again.
fn looks_after(file: &File, saved: &str) -> Result<(), Failed> {
    let section = open(&std::fs::read(saved)?, Keep::Nodes).map_err(|f| format!("{f:?}"))?;
    let k = u64::from(section.header.count);
    let (mut one, mut other) = ([0; 8192], [0; 8192]);
    for Pick { list, index } in picks(&section, k)? {
        let now = file.section.node(&file.bytes, k, list, index, &mut one);
        if now != section.node(&file.bytes, k, list, index, &mut other) || one != other {
            return Err(format!("after saving, node {index} of list {list} is another").into());
        }
    }
    println!(
        "answer saved {} {} {}",
        k, section.header.end, section.fragments
    );
    Ok(())
}
