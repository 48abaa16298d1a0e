//! Stored answers of 000, which crates/replay holds and replays without 000: a job of each kind that the comparison draws.
//!
//! A record: the byte lengths of coordinates, predictors, responses, output and summary; the numbers of predictors, kernel and
//! kind; the bandwidth; the refusal's number; the job's group (8 bytes each). Then coordinates, predictors and responses, and
//! output and summary as they are after the call. Bytes that the call does not write are A5.

use crate::jobs::Group;
use crate::{Answer, Job, expected_weight};
use std::path::PathBuf;

/// Bytes of a record before its parts.
const HEAD: usize = 88;

/// Bytes that crates/replay has room for: coordinates, predictors, responses, output, summary.
const ROOM: [usize; 5] = [8208, 28672, 4112, 45056, 64];

/// Bytes of a record that is stored for its kernel, kind of bandwidth or number of predictors. A larger one is stored only where
/// nothing smaller of its group has its answer.
const SMALL: usize = 2048;

/// A call and its answer. A weight call has its distance in the place of the number of predictors, and no parts.
#[derive(Debug, Clone, PartialEq, Eq)]
pub struct Stored {
    /// Where it is drawn from.
    pub group: Group,
    /// The call.
    pub job: Job,
    /// Its answer, by 000.
    pub answer: Answer,
}

/// A weight call as a job of the group [`Group::Weights`].
pub fn weight_job(kernel: u64, d: u64, b: u64, room: usize) -> Job {
    let mut job = Job::new(&[], &[], &[], 0, (kernel, 0, b));
    job.p = d;
    job.out_len = room;
    job.summary_len = 0;
    job
}

/// What sort of number this is.
fn sort(bits: u64) -> String {
    let v = f64::from_bits(bits);
    let sign = if v.is_sign_negative() { "-" } else { "" };
    match v.abs() {
        1.0 => format!("{sign}1"),
        _ => format!("{sign}{:?}", v.classify()),
    }
}

/// The kinds that a call is of, with its answer. The first does not depend on the size of the record. A job that is solved by a
/// default count that 000 does not take is of a kind of its own alone: it stands in for no other.
pub fn kinds(group: Group, job: &Job, answer: &Answer) -> Vec<String> {
    let (name, number) = (group.name(), answer.number);
    if job.default_moved() && matches!(number, 0 | 14..=17) {
        return vec![format!(
            "{name} by a default count that 000 does not take, answered {number}"
        )];
    }
    let mut all = vec![format!("{name} answered {number}")];
    if job.kind >= 2 && job.n() == 512 {
        all.push(format!("{name} searched at n = 512, answered {number}"));
    }
    let kernel = job.kernel.min(3);
    if group == Group::Weights {
        let weight = match answer.out.first_chunk() {
            Some(w) => sort(u64::from_le_bytes(*w)),
            None => format!("room {}", job.out_len),
        };
        let (d, b) = (sort(job.p), sort(job.bandwidth));
        all.push(format!(
            "{name} by kernel {kernel} of {d} at {b}: {weight}, answered {number}"
        ));
        let room = job.out_len;
        all.push(format!("{name} with room {room}, answered {number}"));
    } else if size(job) <= SMALL {
        let (kind, p) = (job.kind.min(4), job.p.min(8));
        all.push(format!(
            "{name} by kernel {kernel}, kind {kind}, answered {number}"
        ));
        all.push(format!("{name} with {p} predictors, answered {number}"));
        if number == 0 {
            let aicc = answer.summary[8..16].try_into().expect("a summary of 24");
            let aicc = sort(u64::from_le_bytes(aicc));
            all.push(format!("{name} with an AICc that is {aicc}"));
        }
    }
    all
}

/// The lengths of a job's parts, output and summary.
fn lengths(job: &Job) -> [usize; 5] {
    [
        job.coords.len(),
        job.x.len(),
        job.y.len(),
        job.out_len,
        job.summary_len,
    ]
}

/// Bytes of a job's record.
pub fn size(job: &Job) -> usize {
    HEAD + lengths(job).iter().sum::<usize>()
}

/// Whether crates/replay has room for a job.
pub fn has_room(job: &Job) -> bool {
    lengths(job)
        .iter()
        .zip(ROOM)
        .all(|(len, room)| *len <= room)
}

/// The file of stored answers.
pub fn file() -> PathBuf {
    PathBuf::from(concat!(
        env!("CARGO_MANIFEST_DIR"),
        "/../../crates/replay/stdin"
    ))
}

/// Takes so many bytes from the front.
fn take<'a>(bytes: &mut &'a [u8], len: usize) -> Option<&'a [u8]> {
    let (front, rest) = bytes.split_at_checked(len)?;
    *bytes = rest;
    Some(front)
}

fn word(bytes: &mut &[u8]) -> Option<u64> {
    Some(u64::from_le_bytes(take(bytes, 8)?.try_into().ok()?))
}

impl Stored {
    /// A call with 000's answer. Only where [`crate::AVAILABLE`].
    pub fn new(group: Group, job: &Job) -> Self {
        let answer = match group {
            Group::Weights => {
                let (number, out) = expected_weight(job.kernel, job.p, job.bandwidth, job.out_len);
                Answer {
                    number,
                    out,
                    summary: Vec::new(),
                }
            }
            _ => job.expected(),
        };
        Stored {
            group,
            job: job.clone(),
            answer,
        }
    }

    /// The kinds that it is of.
    pub fn kinds(&self) -> Vec<String> {
        kinds(self.group, &self.job, &self.answer)
    }

    /// Its record.
    pub fn bytes(&self) -> Vec<u8> {
        let (job, answer) = (&self.job, &self.answer);
        let numbers = [
            job.p,
            job.kernel,
            job.kind,
            job.bandwidth,
            u64::from(answer.number),
            self.group as u64,
        ];
        let head = lengths(job)
            .map(|len| len as u64)
            .into_iter()
            .chain(numbers);
        let mut all: Vec<u8> = head.flat_map(u64::to_le_bytes).collect();
        for part in [&job.coords, &job.x, &job.y, &answer.out, &answer.summary] {
            all.extend(part);
        }
        all
    }

    fn read(bytes: &mut &[u8]) -> Option<Self> {
        let mut head = [0; HEAD / 8];
        for number in &mut head {
            *number = word(bytes)?;
        }
        let mut part = |at: usize| take(bytes, usize::try_from(head[at]).ok()?);
        Some(Stored {
            job: Job {
                coords: part(0)?.to_vec(),
                x: part(1)?.to_vec(),
                y: part(2)?.to_vec(),
                p: head[5],
                kernel: head[6],
                kind: head[7],
                bandwidth: head[8],
                out_len: head[3] as usize,
                summary_len: head[4] as usize,
            },
            answer: Answer {
                number: u32::try_from(head[9]).ok()?,
                out: part(3)?.to_vec(),
                summary: part(4)?.to_vec(),
            },
            group: *Group::ALL.get(usize::try_from(head[10]).ok()?)?,
        })
    }

    /// The records of a file, one after the other; nothing where it is not made of whole records.
    pub fn read_all(mut bytes: &[u8]) -> Option<Vec<Self>> {
        let mut all = Vec::new();
        while !bytes.is_empty() {
            all.push(Stored::read(&mut bytes)?);
        }
        Some(all)
    }
}

#[cfg(test)]
mod tests {
    use super::*;
    use crate::FILL;

    fn stored() -> Vec<Stored> {
        let bytes = std::fs::read(file()).expect("crates/replay/stdin is there");
        Stored::read_all(&bytes).expect("whole records")
    }

    #[test]
    fn a_record_is_read_as_it_was_written() {
        let mut job = Job::new(&[1.0, 2.0], &[], &[3.0], 0, (1, 3, 7));
        job.out_len += 3;
        let answer = Answer {
            number: 12,
            out: vec![FILL; job.out_len],
            summary: vec![FILL; 24],
        };
        let one = Stored {
            group: Group::Searches,
            job,
            answer,
        };
        let bytes = one.bytes();
        assert_eq!(bytes.len(), size(&one.job));
        let twice = [bytes.clone(), bytes.clone()].concat();
        assert_eq!(Stored::read_all(&twice), Some(vec![one.clone(), one]));
        assert_eq!(Stored::read_all(&bytes[1..]), None);
    }

    #[test]
    fn every_group_and_every_refusal_is_stored() {
        let all = stored();
        for group in Group::ALL {
            let some = all.iter().filter(|s| s.group == group).count();
            assert!(some >= 12, "{} has {some} stored answers", group.name());
        }
        for number in 0..=18 {
            let of = |s: &&Stored| s.answer.number == number && s.group != Group::Weights;
            assert!(
                all.iter().any(|s| of(&s)),
                "no fit call is answered {number}"
            );
        }
        for number in [0, 9, 13, 18] {
            let of = |s: &&Stored| s.answer.number == number && s.group == Group::Weights;
            assert!(
                all.iter().any(|s| of(&s)),
                "no weight call is answered {number}"
            );
        }
        let searched = |s: &&Stored| s.job.kind >= 2 && s.job.n() == 512 && s.answer.number == 0;
        assert_eq!(all.iter().filter(searched).count(), 3);
    }

    #[test]
    fn the_program_has_room_and_says_that_all_agree() {
        let all = stored();
        assert!(all.iter().all(|s| has_room(&s.job)));
        let said = std::fs::read_to_string(file().with_file_name("stdout")).unwrap();
        let count = all.len();
        assert_eq!(said, format!("{count} of {count} stored answers agree\n"));
    }
}
