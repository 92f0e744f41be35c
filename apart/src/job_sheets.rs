//! Job sheets swept: trees of every size and depth, sums and nets at their ends, every pair of refusals, every line and
//! byte spoiled, and sheets at the greatest size.

use crate::bench::Bench;
use crate::chance::Chance;
use crate::figures::HALF;
use crate::harm::spoiled_at;
use crate::job::{self, Entry, DEEPEST, LARGEST_SUM, MOST_BYTES, MOST_ENTRIES, SOLID, SUM_DIGITS, VOID};
use crate::jobs::*;
use crate::make;
use crate::protocol::*;
use crate::refusal::{ALTERNATION, BAD_FORM, DEPTH, ENTRIES, KIND, NAME, SUM};

const TOPS: [u8; 2] = [VOID, SOLID];
/// The refusals of the entries, in their order.
const FAULTS: [i64; 6] = [ENTRIES, KIND, NAME, ALTERNATION, DEPTH, SUM];

pub fn run(bench: &mut Bench, chance: &mut Chance) {
    halves(bench, chance);
    large_nets(bench, chance);
    sums(bench, chance);
    trees(bench, chance);
    faults(bench, chance);
    pairs(bench, chance);
    one_entry_twice_wrong(bench, chance);
    pairs_with_bad_form(bench, chance);
    counts(bench, chance);
    fields(bench);
    lines(bench);
    sizes(bench, chance);
    stages(bench, chance);
    bytes(bench, chance);
    hostile(bench, chance);
}

/// A job made to have a net: where another way to it says otherwise, it was made wrongly.
fn with_wanted_net(bench: &mut Bench, job: Vec<Entry>, net: i128, moved: i128, chance: &mut Chance) -> Vec<Entry> {
    let job = with_net(job, net, moved, chance);
    let found = job::topmost_net(&job::write(&job));
    if found != Ok(net) {
        bench.tally.fail("jobs: the maker", &format!("{found:?} for the net {net}"), "");
    }
    job
}

/// Nets at halves and wholes on both sides of zero, and one to each side of them, of sums that rounded one by one would
/// come elsewhere.
fn halves(bench: &mut Bench, chance: &mut Chance) {
    for halves in [0, 1, 2, 3, 5, 8, 101, 256_000_000_001] {
        for net in (-1..=1).map(|beside| halves * HALF + beside).flat_map(|net| [net, -net]) {
            for top in TOPS {
                let count = chance.pick(&[2, 3, 5, 9, 20, 32]);
                let job = tree(top, count, 2 + chance.below(count.min(DEEPEST) - 1), chance);
                let moved = chance.pick(&[HALF, 7 * HALF, LARGEST_SUM]);
                let job = with_wanted_net(bench, job, net, moved, chance);
                answered(bench, "sweep: nets at a half", &job);
            }
        }
    }
}

/// Nets at the ends of 63 and 64 bits, and the largest there are.
fn large_nets(bench: &mut Bench, chance: &mut Chance) {
    let most = MOST_ENTRIES as i128 * LARGEST_SUM;
    for past in [PAST_63, PAST_64] {
        // An odd number of halves near it.
        let half = (past / HALF | 1) * HALF;
        for net in [past - 1, past, past + 1, half - 1, half, (past + past / 4).min(most)] {
            for (net, top) in [(net, VOID), (-net, VOID), (net, SOLID), (-net, SOLID)] {
                let job = tree(top, MOST_ENTRIES, 2 + chance.below(DEEPEST - 1), chance);
                let moved = chance.pick(&[0, 5, LARGEST_SUM]);
                let job = with_wanted_net(bench, job, net, moved, chance);
                answered(bench, "sweep: nets past 63 and 64 bits", &job);
            }
        }
    }
    // Every sum at the bound: a void of 768e15 with 31 solids of -768e15, and the like.
    for (net, top) in [most, most - 1, most - HALF].into_iter().flat_map(|net| [(net, VOID), (-net, SOLID)]) {
        let job = with_wanted_net(bench, star(top, MOST_ENTRIES), net, 0, chance);
        answered(bench, "sweep: nets past 63 and 64 bits", &job);
    }
}

/// Sums at the bound, past it, at the ends of their digits and of 64 bits, alone and in another entry.
fn sums(bench: &mut Bench, chance: &mut Chance) {
    let digits = 10i128.pow(SUM_DIGITS as u32);
    let near = [0, HALF, 1 << 32, LARGEST_SUM, digits, 10 * digits, PAST_63, PAST_64, 1 << 80];
    for size in near.into_iter().flat_map(|size| [size - 1, size, size + 1]) {
        for sum in [size, -size] {
            for mut job in [shaped(chance.pick(&TOPS), &[]), station(), chain(VOID, DEEPEST)] {
                let last = job.len() - 1;
                job[chance.pick(&[0, last, last])].sum = sum;
                answered(bench, "sweep: sums of a job", &job);
            }
        }
    }
    for digits in 1..=SUM_DIGITS as u32 + 2 {
        let mut job = station();
        job[0].sum = 10i128.pow(digits) - 1;
        job[2].sum = -10i128.pow(digits - 1);
        answered(bench, "sweep: sums of a job", &job);
    }
}

/// Chains, stars and trees of every size up to one too many, and of every depth up to one too deep.
fn trees(bench: &mut Bench, chance: &mut Chance) {
    let kind = "sweep: jobs of every shape";
    for top in TOPS {
        for count in 1..=MOST_ENTRIES + 1 {
            let deepest = count.min(DEEPEST);
            for job in [chain(top, count), star(top, count), tree(top, count, deepest, chance)] {
                let job = with_some_sums(job, chance);
                answered(bench, kind, &job);
            }
        }
        for deepest in 2..=DEEPEST + 1 {
            for count in [deepest, deepest + 1, MOST_ENTRIES, MOST_ENTRIES + 1] {
                let job = tree(top, count, deepest, chance);
                let job = with_some_sums(job, chance);
                answered(bench, kind, &job);
            }
        }
    }
}

/// Holds a sheet's maker to the refusals that it was to bring about, and asks.
fn refused(bench: &mut Bench, kind: &str, job: &[Entry], numbers: &[i64]) {
    let text = job::write(job);
    let holding = job::holding(&text);
    if !numbers.iter().all(|number| holding.contains(number)) || holding.len() != numbers.len() {
        bench.tally.fail("jobs: the maker", &format!("{numbers:?} were to hold, and {holding:?} do"), "");
    }
    bench.try_call(kind, &job_request(&text));
}

/// Some job that is still small with two faults in it.
fn some_honest(chance: &mut Chance) -> Vec<Entry> {
    let job = tree(some_top(chance), 2 + chance.below(5), 2, chance);
    with_some_sums(job, chance)
}

/// Each fault alone at every place of a job, the last among them; and those that the first entry alone can have.
fn faults(bench: &mut Bench, chance: &mut Chance) {
    let kind = "sweep: one fault in a job";
    for number in FAULTS {
        let honest = some_honest(chance);
        for place in 1..=honest.len() {
            let mut job = honest.clone();
            fault(&mut job, number, place, chance);
            refused(bench, kind, &job, &[number]);
        }
    }
    for letter in b'A'..=b'Z' {
        let job = [Entry { letter, name: None, sum: 3 }];
        answered(bench, kind, &job);
    }
    for name in [0, 1, 9, 999_999] {
        for count in [1, 4] {
            let mut job = star(some_top(chance), count);
            job[0].name = Some(name);
            refused(bench, kind, &job, &[NAME]);
        }
    }
    // Entries past the 32nd, with every fault: the count is refused first, whatever they say.
    for number in FAULTS {
        for place in [MOST_ENTRIES, MOST_ENTRIES + 1] {
            let mut job = with_some_sums(star(some_top(chance), MOST_ENTRIES + 1), chance);
            fault(&mut job, number, place, chance);
            let both = if number == ENTRIES { vec![ENTRIES] } else { vec![ENTRIES, number] };
            refused(bench, kind, &job, &both);
        }
    }
}

/// Every two faults in one job, the one that is refused before the other and behind it. Any two can hold together in
/// different entries. What can't is a count of 0 with any other, as no entry is there to have it.
fn pairs(bench: &mut Bench, chance: &mut Chance) {
    for (at, &first) in FAULTS.iter().enumerate() {
        for &second in &FAULTS[at + 1..] {
            for before in [true, false] {
                let mut job = some_honest(chance);
                let (early, late) = if before { (first, second) } else { (second, first) };
                fault(&mut job, early, 1, chance);
                let place = job.len();
                fault(&mut job, late, place, chance);
                refused(bench, "sweep: two faults in a job", &job, &[first, second]);
            }
        }
    }
}

/// Two faults in one entry, where it can have both. One that is neither void nor solid is of no entry's kind, and one
/// that names no earlier entry stands in none: 21 with 23, 22 with 23 and 22 with 24 are never one entry's.
fn one_entry_twice_wrong(bench: &mut Bench, chance: &mut Chance) {
    let kind = "sweep: an entry with two faults";
    let beyond = [LARGEST_SUM + 1, -LARGEST_SUM - 1];
    let at_most = with_some_sums(chain(some_top(chance), DEEPEST), chance);
    let last = DEEPEST - 1;
    let [top, inner] = [at_most[0].letter, at_most[1].letter];
    let deeper = |letter: u8, sum: i128| [&at_most[..], &[Entry { letter, name: Some(last), sum }]].concat();
    let beside = |letter: u8, name: Option<usize>, sum: i128| [&at_most[..], &[Entry { letter, name, sum }]].concat();
    for sum in beyond {
        refused(bench, kind, &deeper(top, sum), &[DEPTH, SUM]);
        refused(bench, kind, &deeper(inner, sum), &[ALTERNATION, DEPTH, SUM]);
        refused(bench, kind, &deeper(b'X', sum), &[KIND, DEPTH, SUM]);
        refused(bench, kind, &beside(top, Some(0), sum), &[ALTERNATION, SUM]);
        refused(bench, kind, &beside(b'P', Some(0), sum), &[KIND, SUM]);
        for name in [None, Some(DEEPEST), Some(DEEPEST + 1)] {
            refused(bench, kind, &beside(inner, name, sum), &[NAME, SUM]);
            refused(bench, kind, &beside(b'A', name, sum), &[KIND, NAME, SUM]);
        }
    }
    refused(bench, kind, &deeper(inner, 0), &[ALTERNATION, DEPTH]);
    refused(bench, kind, &deeper(b'N', 0), &[KIND, DEPTH]);
    refused(bench, kind, &beside(b'T', None, 0), &[KIND, NAME]);
}

/// A fault and bad form in one sheet: in a line before it, in its own, behind it, in the first line, by the size.
fn pairs_with_bad_form(bench: &mut Bench, chance: &mut Chance) {
    for number in FAULTS {
        let mut job = some_honest(chance);
        let place = 1 + chance.below(job.len());
        fault(&mut job, number, place, chance);
        let text = String::from_utf8(job::write(&job)).expect("ascii");
        refused(bench, "sweep: a fault and bad form", &job, &[number]);
        let lines: Vec<&str> = text.lines().collect();
        for at in [0, 1, place + 1, lines.len() - 1] {
            let mut changed = lines.clone();
            let spoiled = changed[at].to_string() + chance.pick(&[" ", "\t", "\t0", "\r", "x"]);
            changed[at] = &spoiled;
            in_bad_form(bench, (changed.join("\n") + "\n").as_bytes());
        }
        let more = format!("{text}J\tV\t0\t0\n");
        for other in [text.trim_end(), &more, &text.replacen('\t', "\t0", 1), &format!("{text}\n")] {
            in_bad_form(bench, other.as_bytes());
        }
        let mut long = text.into_bytes();
        long.resize(MOST_BYTES + 1, b'\n');
        in_bad_form(bench, &long);
    }
    // No entry at all is refused by its count, and nothing else but the form is there to be asked.
    refused(bench, "sweep: a fault and bad form", &[], &[ENTRIES]);
    for text in ["JOB\t0\n\n", "JOB\t0", "JOB\t-0\n", "JOB\t0\nJ\n", "JOB\t0\nJ\tV\t-\t1\n"] {
        in_bad_form(bench, text.as_bytes());
    }
}

fn in_bad_form(bench: &mut Bench, text: &[u8]) {
    if job::holding(text) != [BAD_FORM] {
        bench.tally.fail("jobs: the maker", &format!("in form: {}", text.escape_ascii()), "");
    }
    bench.try_call("sweep: a fault and bad form", &job_request(text));
}

/// Counts against the number of lines.
fn counts(bench: &mut Bench, chance: &mut Chance) {
    let most = MOST_ENTRIES;
    for lines in [0, 1, 2, most - 1, most, most + 1, most + 2] {
        let job = if lines == 0 { vec![] } else { with_some_sums(star(some_top(chance), lines), chance) };
        // 256 and 65,536 more come back to the lines when cut to 8 or 16 bits.
        for count in [0, 1, 2, most - 1, most, most + 1, most + 2, lines + 256, lines + 65_536, 999_999] {
            bench.try_call("sweep: counts of job sheets", &job_request(&job::write_counted(count, &job)));
        }
    }
}

/// Fields to put in place of the count, the letter, the name and the sum; a few of them are honest.
#[rustfmt::skip]
const COUNTS: [&str; 20] = [
    "", "-", "-3", "-0", "+3", "03", "000003", "0000003", "3 ", " 3", "3\t", "\t3", "3\r", "3\t3", "1000000", "4294967299",
    "18446744073709551619", "3.0", "x", "3\0",
];
#[rustfmt::skip]
const LETTERS: [&str; 18] = [
    "", "S", "V", "v", "s", "VS", "SS", "S ", " S", "-", "0", "X", "Z", "A", "@", "[", "\u{d6}", "S\tS",
];
#[rustfmt::skip]
const NAMES: [&str; 26] = [
    "", "-", "--", "-0", "-1", "0", "00", "01", "+0", "1", "2", "3", "32", "256", "65536", "999999", "1000000", "000000",
    "4294967296", "18446744073709551616", " 0", "0 ", "- ", "x", "0\r", "-\t0",
];
#[rustfmt::skip]
const SUMS: [&str; 30] = [
    "", "-", "0", "-0", "00", "-00", "+1", "1", "-1", "--1", "1-", "01", "-01", " 1", "1 ", "1\t", "1\r", "1.0", "1e3", "x",
    "768000000000000000", "768000000000000001", "-768000000000000000", "-768000000000000001", "999999999999999999",
    "-999999999999999999", "1000000000000000000", "-1000000000000000000", "000000000000000001", "18446744073709551617",
];

/// Single fields put in place of a station's, whose net lies at a half: one more or less in any sum shows.
fn fields(bench: &mut Bench) {
    let lines = [vec!["JOB", "3"], vec!["J", "V", "-", "3000000"], vec!["J", "S", "0", "0"], vec!["J", "V", "1", "0"]];
    let cases =
        [(0, 1, &COUNTS[..]), (1, 1, &LETTERS), (2, 1, &LETTERS), (1, 2, &NAMES), (2, 2, &NAMES), (3, 2, &NAMES)];
    let sums = (1..=3).map(|line| (line, 3, &SUMS[..]));
    for (line, field, others) in cases.into_iter().chain(sums) {
        for other in others {
            let mut changed = lines.clone();
            changed[line][field] = other;
            let text: String = changed.iter().map(|fields| fields.join("\t") + "\n").collect();
            bench.try_call("sweep: job sheets with a field replaced", &job_request(text.as_bytes()));
        }
    }
}

/// Lines to put in place of a first line or an entry's; a few of them are honest.
#[rustfmt::skip]
const LINES: [&str; 27] = [
    "", "JOB", "JOB\t", "JOB\t2", "job\t2", "JOBS\t2", "JO\t2", "J\t2", "LOG\t2", "SKIN\t2", " JOB\t2", "JOB 2", "JOB\t2\t2",
    "J", "J\t", "J\tS", "J\tS\t0", "J\tS\t0\t5", "J\tS\t0\t5\t", "J\tS\t0\t5\t5", "j\tS\t0\t5", "JJ\tS\t0\t5", "K\tS\t0\t5",
    "JOB\tS\t0\t5", "J S 0 5", "S\t0\t5", "\tS\t0\t5",
];

/// Single lines put in place of a small sheet's, and other ends.
fn lines(bench: &mut Bench) {
    let kind = "sweep: job sheets with a line replaced";
    let lines = ["JOB\t2", "J\tV\t-\t3000005", "J\tS\t0\t5"];
    for at in 0..lines.len() {
        for other in LINES {
            let mut changed = lines;
            changed[at] = other;
            bench.try_call(kind, &job_request((changed.join("\n") + "\n").as_bytes()));
        }
    }
    for end in
        ["", "\n", "\n\n", "\n ", "\n\0", "\nJ\n", "\nJOB\t2\n", "\r\n", "\nJ\tS\t0\t5", "\nJ\tS\t0\t5\n", "\t\n"]
    {
        bench.try_call(kind, &job_request((lines.join("\n") + end).as_bytes()));
    }
    for parting in ["\r\n", "\r", "\n\n", "\0", " "] {
        bench.try_call(kind, &job_request((lines.join(parting) + parting).as_bytes()));
    }
    for text in ["", "\n", "JOB", "J", "\0", "\u{feff}JOB\t2\nJ\tV\t-\t3000005\nJ\tS\t0\t5\n"] {
        bench.try_call(kind, &job_request(text.as_bytes()));
    }
}

/// A sheet in form of just so many bytes: entries of one digit a sum, and more digits in the first ones as it needs.
fn in_form(length: usize) -> Vec<u8> {
    let line = "J\tS\t0\t1\n".len();
    let count = (length - "JOB\t99999\n".len()) / line - length / 100;
    let mut job = star(VOID, count);
    job.iter_mut().for_each(|entry| entry.sum = 1);
    let mut more = length - job::write(&job).len();
    for entry in &mut job {
        let digits = more.min(SUM_DIGITS - 1);
        entry.sum = 10i128.pow(digits as u32);
        more -= digits;
    }
    job::write(&job)
}

/// Sheets at the greatest size and one past it: in form they are refused by their count, past the size by it.
fn sizes(bench: &mut Bench, chance: &mut Chance) {
    let kind = "sweep: the greatest job sheets";
    for length in [MOST_BYTES - 1, MOST_BYTES, MOST_BYTES + 1, Kind::Bytes.longest()] {
        let text = in_form(length);
        let status = if length > MOST_BYTES { BAD_FORM } else { ENTRIES };
        if text.len() != length || !job::holding(&text).contains(&status) {
            bench.tally.fail("jobs: the maker", &format!("{} bytes for {length}", text.len()), "");
        }
        bench.try_call(kind, &job_request(&text));
        // A last entry of no kind, which is not asked, and then one that does not end.
        let mut wrong = text;
        let last = wrong.len() - "J\tS\t0\t1\n".len();
        wrong[last + 2] = b'Q';
        bench.try_call(kind, &job_request(&wrong));
        wrong[length - 1] = b' ';
        bench.try_call(kind, &job_request(&wrong));
        for byte in [0, 255, b'\n', b'\t', b'J', b'9'] {
            let mut long = job::write(&some_honest(chance));
            long.resize(length, byte);
            bench.try_call(kind, &job_request(&long));
        }
    }
}

/// Jobs of real stages, and of the largest there are.
fn stages(bench: &mut Bench, chance: &mut Chance) {
    for _ in 0..24 {
        let rows = make::size(chance);
        let skin = make::skin(rows, chance);
        of_stages(bench, &skin, chance);
    }
    of_largest_stages(bench, chance);
}

/// Every byte of some small sheets replaced, doubled, dropped, and everything behind it cut off. Both nets lie at a half.
fn bytes(bench: &mut Bench, chance: &mut Chance) {
    let mut alone = shaped(SOLID, &[]);
    alone[0].sum = -27_000_000;
    let mut three = chain(VOID, 3);
    for (entry, sum) in three.iter_mut().zip([LARGEST_SUM, -HALF - 10, -10]) {
        entry.sum = sum;
    }
    for text in [job::write(&alone), job::write(&three)] {
        for at in 0..text.len() {
            let mut attempt = |kind: &str, spoiled: &[u8]| drop(bench.try_call(kind, &job_request(spoiled)));
            for &byte in BYTES {
                let mut spoiled = text.clone();
                spoiled[at] = byte;
                if spoiled != text && chance.one_in(3) {
                    attempt("sweep: job sheets with a byte replaced", &spoiled);
                }
            }
            for (manner, kind) in [(2, "with a byte doubled"), (1, "with a byte less"), (3, "cut off")] {
                attempt(&format!("sweep: job sheets {kind}"), &spoiled_at(&text, at, manner, chance));
            }
        }
    }
}

/// Sheets of pieces, and bytes of any kind behind an honest first line and without one.
fn hostile(bench: &mut Bench, chance: &mut Chance) {
    for _ in 0..20 {
        of_pieces(bench, chance);
        let length = chance.pick(&[1, 9, 40, 300]);
        let front: &[u8] = chance.pick(&[&b"JOB\t1\n"[..], b"JOB\t", b""]);
        let any: Vec<u8> = (0..length).map(|_| chance.next() as u8).collect();
        bench.try_call("sweep: hostile job sheets", &job_request(&[front, &any].concat()));
    }
}
