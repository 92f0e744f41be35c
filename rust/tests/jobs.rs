// Job sheets, and the exact sums that fill them. Expected: 02's request 5 worked by hand, and 01's sums of the octahedron and the tetrahedron.
use flaxglimmer::*;

// document 01's O at its first two stages and T, with its corners
const O_CORNERS: [i32; 18] = [0, 0, 100, 100, 0, 0, 0, 100, 0, -100, 0, 0, 0, -100, 0, 0, 0, -100];
const O_FIRST: [u32; 24] = [0, 1, 2, 0, 2, 3, 0, 3, 4, 0, 4, 1, 5, 2, 1, 5, 3, 2, 5, 4, 3, 5, 1, 4];
const O_SECOND: [u32; 18] = [0, 2, 3, 0, 3, 4, 5, 2, 0, 5, 3, 2, 5, 4, 3, 5, 0, 4];
const T_CORNERS: [i32; 12] = [0, 0, 0, 300, 0, 0, 0, 300, 0, 0, 0, 300];
const T_FIRST: [u32; 12] = [0, 1, 2, 0, 2, 3, 0, 3, 1, 1, 3, 2];

const MOST_SUM: i128 = 768_000_000_000_000_000;

/// An entry: its letter, the entry that it stands in, and its sum.
type Entry = (char, Option<usize>, i128);

fn sheet(entries: &[Entry]) -> Vec<u8> {
    let mut text = format!("JOB\t{}\n", entries.len());
    for (kind, within, sum) in entries {
        let name = within.map_or("-".to_string(), |entry| entry.to_string());
        text += &format!("J\t{kind}\t{name}\t{sum}\n");
    }
    text.into_bytes()
}

fn net(entries: &[Entry]) -> Result<i64, Refusal> {
    job(&sheet(entries))
}

/// So many entries, each in the one before.
fn chain(depth: usize, sum: i128) -> Vec<Entry> {
    (0..depth).map(|at| (if at % 2 == 0 { 'V' } else { 'S' }, at.checked_sub(1), sum)).collect()
}

#[test]
fn a_net_is_rounded_once_and_a_half_goes_away_from_zero() {
    for (sum, figure) in [(0, 0), (2_999_999, 0), (3_000_000, 1), (9_000_000, 2), (-2_999_999, 0), (-3_000_000, -1), (-9_000_000, -2)] {
        assert_eq!(net(&[('V', None, sum)]), Ok(figure));
        assert_eq!(net(&[('S', None, sum)]), Ok(figure));
    }
    // 10,000,000 less 1,000,000 is 1.5 cubic metres; rounded one by one it would be 2 less 0, and its reverse -2
    assert_eq!(net(&[('V', None, 10_000_000), ('S', Some(0), 1_000_000)]), Ok(2));
    assert_eq!(net(&[('V', None, 10_000_000), ('S', Some(0), 1_000_001)]), Ok(1));
    assert_eq!(net(&[('V', None, 1_000_000), ('S', Some(0), 10_000_000)]), Ok(-2));
    assert_eq!(net(&[('V', None, 1_000_001), ('S', Some(0), 10_000_000)]), Ok(-1));
}

#[test]
fn what_stands_in_a_solid_is_given_back() {
    let station = [('V', None, 600_000_000), ('S', Some(0), 60_000_000), ('V', Some(1), 12_000_000), ('S', Some(0), 6_000_000)];
    assert_eq!(net(&station), Ok(100 - (10 - 2) - 1));
    // a sum below zero is taken as it stands
    assert_eq!(net(&[('V', None, 600_000_000), ('S', Some(0), -60_000_000)]), Ok(110));
}

#[test]
fn nets_pass_64_bits() {
    let mut entries = vec![('V', None, MOST_SUM)];
    entries.extend((1..MOST_ENTRIES).map(|_| ('S', Some(0), -MOST_SUM)));
    assert_eq!(net(&entries), Ok(32 * 128_000_000_000));
    let turned: Vec<Entry> = entries.iter().map(|(kind, within, sum)| (*kind, *within, -sum)).collect();
    assert_eq!(net(&turned), Ok(-32 * 128_000_000_000));
}

#[test]
fn each_refusal_and_what_stands_beside_it() {
    assert_eq!(net(&[]), Err(Refusal::JobCount));
    let wide = |count: usize| (0..count).map(|at| if at == 0 { ('V', None, 0) } else { ('S', Some(0), 0) }).collect::<Vec<_>>();
    assert_eq!(net(&wide(MOST_ENTRIES)), Ok(0));
    assert_eq!(net(&wide(MOST_ENTRIES + 1)), Err(Refusal::JobCount));

    assert_eq!(net(&[('V', None, 0), ('P', Some(0), 0)]), Err(Refusal::JobKind));

    assert_eq!(net(&[('V', Some(0), 0)]), Err(Refusal::JobName));
    for within in [None, Some(1), Some(2), Some(999_999)] {
        assert_eq!(net(&[('V', None, 0), ('S', within, 0), ('V', Some(1), 0)]), Err(Refusal::JobName));
    }

    assert_eq!(net(&[('V', None, 0), ('V', Some(0), 0)]), Err(Refusal::JobAlternation));
    assert_eq!(net(&[('S', None, 0), ('S', Some(0), 0)]), Err(Refusal::JobAlternation));

    assert_eq!(net(&chain(MOST_DEPTH, 0)), Ok(0));
    assert_eq!(net(&chain(MOST_DEPTH + 1, 0)), Err(Refusal::JobDepth));

    for sum in [MOST_SUM, -MOST_SUM] {
        assert_eq!(net(&[('V', None, sum)]), Ok((sum / 6_000_000) as i64));
        assert_eq!(net(&[('V', None, sum + sum.signum())]), Err(Refusal::JobSum));
    }
}

#[test]
fn each_question_is_asked_of_every_entry_before_the_next() {
    let over = MOST_SUM + 1;
    // the last entry has what is asked first
    assert_eq!(net(&[('V', Some(0), over), ('V', Some(0), 0), ('P', Some(0), 0)]), Err(Refusal::JobKind));
    assert_eq!(net(&[('V', None, over), ('V', Some(0), 0), ('S', Some(2), 0)]), Err(Refusal::JobName));
    let mut deep = chain(MOST_DEPTH + 1, over);
    assert_eq!(net(&deep), Err(Refusal::JobDepth));
    deep.push(('V', Some(0), 0));
    assert_eq!(net(&deep), Err(Refusal::JobAlternation));
}

#[test]
fn the_form_is_asked_first() {
    for text in [
        "", "JOB 0", "JOB 01\nJ V - 0\n", "JOB 1\nJ V - 0", "JOB 1\nJ V - 00\n", "JOB 1\nJ V - -0\n", "JOB 1\nJ V - +1\n", "JOB 1\nJ v - 0\n", "JOB 1\nJ VV - 0\n",
        "JOB 1\nJ V -1 0\n", "JOB 1\nJ V 0000000 0\n", "JOB 1\nJ V - 1000000000000000000\n", "JOB 1\nJ V - 0\n\n", "JOB 2\nJ V - 0\n", "JOB 1\nJ V - 0\nJ P 9 0\n", "JOB 1\n",
    ] {
        assert_eq!(job(text.replace(' ', "\t").as_bytes()), Err(Refusal::SheetForm), "{text}");
    }
    // as long as a sheet may be, of bad entries alone, and one byte longer
    let mut long = b"JOB\t7280\n".to_vec();
    while long.len() + 9 <= MOST_JOB_BYTES {
        long.extend(b"J\tP\t99\t0\n");
    }
    assert_eq!((long.len(), job(&long)), (MOST_JOB_BYTES - 7, Err(Refusal::JobCount)));
    let last = long.len() - 2;
    long.splice(last..last, *b"1234567");
    assert_eq!((long.len(), job(&long)), (MOST_JOB_BYTES, Err(Refusal::JobCount)));
    long.insert(last, b'1');
    assert_eq!(job(&long), Err(Refusal::SheetForm));
}

#[test]
fn exact_sums_are_01s() {
    assert_eq!(exact_sum(&O_FIRST, &O_CORNERS), Ok(8_000_000));
    assert_eq!(exact_sum(&O_SECOND, &O_CORNERS), Ok(4_000_000));
    // below zero, and no multiple of 6,000,000
    assert_eq!(exact_sum(&T_FIRST, &T_CORNERS), Ok(-27_000_000));
}

#[test]
fn an_exact_sum_is_refused_as_a_volume_is() {
    let mut far = T_CORNERS;
    far[0] = MOST_COORDINATE + 1;
    for (table, corners) in [(&T_FIRST[..9], &T_CORNERS), (&T_FIRST[..11], &T_CORNERS), (&T_FIRST[..], &far)] {
        assert_eq!(exact_sum(table, corners).unwrap_err(), volume(table, corners).unwrap_err());
    }
    assert_eq!(exact_sum(&T_FIRST, &far), Err(Refusal::CoordinateOutOfRange));
}

#[test]
fn a_job_of_exact_sums_is_rounded_once() {
    let sums = [exact_sum(&O_FIRST, &O_CORNERS), exact_sum(&O_SECOND, &O_CORNERS), exact_sum(&T_FIRST, &T_CORNERS)].map(Result::unwrap);
    let figures = [volume(&O_FIRST, &O_CORNERS), volume(&O_SECOND, &O_CORNERS), volume(&T_FIRST, &T_CORNERS)];
    assert_eq!(sums.map(|sum| net(&[('V', None, sum)])), figures);
    // 4,000,000 are left, two thirds of a cubic metre; the figures are 1 and 1
    assert_eq!(net(&[('V', None, sums[0]), ('S', Some(0), sums[1])]), Ok(1));
}
