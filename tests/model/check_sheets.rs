//! Round trips of sheets and requests, damaged sheets, and the C call.

use super::hand::{LISTING, SHEET};
use super::model::fences::Ratio;
use super::model::gen::{
    damage_sheet, edge_request, edge_sheet, listed_request, request, sheet, sized_sheet,
    small_request,
};
use super::model::listing::{list, lister, pack, LIST_LABEL_WORDS};
use super::model::request::{refusal, Refusal, Request, NUMBERS};
use super::model::rng::Rng;
use super::model::sheet::{read, text, write, MOST_SHEET};

const LEFT: u32 = 0xa5a5_a5a5;
const ROOM: usize = 512 * 5;

/// "A sheet that is read and written back gives the same bytes". Answers the
/// reader's refusal, if it gave one, after looking at the arc buffer.
fn sheet_trip(sheet: &[u8]) -> Result<Request, Refusal> {
    let mut arcs = vec![LEFT; ROOM];
    match read(sheet, &mut arcs) {
        Err(refused) => {
            assert!(arcs.iter().all(|&word| word == LEFT));
            Err(refused)
        }
        Ok((request, words)) => {
            assert!(arcs[words..].iter().all(|&word| word == LEFT));
            let mut out = vec![0xa5; MOST_SHEET + 1];
            let length = write(&request, &arcs[..words], &mut out).expect("a sheet that was read");
            assert_eq!(&out[..length], sheet);
            assert!(out[length..].iter().all(|&byte| byte == 0xa5));
            Ok(request)
        }
    }
}

/// "numbers that are written and read back are the same numbers, but that
/// with two criteria the unused ratio comes back as 0 over 1". Answers whether
/// the writer took them.
fn request_trip(request: &Request, arcs: &[u32]) -> bool {
    let mut out = vec![0xa5; MOST_SHEET];
    match write(request, arcs, &mut out) {
        Err(_) => {
            assert!(out.iter().all(|&byte| byte == 0xa5));
            false
        }
        Ok(length) => {
            let mut own = vec![LEFT; ROOM];
            let (read, words) = read(&out[..length], &mut own).expect("a sheet that was written");
            let mut same = *request;
            if request.criteria == 2 {
                same.ratios[1] = Ratio { p: 0, q: 1 };
            }
            assert_eq!((read, &own[..words]), (same, arcs));
            true
        }
    }
}

/// Round trips of generated requests and sheets.
pub fn round_trips() -> String {
    let mut rng = Rng::new(1);
    let mut written = 0;
    for turn in 0..600 {
        let (request, arcs) = match turn % 8 {
            0 => request(&mut rng),
            1 | 2 => small_request(&mut rng),
            3 | 4 => listed_request(&mut rng),
            _ => edge_request(&mut rng),
        };
        written += usize::from(request_trip(&request, &arcs));
    }
    assert!(written > 300, "only {written} requests were written");
    let mut read = 0;
    for _ in 0..400 {
        sheet_trip(&sheet(&mut rng)).expect("a sheet in form");
        read += 1;
    }
    for _ in 0..600 {
        read += usize::from(sheet_trip(&edge_sheet(&mut rng)).is_ok());
    }
    for (size, answer) in [(MOST_SHEET, None), (MOST_SHEET + 1, Some(refusal(12, 0)))] {
        let own = sized_sheet(&mut rng, size);
        assert_eq!(own.len(), size);
        assert_eq!(sheet_trip(&own).err(), answer);
    }
    format!("{written} requests written and read, {read} sheets read and written")
}

/// The sheet's first `count` lines.
fn first_lines(sheet: &[u8], count: usize) -> Vec<u8> {
    sheet
        .split_inclusive(|&byte| byte == b'\n')
        .take(count)
        .collect::<Vec<_>>()
        .concat()
}

/// "first bad line from 1": the lines before it are the start of a sheet in
/// form, and the lines up to it are the start of none.
fn first_bad_line(sheet: &[u8], place: usize) {
    let count = sheet.split_inclusive(|&byte| byte == b'\n').count();
    assert!(1 <= place && place <= count + 1);
    let before = first_lines(sheet, place - 1);
    let asks = [
        &b""[..],
        b"ask\t0\t0\t0\t1\n",
        b"ask\t0\t0\t0\t1\t0\t1\n",
        b"tracks\t1\t2\nask\t0\t0\t0\t1\n",
    ];
    let mut arcs = vec![0; ROOM];
    let room = before.len() + 25 <= MOST_SHEET;
    let starts = asks
        .iter()
        .any(|ask| read(&[&before[..], ask].concat(), &mut arcs).is_ok());
    assert!(starts || !room, "{:?}", String::from_utf8_lossy(sheet));
    if place <= count {
        let mut through = first_lines(sheet, place);
        for ask in asks {
            if through.ends_with(b"\n") && through.len() + ask.len() <= MOST_SHEET {
                let own = [&through[..], ask].concat();
                assert_eq!(read(&own, &mut arcs), Err(refusal(1, place)));
            }
        }
        through.truncate(MOST_SHEET);
        assert_eq!(read(&through, &mut arcs), Err(refusal(1, place)));
    }
}

/// Forms told in document 01, one by one.
fn told_forms() {
    let mut arcs = vec![0; ROOM];
    let mut place = |sheet: &str| match read(sheet.as_bytes(), &mut arcs) {
        Ok(_) => 0,
        Err(refused) => {
            assert_eq!(refused.number, 1);
            refused.place
        }
    };
    assert_eq!(place("tracks\t1\t2\nask\t0\t0\t0\t1\n"), 0);
    assert_eq!(place("tracks\t99999999\t3\nask\t0\t0\t0\t1\t0\t0\n"), 0);
    assert_eq!(place("tracks\t1\t2\nask\t0\t0\t0\t1"), 2);
    assert_eq!(place("tracks\t1\t2"), 1);
    assert_eq!(place("tracks\t1\t2\n"), 2);
    assert_eq!(place("tracks\t1\t2\narc\t0\t0\t0\t0\n"), 3);
    assert_eq!(place("tracks\t1\t2\narc\t0\t0\t0\t0"), 2);
    assert_eq!(place("tracks\t1\t2\nask\t0\t0\t0\t1\n\n"), 3);
    assert_eq!(place("tracks\t1\t2\nask\t0\t0\t0\t1\nx"), 3);
    assert_eq!(place("tracks\t1\t2\r\nask\t0\t0\t0\t1\r\n"), 1);
    assert_eq!(place("tracks\t1\t1\nask\t0\t0\n"), 1);
    assert_eq!(place("tracks\t1\t4\nask\t0\t0\t0\t1\n"), 1);
    assert_eq!(place("tracks\t1\t02\nask\t0\t0\t0\t1\n"), 1);
    assert_eq!(place("tracks\t\t2\nask\t0\t0\t0\t1\n"), 1);
    assert_eq!(place("tracks \t1\t2\nask\t0\t0\t0\t1\n"), 1);
    assert_eq!(place("tracksx\t1\t2\nask\t0\t0\t0\t1\n"), 1);
    assert_eq!(place("\ntracks\t1\t2\nask\t0\t0\t0\t1\n"), 1);
    assert_eq!(place("tracks\t1\t2\t\nask\t0\t0\t0\t1\n"), 1);
    assert_eq!(place("tracks\t1\t2\nask\t0\t0\t0\t1\t0\t1\n"), 2);
    assert_eq!(place("tracks\t1\t3\nask\t0\t0\t0\t1\n"), 2);
    assert_eq!(
        place("tracks\t1\t3\narc\t0\t0\t0\t0\nask\t0\t0\t0\t1\t0\t1\n"),
        2
    );
    assert_eq!(place("tracks\t1\t2\ntracks\t1\t2\nask\t0\t0\t0\t1\n"), 2);
    assert_eq!(place("tracks\t1\t2\nask\t0\t0\t0\t100000000\n"), 2);
    assert_eq!(place("tracks\t1\t2\nask\t0\t0\t0\t+1\n"), 2);
    let arc = "arc\t0\t0\t0\t0\n";
    let ask = "ask\t0\t0\t0\t1\n";
    assert_eq!(place(&format!("tracks\t1\t2\n{}{ask}", arc.repeat(512))), 0);
    assert_eq!(
        place(&format!("tracks\t1\t2\n{}{ask}", arc.repeat(513))),
        514
    );
    assert_eq!(
        place(&format!("tracks\t1\t2\n{}arc\n{ask}", arc.repeat(512))),
        514
    );
    assert_eq!(place(&format!("tracks\t1\t2\n{}", arc.repeat(512))), 514);
}

/// Damaged sheets: each is refused at its first bad line, or writes back.
pub fn damaged_sheets() -> String {
    told_forms();
    let mut rng = Rng::new(2);
    let mut seen = [0_usize; 3];
    for _ in 0..4_000 {
        let mut own = if rng.one_in(4) {
            edge_sheet(&mut rng)
        } else {
            sheet(&mut rng)
        };
        for _ in 0..rng.between(1, 3) {
            damage_sheet(&mut rng, &mut own);
        }
        match sheet_trip(&own) {
            Ok(_) => seen[0] += 1,
            Err(Refusal { number: 12, place }) => {
                assert!(place == 0 && own.len() > MOST_SHEET);
                seen[1] += 1;
            }
            Err(refused) => {
                assert_eq!(refused.number, 1);
                first_bad_line(&own, refused.place as usize);
                seen[2] += 1;
            }
        }
    }
    assert!(seen.iter().all(|&count| count > 50));
    format!(
        "{} in form, {} too long, {} with a bad line",
        seen[0], seen[1], seen[2]
    )
}

/// No listing from 12,288 label words is longer than this: every label of
/// layer K filled, every number at its most digits.
fn longest_listing() -> usize {
    let digits = |most: u64| most.to_string().len();
    let mut longest = 0;
    for d in 2..=3 {
        for hops in 0..=63 {
            let labels = LIST_LABEL_WORDS / ((hops + 1) * (d + 2));
            let costs = d * (1 + digits(hops as u64 * 1_000_000));
            let label = "label".len() + 3 + costs + 1 + digits(hops as u64) + hops * 4 + 1;
            let tries = (hops * 512 * labels) as u64;
            let cover = "cover".len() + 1 + digits(labels as u64) + 1 + digits(tries) + 1;
            longest = longest.max(cover + labels * label);
        }
    }
    longest
}

/// The C call: its packing, its buffer, and its likeness to the lister.
pub fn c_call() -> String {
    assert_eq!(pack(13, 3), 13 * 281_474_976_710_656 + 3);
    let room = longest_listing();
    assert!(room < 53_000);
    let mut buffer = [0xa5; 100];
    let length = LISTING.len();
    assert_eq!(
        list(SHEET.as_bytes(), &mut buffer[..length - 1]),
        pack(13, 3)
    );
    assert_eq!(list(&SHEET.as_bytes()[1..], &mut buffer), pack(1, 1));
    assert_eq!(buffer, [0xa5; 100]);
    assert_eq!(list(SHEET.as_bytes(), &mut buffer), length as u64);
    assert_eq!(&buffer[..length], LISTING.as_bytes());
    assert!(buffer[length..].iter().all(|&byte| byte == 0xa5));
    // 12,288 words: N 48, K 63, C 1, d 2 fill them; N 49 is past them.
    assert_eq!(list(b"tracks\t48\t2\nask\t0\t63\t0\t1\n", &mut [0; 99]), 24);
    assert_eq!(
        list(b"tracks\t49\t2\nask\t0\t63\t0\t1\n", &mut []),
        pack(13, 2)
    );
    let mut rng = Rng::new(3);
    let mut longest = 0;
    let mut seen = [0_usize; NUMBERS];
    for turn in 0..1_500 {
        let mut own = if turn % 3 == 0 {
            sheet(&mut rng)
        } else {
            edge_sheet(&mut rng)
        };
        if turn % 5 == 0 {
            damage_sheet(&mut rng, &mut own);
        }
        let mut buffer = vec![0xa5; room];
        let answer = list(&own, &mut buffer);
        let (number, low) = ((answer >> 48) as usize, answer as u32 as usize);
        assert_eq!(answer, pack(number as u32, low as u32));
        seen[number] += 1;
        let filled = if number == 0 { low } else { 0 };
        assert!(buffer[filled..].iter().all(|&byte| byte == 0xa5));
        if number == 0 {
            assert_eq!(lister(&own), &buffer[..low]);
            longest = longest.max(low);
            let mut whole = vec![0xa5; low];
            assert_eq!(list(&own, &mut whole), low as u64);
            assert_eq!(whole, buffer[..low]);
            let mut short = vec![0xa5; low - 1];
            assert_eq!(list(&own, &mut short), pack(13, 3));
            assert!(short.iter().all(|&byte| byte == 0xa5));
        } else {
            assert_eq!(
                lister(&own),
                format!("refused\t{number}\t{low}\n").as_bytes()
            );
        }
    }
    // Rows 3 and 7 are out of a sheet's reach: its reader refuses the form.
    for number in [0, 1, 2, 4, 5, 6, 8, 9, 10, 12, 13, 17] {
        assert!(seen[number] > 0, "no sheet was answered {number}");
    }
    let (request, arcs) = small_request(&mut rng);
    assert!(list(&text(&request, &arcs), &mut vec![0; room]) >> 48 == 0);
    format!(
        "{} listings, the longest of {longest} bytes, none over {room}",
        seen[0]
    )
}
