//! Pass files, position lines and element lines by seed, good and damaged.
use crate::Set;
use crate::cases;
use crate::numbers::Random;

fn time(r: &mut Random) -> String {
    let y = match r.below(12) {
        0 => r.pick(&[1956, 1957, 2056, 2057, 0, 9999, 1970, 2000, 1900, 2100]),
        _ => 2020 + r.below(10),
    };
    let days = if r.one_in(12) { 31 } else { 28 };
    let (mo, d) = (1 + r.below(12), 1 + r.below(days));
    let s = if r.one_in(40) { 60 } else { r.below(60) };
    let t = if r.one_in(20) { r.pick(&['t', ' ', '_']) } else { 'T' };
    let mut out = format!("{y:04}-{mo:02}-{d:02}{t}{:02}:{:02}:{s:02}", r.below(24), r.below(60));
    if r.one_in(2) {
        out.push('.');
        for _ in 0..r.pick(&[1, 3, 6, 9, 9, 12, 20]) {
            out.push((b'0' + r.below(10) as u8) as char);
        }
    }
    match r.below(12) {
        0 => out.push('z'),
        1 => out.push_str(&format!("{}{:02}:{:02}", r.pick(&['+', '-']), r.below(25), r.below(61))),
        2 => out.push_str(r.pick(&["UTC", "+0000", "+00", "-00:00", "", "+00:00", " Z", "utc"])),
        _ => out.push('Z'),
    }
    out
}

fn number(r: &mut Random) -> String {
    match r.below(14) {
        0 => r.pick(&["inf", "nan", "-inf", "+Infinity", "-NaN", "NAN", "infinity", "infin", "1.", ".5", ".", "1e", "-", "+", "e5", "1e+5", "1E-5", "1e005", "1e31", "1e30", "1e-30", "1e-31", "00000000000000000001", "0000000000000000001", "1e1000", "1_0", "0x10", "1 ", "", "-0", "+0.0"]).to_string(),
        1 => format!("{:e}", r.float()),
        2 => format!("{}", r.between(-1e6, 1e6)),
        3 => {
            let n = 15 + r.below(8);
            let dot = r.below(n);
            let mut s: String = (0..n).map(|_| (b'0' + r.below(10) as u8) as char).collect();
            if r.one_in(2) {
                s.insert(dot as usize, '.');
            }
            if r.one_in(3) {
                s.push_str(&format!("e{}", r.below(70) as i64 - 35));
            }
            s
        }
        _ => format!("{:.3}", r.between(150e6, 151e6)),
    }
}

/// A text of a number: as in pass files, by random digits, at and beside a tie of two floats, as Rust prints one; sometimes damaged.
pub fn decimal(r: &mut Random) -> Vec<u8> {
    let text = match r.below(8) {
        0 => number(r),
        1 | 2 => {
            let mut s: String = (0..1 + r.below(20)).map(|_| (b'0' + r.below(10) as u8) as char).collect();
            if r.one_in(2) {
                s.insert(r.below(s.len() as u64 + 1) as usize, '.');
            }
            s + &exponent(r)
        }
        // 54 bits, of which the last is 1, are half way between two floats: whole numbers, and with up to three places.
        3 => ((1u64 << 53 | r.word() >> 11) << r.below(10) | 1 << r.below(10)).to_string() + &exponent(r),
        4 => {
            let down = r.below(4);
            let odd = 1u64 << 53 | r.word() >> 11 | 1;
            let (whole, part) = (odd >> down, (odd % (1 << down)) * 1000 >> down);
            format!("{whole}.{part:03}")[..].trim_end_matches('0').to_string()
        }
        5 => format!("{}", r.between(-1e9, 1e9)),
        6 => format!("{:e}", r.float()),
        _ => format!("{:.*}", r.below(12) as usize, r.between(0.0, 1e9)),
    };
    let mut out = format!("{}{text}", r.pick(&["", "", "", "-", "+"])).into_bytes();
    if r.one_in(4) {
        // A neighbour of what was written, in its last digit.
        if let Some(at) = out.iter().rposition(|b| b.is_ascii_digit()) {
            out[at] = b'0' + r.below(10) as u8;
        }
    }
    if r.one_in(6) {
        damage(r, &mut out);
    }
    out
}

fn exponent(r: &mut Random) -> String {
    match r.below(3) {
        0 => String::new(),
        1 => format!("{}{}{}", r.pick(&['e', 'E']), r.pick(&["", "-", "+"]), r.below(33)),
        _ => format!("e{}{:02}", r.pick(&["", "-", "+"]), r.below(31)),
    }
}

/// A text of a time, sometimes damaged.
pub fn moment(r: &mut Random) -> Vec<u8> {
    let mut out = time(r).into_bytes();
    if r.one_in(4) {
        // Another digit: months, days, hours and seconds past their ends, and days of all years.
        let at = r.below(out.len() as u64) as usize;
        if out[at].is_ascii_digit() {
            out[at] = b'0' + r.below(10) as u8;
        }
    }
    if r.one_in(4) {
        damage(r, &mut out);
    }
    out
}

/// A float as a text: as Rust prints it, with some places or an exponent, with a sign, zeros or a point that it does not need.
fn written(r: &mut Random, v: f64) -> String {
    if v.is_nan() {
        return r.pick(&["nan", "NaN", "-nan", "+NAN", "nAn"]).to_string();
    }
    let sign = if v.is_sign_negative() { "-" } else { r.pick(&["", "", "+"]) };
    if v.is_infinite() {
        return format!("{sign}{}", r.pick(&["inf", "Inf", "infinity", "INFINITY", "iNfInItY"]));
    }
    let size = v.abs();
    let plain = if size == 0.0 || size > 1e-6 && size < 1e15 { format!("{size}") } else { format!("{size:e}") };
    let (whole, part) = plain.split_once('.').unwrap_or((&plain, ""));
    let zeros = "0".repeat(r.below(6) as usize);
    let text = match r.below(12) {
        0 => format!("{size:e}"),
        1 => format!("{size:E}"),
        2 => format!("{size:.*}", r.below(8) as usize),
        3 => format!("{zeros}{plain}"),
        _ if plain.contains('e') => plain,
        4 => format!("{whole}.{part}{zeros}"),
        5 => format!(".{whole}{part}e{}{:02}", r.pick(&["", "+"]), whole.len()),
        6 => format!("{whole}{part}E-{:02}", part.len()),
        7 if whole == "0" => format!(".{part}"),
        _ => plain,
    };
    format!("{sign}{text}")
}

/// So many bytes that are trimmed; now and then some that are not.
fn blanks(r: &mut Random, n: u64) -> String {
    let strange = r.one_in(12);
    (0..n)
        .map(|_| match strange && r.one_in(3) {
            true => r.pick(&['\0', '\u{8}', '\u{e}', '\u{1c}', '\u{1f}', '!', '\u{7f}']),
            false => r.pick(&[' ', ' ', '\t', '\n', '\u{b}', '\u{c}', '\r']),
        })
        .collect()
}

/// A position line, good or nearly so, with blanks and a line end, often of about 256 bytes; sometimes damaged.
pub fn position(r: &mut Random) -> Vec<u8> {
    let mut fields: Vec<String> = cases::geodetic(r).into_iter().map(|v| written(r, v)).collect();
    let k = r.below(3) as usize;
    match r.below(24) {
        0 => fields.truncate(k),
        1 => {
            let more = if r.one_in(2) { String::new() } else { number(r) };
            fields.insert(r.below(4) as usize, more);
        }
        2 => fields[k] = r.pick(&["", " ", "x", "-", "+", ".", "e1", "1e", "1;2", "0x1", "1_0", "infin", "1,0"]).to_string(),
        3 => fields[k].insert(0, r.pick(&[' ', '\t', '\r', '\n'])),
        4 => fields[k].push(r.pick(&[' ', '\t', '\r', '\n'])),
        // At and past the ends of refusal 3.
        5 | 6 => {
            fields[k] = r.pick(&["1e30", "1e31", "1e-30", "1e-31", "1e00", "1e005", "0e31", "0e-99", "1e1000"]).to_string();
            if r.one_in(2) {
                fields[k] = format!("{:0>1$}", r.below(80), 18 + r.below(4) as usize);
            }
        }
        7 => fields[k] = number(r),
        8 => fields[k] = String::from_utf8_lossy(&decimal(r)).into_owned(),
        _ => {}
    }
    let mut line = fields.join(",");
    if r.one_in(3) {
        let (before, after) = (r.below(3), r.below(3));
        line = blanks(r, before) + &line + &blanks(r, after);
    }
    if r.one_in(5) {
        let more = r.pick(&[255, 256, 256, 257, 258, 300u64]).saturating_sub(line.len() as u64);
        let before = match r.below(3) {
            0 => 0,
            1 => more,
            _ => r.below(more + 1),
        };
        line = blanks(r, before) + &line + &blanks(r, more - before);
    }
    if r.one_in(40) {
        line = format!("{line}\n{}", r.pick(&["1,2,3", "#", "59.1,18.0,20", "x"]));
    }
    let mut out = line.into_bytes();
    out.extend(r.pick(&["", "", "\n", "\n", "\r\n", "\r", "\r\r\n", "\n\n", "\n\r"]).bytes());
    if r.one_in(20) {
        out.insert(r.below(out.len() as u64 + 1) as usize, 128 + r.below(128) as u8);
    }
    if r.one_in(6) {
        damage(r, &mut out);
    }
    out
}

/// Element lines as they are published: of satellites whose eccentricities are not zero, with blanks for leading zeros, a plus, and two without a designator. Their
/// checksums hold.
const PUBLISHED: [[&[u8]; 2]; 8] = [
    [
        b"1 25544U 98067A   08264.51782528 -.00002182  00000-0 -11606-4 0  2927",
        b"2 25544  51.6416 247.4627 0006703 130.5360 325.0288 15.72125391563537",
    ],
    [
        b"1 00005U 58002B   00179.78495062  .00000023  00000-0  28098-4 0  4753",
        b"2 00005  34.2682 348.7242 1859667 331.7664  19.3264 10.82419157413667",
    ],
    [
        b"1 04632U 70093B   04031.91070959 -.00000084  00000-0  10000-3 0  9955",
        b"2 04632  11.4628 273.1101 1450506 207.6000 143.9350  1.20231981 44145",
    ],
    [
        b"1 08195U 75081A   06176.33215444  .00000099  00000-0  11873-3 0   813",
        b"2 08195  64.1586 279.0717 6877146 264.7651  20.2257  2.00491383225656",
    ],
    [
        b"1 23599U 95029B   06171.76535463  .00085586  12891-6  12956-2 0  2905",
        b"2 23599   6.9327   0.2849 5782022 274.4436  25.2425  4.47796565123555",
    ],
    [
        b"1 20413U 83020D   05363.79166667  .00000000  00000-0  00000+0 0  7041",
        b"2 20413  12.3514 187.4253 7864447 196.3027 356.5478  0.24690082  7978",
    ],
    [
        b"1 88888U          80275.98708465  .00073094  13844-3  66816-4 0    87",
        b"2 88888  72.8435 115.9689 0086731  52.6988 110.5714 16.05824518  1058",
    ],
    [
        b"1 11801U          80230.29629788  .01431103  00000-0  14311-1      13",
        b"2 11801  46.7916 230.4354 7318036  47.4722  10.4117  2.28537848    13",
    ],
];

/// The fields of lines 1 and 2 in which blanks may stand for leading zeros: line, first and last column.
const PADDED: [(usize, usize, usize); 10] =
    [(1, 3, 7), (1, 21, 23), (1, 65, 68), (2, 3, 7), (2, 9, 11), (2, 18, 20), (2, 35, 37), (2, 44, 46), (2, 53, 54), (2, 64, 68)];

/// The first 68 columns with their checksum.
pub fn summed(mut line: Vec<u8>) -> Vec<u8> {
    line.truncate(68);
    let sum: u64 = line.iter().map(|&b| if b == b'-' { 1 } else if b.is_ascii_digit() { (b - b'0') as u64 } else { 0 }).sum();
    line.push(b'0' + (sum % 10) as u8);
    line
}

fn digit(r: &mut Random) -> u8 {
    b'0' + r.below(10) as u8
}

fn digits(r: &mut Random, n: usize) -> String {
    match r.below(6) {
        0 => "0".repeat(n),
        1 => "9".repeat(n),
        _ => (0..n).map(|_| digit(r) as char).collect(),
    }
}

/// So many places, with blanks for all, some or none of the leading zeros.
fn padded(r: &mut Random, n: usize) -> String {
    let zeros = r.below(n as u64);
    let blanks = if r.one_in(2) { zeros } else { r.below(zeros + 1) };
    let rest = n - zeros as usize;
    " ".repeat(blanks as usize) + &"0".repeat((zeros - blanks) as usize) + &digits(r, rest)
}

fn degrees(r: &mut Random) -> String {
    match r.below(8) {
        0 => r.pick(&["360.0000", "360.0000", "359.9999", "360.0001", "999.9999", "  0.0000", "000.0000", "  0.0001"]).to_string(),
        // Inside a turn, as most are.
        1..=3 => format!("{:8.4}", r.between(0.0, 360.0)),
        _ => format!("{}.{}", padded(r, 3), digits(r, 4)),
    }
}

fn sign(r: &mut Random) -> char {
    r.pick(&[' ', ' ', '-', '+'])
}

fn letter(r: &mut Random) -> char {
    (b'A' + r.below(26) as u8) as char
}

/// A drag term without a point.
fn drag(r: &mut Random) -> String {
    format!("{}{}{}{}", sign(r), digits(r, 5), sign(r), digits(r, 1))
}

/// Published lines, half of them with the eccentricity made zero.
pub fn published(r: &mut Random) -> [Vec<u8>; 2] {
    let mut pair = r.pick(&PUBLISHED).map(|line| line.to_vec());
    if r.one_in(2) {
        pair[1][26..33].fill(b'0');
    }
    pair.map(summed)
}

/// Two element lines, whose checksums are still to be counted: published ones, ones with the port's columns but for epoch, angles and mean motion, or of any characters
/// that the columns take.
fn columns(r: &mut Random) -> [Vec<u8>; 2] {
    if r.one_in(12) {
        return published(r);
    }
    let day = format!("{}{}", digits(r, 2), if r.one_in(3) { padded(r, 3) } else { format!("{:03}", 1 + r.below(366)) });
    let (part, motion) = (digits(r, 8), format!("{}.{}", padded(r, 2), digits(r, 8)));
    let (i, node, perigee, anomaly) = (degrees(r), degrees(r), degrees(r), degrees(r));
    if r.one_in(4) {
        let line1 = format!("1 99999U 26999A   {day}.{part}  .00000000  00000-0  00000-0 0  999");
        return [line1, format!("2 99999 {i} {node} 0000000   0.0000 {anomaly} {motion}00000")].map(String::into_bytes);
    }
    let piece: String = (0..3).map(|_| if r.one_in(2) { ' ' } else { letter(r) }).collect();
    let name = format!("{}{} {}{piece}", padded(r, 5), letter(r), digits(r, 5));
    let drags = format!("{}.{} {} {}", sign(r), digits(r, 8), drag(r), drag(r));
    let line1 = format!("1 {name} {day}.{part} {drags} {} {}", digits(r, 1), padded(r, 4));
    let line2 = format!("2 {} {i} {node} 0000000 {perigee} {anomaly} {motion}{}", padded(r, 5), padded(r, 5));
    [line1, line2].map(String::into_bytes)
}

/// Blanks and digits in any order in a field that takes some; or in any column, often in one of a letter or a sign, a byte at the edge of what columns take.
fn misplace(r: &mut Random, pair: &mut [Vec<u8>; 2]) {
    let way = r.below(4);
    if way < 2 {
        let (line, first, last) = r.pick(&PADDED);
        for b in &mut pair[line - 1][first - 1..last] {
            *b = if r.one_in(2) { b' ' } else { digit(r) };
        }
        return;
    }
    let (line, column) = if way == 2 { (1, r.pick(&[8, 15, 16, 17, 34, 45, 51, 54, 60])) } else { (1 + r.below(2) as usize, 1 + r.below(68) as usize) };
    pair[line - 1][column - 1] = r.pick(b"  09+-.,AZaz@[/:*\0\n\x7f\x80\xb0\xff");
}

/// Another checksum; now and then one that is no digit.
fn miscount(r: &mut Random, line: &mut [u8]) {
    let other = line[68].wrapping_sub(b'0') as u64 + 1 + r.below(9);
    line[68] = if r.one_in(8) { r.pick(b" -+/:\n\xb0") } else { b'0' + (other % 10) as u8 };
}

/// One line or both of another length, or each in the other's place; two columns of a line exchanged, which keeps its sum.
fn misfit(r: &mut Random, pair: &mut [Vec<u8>; 2]) {
    let k = r.below(2) as usize;
    match r.below(10) {
        0 => pair.swap(0, 1),
        1 => pair[k] = pair[1 - k].clone(),
        2 => pair[k].clear(),
        3 => pair.iter_mut().for_each(|line| line.push(b'\n')),
        4 => pair[k].extend(r.pick(&["\n", "\r\n", "\r", " ", "0"]).bytes()),
        5 => pair[k].truncate(68),
        // A line end in place of the checksum.
        6 => pair[k][68] = r.pick(b"\n\r"),
        // Refusals 14 and 15 at once, on different lines.
        7 => {
            miscount(r, &mut pair[1 - k]);
            if r.one_in(2) {
                pair[k].truncate(68);
            } else {
                pair[k].push(b'0');
            }
        }
        _ => pair[k].swap(r.below(68) as usize, r.below(68) as usize),
    }
}

/// Two element lines, good or with one fault or some: a column's character, an eccentricity, a checksum, a length; sometimes damaged.
pub fn elements(r: &mut Random) -> [Vec<u8>; 2] {
    let mut pair = columns(r);
    if r.one_in(6) {
        misplace(r, &mut pair);
    }
    if r.one_in(6) {
        let some = if r.one_in(2) { format!("{:07}", 10u64.pow(r.below(7) as u32)) } else { digits(r, 7) };
        pair[1][26..33].copy_from_slice(some.as_bytes());
    }
    let mut pair = pair.map(summed);
    if r.one_in(6) {
        let k = r.below(2) as usize;
        miscount(r, &mut pair[k]);
    }
    if r.one_in(10) {
        misfit(r, &mut pair);
    }
    if r.one_in(12) {
        let k = r.below(2) as usize;
        damage(r, &mut pair[k]);
    }
    pair
}

fn blank(r: &mut Random) -> String {
    (0..r.below(3)).map(|_| r.pick(&[' ', '\t', '\u{b}', '\u{c}', ' ', '\u{1c}', '\r'])).collect()
}

fn line(r: &mut Random) -> String {
    match r.below(20) {
        0 => {
            let key = r.pick(&["satellite_name", "Satellite_Name", "SATELLITE_NAME", "center_frequency", "Center_Frequency", "centre", "", "satellite_name "]);
            let value = if r.one_in(2) { number(r) } else { r.pick(&["HERD-1", "", "a:b", "NOAA 15", "x,y", "#"]).to_string() };
            format!("#{}{}{}{}{}", blank(r), key, r.pick(&[":", "", ": ", " :"]), blank(r), value)
        }
        1 => "utc_timestamp,f".to_string(),
        2 => blank(r),
        3 => format!("{},{},{}", time(r), number(r), number(r)),
        4 => format!("{} ,{}", time(r), number(r)),
        5 => time(r),
        6 => "x".repeat(r.pick(&[255, 256, 257, 10])),
        _ => format!("{}{},{}{}", if r.one_in(10) { blank(r) } else { String::new() }, time(r), number(r), if r.one_in(10) { blank(r) } else { String::new() }),
    }
}

/// A file of up to a few dozen lines, sometimes with bytes changed, dropped or added.
pub fn file(seed: u64) -> Vec<u8> {
    let mut r = Random::new(seed ^ 0xf11e);
    let mut out = Vec::new();
    if r.one_in(2000) {
        // About the most samples.
        for k in 0..4094 + r.below(5) {
            out.extend(format!("2026-06-12T00:{:02}:{:02}Z,{k}\n", k / 60 % 60, k % 60).bytes());
        }
        return out;
    }
    if r.one_in(2) {
        out.extend(b"#Satellite_Name: HERD-1\n#Center_Frequency: 150800000\nutc_timestamp,f\n");
    }
    for _ in 0..r.pick(&[0, 1, 1, 2, 3, 5, 20]) {
        out.extend(line(&mut r).bytes());
        out.extend(r.pick(&["\n", "\n", "\n", "\r\n", "\r\r\n", "\n\n"]).bytes());
    }
    if r.one_in(4) {
        out.extend(line(&mut r).bytes());
        if r.one_in(4) {
            out.push(b'\r');
        }
    }
    if r.one_in(3) {
        damage(&mut r, &mut out);
    }
    out
}

/// Up to three bytes changed, dropped or added, or an end cut off.
fn damage(r: &mut Random, out: &mut Vec<u8>) {
    for _ in 0..1 + r.below(3) {
        if out.is_empty() {
            return;
        }
        let at = r.below(out.len() as u64) as usize;
        match r.below(5) {
            0 => out[at] = r.below(256) as u8,
            1 => {
                out.remove(at);
            }
            2 => out.insert(at, r.below(128) as u8),
            3 => out[at] ^= 1 << r.below(7),
            _ => out.truncate(at),
        }
    }
}

/// A set in stored form, sometimes with its sizes or other bytes damaged, or only random bytes.
pub fn stored(seed: u64, set: &Set) -> Vec<u8> {
    let mut r = Random::new(seed ^ 0x570e);
    let mut out = set.stored();
    match r.below(5) {
        0 => {}
        1 => damage(&mut r, &mut out),
        2 => {
            let at = r.below(out.len().min(70) as u64) as usize;
            out[at] = r.pick(&[0, 1, 2, 16, 17, 255, 128]);
        }
        3 => {
            let n = r.below(80) as usize;
            out = (0..n).map(|_| if r.one_in(3) { r.word() as u8 } else { r.below(3) as u8 }).collect();
        }
        _ => {
            for _ in 0..r.below(9) {
                out.push(r.word() as u8);
            }
        }
    }
    out
}
