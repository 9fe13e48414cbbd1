//! A plain program that lists a recording as `frames` does, for comparison.

use std::io::{self, BufRead, BufWriter, Read, Write};

const LONGEST: usize = 200;

enum Said {
    Frame(Vec<u8>),
    Refused(u8, Option<usize>),
}

fn digit(b: u8) -> Option<u8> {
    (b as char).to_digit(16).map(|d| d as u8)
}

fn decode(line: &[u8]) -> Result<Vec<u8>, usize> {
    let mut bytes = Vec::with_capacity(100);
    let mut i = 0;
    while i < line.len() {
        if !bytes.is_empty() && line[i] == b' ' {
            i += 1;
        }
        let high = line.get(i).and_then(|b| digit(*b)).ok_or(i)?;
        let low = line.get(i + 1).and_then(|b| digit(*b)).ok_or(i + 1)?;
        bytes.push(16 * high + low);
        i += 2;
    }
    Ok(bytes)
}

fn read(line: &[u8]) -> Said {
    if line.len() > LONGEST {
        return Said::Refused(10, None);
    }
    let bytes = match decode(line) {
        Ok(bytes) => bytes,
        Err(place) => return Said::Refused(11, Some(place)),
    };
    let length = match bytes.first() {
        None => return Said::Refused(13, None),
        Some(0) => 11,
        Some(1) => 7,
        Some(2) => 55,
        Some(3) => 1,
        Some(_) => return Said::Refused(12, None),
    };
    if bytes.len() != length {
        return Said::Refused(13, None);
    }
    if bytes[0] == 0 && bytes[2] != 1 && bytes[2] != 2 {
        return Said::Refused(14, None);
    }
    Said::Frame(bytes)
}

fn two(b: &[u8], at: usize) -> u16 {
    u16::from_be_bytes([b[at], b[at + 1]])
}

fn four(b: &[u8], at: usize) -> u32 {
    u32::from_be_bytes([b[at], b[at + 1], b[at + 2], b[at + 3]])
}

fn list(number: u32, said: &Said, out: &mut impl Write) -> io::Result<()> {
    match said {
        Said::Refused(code, place) => {
            let words = match code {
                10 => "line of more than 200 bytes",
                11 => "digit wrong or missing",
                12 => "unknown kind of frame",
                13 => "frame empty or of the wrong length",
                _ => "arbiter code not 01 or 02",
            };
            match place {
                Some(place) => writeln!(out, "{number}: refused {code:02}: {words}, at {place}"),
                None => writeln!(out, "{number}: refused {code:02}: {words}"),
            }
        }
        Said::Frame(b) => match b[0] {
            0 => writeln!(
                out,
                "{number}: start: {} ports, arbiter {:02X} ({}), mark {:08X}, first slot {}",
                b[1],
                b[2],
                if b[2] == 1 { "diagonal" } else { "ripple" },
                four(b, 3),
                four(b, 7)
            ),
            1 => writeln!(
                out,
                "{number}: route: input {}, circuit {:04X}, output {}, new circuit {:04X}",
                b[1],
                two(b, 2),
                b[4],
                two(b, 5)
            ),
            2 => {
                let c = &b[2..];
                write!(
                    out,
                    "{number}: cell: input {}, GFC {:X}, VPI {:02X}, VCI {:04X}, PT {}, CLP {}, bytes ",
                    b[1],
                    c[0] >> 4,
                    c[0] << 4 | c[1] >> 4,
                    u16::from(c[1]) << 12 | u16::from(c[2]) << 4 | u16::from(c[3]) >> 4,
                    c[3] >> 1 & 7,
                    c[3] & 1
                )?;
                let mut text = [0; 106];
                for (k, x) in c.iter().enumerate() {
                    text[2 * k] = b"0123456789ABCDEF"[usize::from(x >> 4)];
                    text[2 * k + 1] = b"0123456789ABCDEF"[usize::from(x & 15)];
                }
                out.write_all(&text)?;
                writeln!(out)
            }
            _ => writeln!(out, "{number}: close"),
        },
    }
}

fn main() -> io::Result<()> {
    let mut input = io::stdin().lock();
    let mut out = BufWriter::new(io::stdout().lock());
    let mut number: u32 = 1;
    let mut line = Vec::new();
    loop {
        // no more than 201 bytes of a line are held
        line.clear();
        let n = input.by_ref().take(LONGEST as u64 + 2).read_until(b'\n', &mut line)?;
        if n == 0 {
            break;
        }
        if line.last() == Some(&b'\n') {
            line.pop();
        } else if line.len() > LONGEST {
            loop {
                let chunk = input.fill_buf()?;
                let Some(end) = chunk.iter().position(|b| *b == b'\n') else {
                    let n = chunk.len();
                    input.consume(n);
                    if n == 0 {
                        break;
                    }
                    continue;
                };
                input.consume(end + 1);
                break;
            }
        }
        list(number, &read(&line), &mut out)?;
        number = number.saturating_add(1);
    }
    out.flush()
}
