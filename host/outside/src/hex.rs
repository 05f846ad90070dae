//! Intel HEX by what none of us wrote. Files of GNU objcopy and of srec_cat are loaded and compared
//! byte for byte with what they were made of, and what `desk hex` writes (`formats::hex::text`) is
//! read by both.

use crate::gnu;
use crate::report::Report;
use crate::stream;
use formats::hex::text;
use sporhulma::{Loaded, BASE};
use std::path::PathBuf;

/// What memory holds before a file is loaded: what no record names stays so.
const FILL: u8 = 0xA5;
const MEMORY: usize = 1 << 20;

/// Data bytes a line.
const LENGTHS: [usize; 4] = [1, 16, 32, 255];

pub fn compare(seed: u64) -> Result<u64, String> {
    let mut report = Report::new("hex");
    let images = images(seed)?;
    for image in &images {
        by_objcopy(&mut report, image)?;
        by_srec_cat(&mut report, image)?;
        ours(&mut report, image)?;
        report.progress(&image.name);
    }
    linked(&mut report, seed)?;
    refused(&mut report, &images[0])?;
    let srec_cat = srec_cat(&["--version"])?;
    let srec_cat = srec_cat.lines().next().unwrap_or("no version");
    let objcopy = gnu::version("objcopy")?;
    Ok(report.finish(format!("seed {seed}, {objcopy}, {srec_cat}")))
}

fn srec_cat(arguments: &[&str]) -> Result<String, String> {
    gnu::output_of("srec_cat", arguments)
}

fn objcopy(arguments: &[&str]) -> Result<String, String> {
    gnu::output("objcopy", arguments)
}

/// The path of a file between the tools.
fn path(name: &str) -> Result<String, String> {
    Ok(gnu::file(name)?.display().to_string())
}

fn bytes(path: &str) -> Result<Vec<u8>, String> {
    gnu::read(&PathBuf::from(path))
}

/// Bytes from an address on, which lie in a file too.
struct Image {
    name: String,
    bytes: Vec<u8>,
    address: u64,
    path: String,
}

impl Image {
    fn new(name: &str, bytes: Vec<u8>, address: u64) -> Result<Image, String> {
        let path = path(&format!("hex-{address:x}-{}.bin", bytes.len()))?;
        gnu::write(&PathBuf::from(&path), &bytes)?;
        Ok(Image {
            name: name.to_string(),
            bytes,
            address,
            path,
        })
    }

    /// Memory once it is loaded.
    fn memory(&self) -> Vec<u8> {
        let mut memory = vec![FILL; MEMORY];
        let place = (self.address - BASE) as usize;
        memory[place..place + self.bytes.len()].copy_from_slice(&self.bytes);
        memory
    }

    /// A text that `tool` wrote of it.
    fn written(&self, tool: &'static str, how: &str, text: Vec<u8>, start: Option<u64>) -> Written {
        Written {
            tool,
            how: format!("{how}, {}", self.name),
            text,
            answer: loaded(start),
            memory: self.memory(),
        }
    }
}

/// The demo's two images, and large ones: all of memory, over multiples of 65,536, and up to
/// memory's last byte.
fn images(seed: u64) -> Result<Vec<Image>, String> {
    let mut images = Vec::new();
    for name in ["torque", "mended"] {
        let bytes = bytes(&format!("examples/torque/{name}.bin"))?;
        images.push(Image::new(name, bytes, BASE)?);
    }
    let random = &mut stream(seed, 1);
    for (length, place) in [(MEMORY, 0), (200_003, 0xFFFD), (70_001, MEMORY - 70_001)] {
        let bytes = (0..length).map(|_| random.word() as u8).collect();
        let address = BASE + place as u64;
        let name = format!("{length} bytes from {address:#x} on");
        images.push(Image::new(&name, bytes, address)?);
    }
    Ok(images)
}

/// A text that some tool wrote, and what it must come to.
struct Written {
    /// Under which it is counted.
    tool: &'static str,
    how: String,
    text: Vec<u8>,
    answer: Loaded,
    memory: Vec<u8>,
}

/// One that must be loaded, with this start address.
fn loaded(start: Option<u64>) -> Loaded {
    Loaded {
        refusal: 0,
        line: 0,
        start,
    }
}

/// Loads a text by both readers and says what they answer or leave otherwise than they must.
fn differences(written: &Written) -> Vec<String> {
    let mut memory = vec![FILL; MEMORY];
    let proved = sporhulma::load_hex(&mut memory, &written.text);
    let mut other = vec![FILL; MEMORY];
    let second::Loaded {
        refusal,
        line,
        start,
    } = second::load_hex(&mut other, &written.text);
    let second = Loaded {
        refusal,
        line,
        start,
    };
    let sides = [
        ("the loader", proved, memory),
        ("the second reader", second, other),
    ];
    let wrong = |(reader, said, memory): (&str, Loaded, Vec<u8>)| {
        if said != written.answer {
            Some(format!("{reader} gave {said:?}, not {:?}", written.answer))
        } else {
            (memory != written.memory).then(|| format!("{reader} left other bytes"))
        }
    };
    sides.into_iter().filter_map(wrong).collect()
}

fn check(report: &mut Report, written: Written) {
    let Written { tool, how, .. } = &written;
    for wrong in differences(&written) {
        report.difference(format!("{tool} {how}: {wrong}"));
    }
    report.count(match written.answer.refusal {
        0 => format!("loaded, of {tool}"),
        _ => format!("refused as it must be, of {tool}: {how}"),
    });
}

/// objcopy has no option for the length of its lines. `--srec-len` is tried, which its ihex does not
/// go by: should it do so, these are loaded too.
fn by_objcopy(report: &mut Report, image: &Image) -> Result<(), String> {
    let made = path("objcopy.hex")?;
    let from = format!("--change-addresses={:#x}", image.address);
    for more in [
        &[][..],
        &["--srec-len=1"],
        &["--srec-len=32"],
        &["--srec-len=255"],
    ] {
        let raw = ["-I", "binary", "-O", "ihex", &from, &image.path, &made];
        objcopy(&[more, &raw].concat())?;
        let (text, start) = (bytes(&made)?, Some(image.address));
        let written = image.written("objcopy -I binary", &more.concat(), text, start);
        check(report, written);
    }
    Ok(())
}

fn by_srec_cat(report: &mut Report, image: &Image) -> Result<(), String> {
    let made = path("srec_cat.hex")?;
    let offset = format!("{:#x}", image.address);
    let start = image.address + 4;
    let begin = format!("-execution-start-address={start:#x}");
    for length in LENGTHS {
        for (end, start) in [("nl", None), ("crlf", Some(start))] {
            let how = [format!("-obs={length}"), format!("-line-termination={end}")];
            let mut words = vec![image.path.as_str(), "-binary", "-offset", &offset];
            words.extend(start.map(|_| begin.as_str()));
            words.extend(["-o", &made, "-intel", &how[0], &how[1]]);
            srec_cat(&words)?;
            let written = image.written("srec_cat", &how.join(" "), bytes(&made)?, start);
            check(report, written);
        }
    }
    Ok(())
}

/// What `desk hex` writes, read by objcopy and by srec_cat; and what srec_cat writes of that.
fn ours(report: &mut Report, image: &Image) -> Result<(), String> {
    let (made, back, again) = (path("ours.hex")?, path("ours.bin")?, path("again.hex")?);
    let offset = format!("-{:#x}", image.address);
    for (length, start) in LENGTHS.into_iter().zip([None, Some(8), Some(0), None]) {
        let start = start.map(|place| image.address + place);
        let lines = text(
            &image.bytes,
            image.address as u32,
            length,
            start.map(|start| start as u32),
        );
        gnu::write(&PathBuf::from(&made), lines.as_bytes())?;
        let how = format!("--length {length}");
        let mut read = |by: &str| -> Result<(), String> {
            match bytes(&back)? == image.bytes {
                true => report.count(format!("read by {by}, of desk hex")),
                false => report.difference(format!(
                    "desk hex {how}, {}: {by} read other bytes",
                    image.name
                )),
            }
            Ok(())
        };
        objcopy(&["-I", "ihex", "-O", "binary", &made, &back])?;
        read("objcopy")?;
        srec_cat(&[&made, "-intel", "-offset", &offset, "-o", &back, "-binary"])?;
        read("srec_cat")?;
        srec_cat(&[&made, "-intel", "-o", &again, "-intel"])?;
        check(
            report,
            image.written("desk hex", &how, lines.into_bytes(), start),
        );
        let again = bytes(&again)?;
        check(
            report,
            image.written("srec_cat, from desk hex", &how, again, start),
        );
    }
    Ok(())
}

/// Programs that are assembled and linked as programs are, with a start address, beside objcopy's own
/// binary of them: the demo, and a large one of three sections with gaps between them.
fn linked(report: &mut Report, seed: u64) -> Result<(), String> {
    let demo = [(".text", BASE, "examples/torque/torque.bin".to_string())];
    link(report, "the demo", &demo, BASE)?;
    let random = &mut stream(seed, 2);
    let mut sections = Vec::new();
    for (name, address, length) in [
        (".text", BASE, 50_001),
        (".data", 0x8001_2345, 150_000),
        (".far", 0x800F_FFB3, 77),
    ] {
        let data: Vec<u8> = (0..length).map(|_| random.word() as u8).collect();
        let file = path(&format!("hex{name}.bin"))?;
        gnu::write(&PathBuf::from(&file), &data)?;
        sections.push((name, address, file));
    }
    link(report, "three sections", &sections, 0x8000_1234)
}

/// A program of sections, each at its address with the bytes of a file.
fn link(
    report: &mut Report,
    name: &str,
    sections: &[(&str, u64, String)],
    start: u64,
) -> Result<(), String> {
    let [source, object, elf, made, flat] =
        ["hex.s", "hex.o", "hex.elf", "linked.hex", "linked.bin"].map(path);
    let (source, object, elf, made, flat) = (source?, object?, elf?, made?, flat?);
    let line = |(name, _, file): &(&str, u64, String)| {
        format!(".section {name},\"awx\"\n.incbin \"{file}\"\n")
    };
    let lines: String = sections.iter().map(line).collect();
    gnu::write(&PathBuf::from(&source), lines.as_bytes())?;
    gnu::output("as", &["-mno-arch-attr", "-o", &object, &source])?;
    let place =
        |(name, address, _): &(&str, u64, String)| format!("--section-start={name}={address:#x}");
    let places: Vec<String> = sections.iter().map(place).collect();
    let begin = format!("{start:#x}");
    let mut words: Vec<&str> = places.iter().map(String::as_str).collect();
    words.extend(["--no-relax", "-e", &begin, "-o", &elf, &object]);
    gnu::output("ld", &words)?;
    objcopy(&["-O", "ihex", &elf, &made])?;
    objcopy(&["-O", "binary", "--gap-fill", &FILL.to_string(), &elf, &flat])?;
    let mut memory = bytes(&flat)?;
    memory.resize(MEMORY, FILL);
    check(
        report,
        Written {
            tool: "objcopy, of a linked program",
            how: name.to_string(),
            text: bytes(&made)?,
            answer: loaded(Some(start)),
            memory,
        },
    );
    Ok(())
}

/// What these tools write in another way than chapter 11 reads: below 1 MiB objcopy writes type 02,
/// and srec_cat can end lines in CR.
fn refused(report: &mut Report, image: &Image) -> Result<(), String> {
    let made = path("refused.hex")?;
    let mut check = |tool: &'static str, how: &str, made: &str| -> Result<(), String> {
        check(
            report,
            Written {
                tool,
                how: how.to_string(),
                text: bytes(made)?,
                answer: Loaded {
                    refusal: 6,
                    line: 1,
                    start: None,
                },
                memory: vec![FILL; MEMORY],
            },
        );
        Ok(())
    };
    let low = "--change-addresses=0x12340";
    objcopy(&["-I", "binary", "-O", "ihex", low, &image.path, &made])?;
    check("objcopy", "type 02", &made)?;
    let words = [
        &image.path,
        "-binary",
        "-offset",
        "0x80000000",
        "-o",
        &made,
        "-intel",
        "-line-termination=cr",
    ];
    srec_cat(&words)?;
    check("srec_cat", "lines that end in CR", &made)
}

#[cfg(test)]
mod tests {
    use super::*;

    /// What the comparison is to find: another answer, another start address, another byte.
    #[test]
    fn a_difference_is_found_of_each_reader() {
        let text = text(&[1, 2, 3], BASE as u32, 2, Some(BASE as u32));
        let mut memory = vec![FILL; MEMORY];
        memory[..3].copy_from_slice(&[1, 2, 3]);
        let found = |answer, memory: &[u8]| {
            let written = Written {
                tool: "none",
                how: String::new(),
                text: text.clone().into_bytes(),
                answer,
                memory: memory.to_vec(),
            };
            differences(&written).len()
        };
        assert_eq!(found(loaded(Some(BASE)), &memory), 0);
        assert_eq!(found(loaded(None), &memory), 2);
        let mut refused = loaded(None);
        (refused.refusal, refused.line) = (6, 1);
        assert_eq!(found(refused, &memory), 2);
        memory[MEMORY - 1] ^= 1;
        assert_eq!(found(loaded(Some(BASE)), &memory), 2);
    }
}
