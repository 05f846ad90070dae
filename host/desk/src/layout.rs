//! Where a user program lies: `--map auto` makes a page map from an ELF file's segments, a stack and a shadow stack, as the text of a map
//! file that can be kept. A map that is given puts segments that lie outside memory where it has their pages.

use crate::elf::{Elf, Segment};
use crate::map::{PageMap, MOST, PAGE};
use sporhulma::BASE;
use std::ops::Range;

/// What is asked for beside the segments.
pub struct Wish {
    /// Bytes of memory.
    pub memory: u64,
    /// Bytes of the stack and of the shadow stack.
    pub stack: u64,
    pub shadow: u64,
    /// Whether the pages are for U, and else for S.
    pub user: bool,
}

/// A map as it was laid out.
pub struct Layout {
    /// What a map file would have.
    pub text: String,
    /// Where the stack pointers begin.
    pub sp: u64,
    pub ssp: u64,
    /// Landing pads in the program.
    pub pads: usize,
}

/// Where the stacks end, if no segment is there; else so much further on. Numbers that are known again in a report.
const STACK_END: u64 = 0x4000_0000;
const SHADOW_END: u64 = 0x5000_0000;
const FURTHER: u64 = 0x1000_0000;

/// Bytes that are left free at the stack's end: start code that looks for argc, argv and the rest there finds zeros.
const ARGUMENTS: u64 = 64;

/// Pages in a row with the same rights, and the segments on them.
struct Run {
    pages: Range<u64>,
    rights: String,
    segments: Vec<usize>,
    /// The physical address of its first page.
    frame: u64,
}

/// Lays out the map, and puts the segments where it has them.
pub fn lay_out(elf: &mut Elf, wish: &Wish) -> Result<Layout, String> {
    let mut runs = runs(&elf.segments)?;
    few_enough(&runs, wish)?;
    let mut taken = place(&mut runs, &mut elf.segments, wish)?;
    let mut pages: Vec<_> = runs.iter().map(|run| run.pages.clone()).collect();
    let stack = beside(&mut pages, wish.stack, STACK_END);
    let shadow = beside(&mut pages, wish.shadow, SHADOW_END);
    let stack_frame = free(&mut taken, wish.stack, wish)?;
    let shadow_frame = free(&mut taken, wish.shadow, wish)?;
    let u = if wish.user { " u" } else { "" };
    let program: String = runs.iter().map(|run| run.lines(&elf.segments, u)).collect();
    let (sp, ssp) = (stack.end - ARGUMENTS, shadow.end);
    let stacks = format!(
        "# stack of {} bytes: --x sp={sp:#x}\n{}rw-{u}\n# shadow stack of {} bytes: --ssp {ssp:#x}\n{}shadow{u}\n",
        wish.stack,
        line(&stack, stack_frame),
        wish.shadow,
        line(&shadow, shadow_frame)
    );
    Ok(Layout {
        text: program + &stacks,
        sp,
        ssp,
        pads: pads(elf),
    })
}

/// Gives every run its frames, and moves the segments of those that cannot keep theirs; all that is then taken.
fn place(
    runs: &mut [Run],
    segments: &mut [Segment],
    wish: &Wish,
) -> Result<Vec<Range<u64>>, String> {
    let (mut taken, mut moved) = (Vec::new(), Vec::new());
    // Those that keep their frames first, so that no other takes these.
    for run in runs {
        if !keeps_frames(run, segments, wish.memory, &mut taken) {
            moved.push(run);
        }
    }
    for run in moved {
        run.frame = free(&mut taken, run.pages.end - run.pages.start, wish)?;
        for &at in &run.segments {
            segments[at].physical = run.frame + (segments[at].address - run.pages.start);
        }
    }
    Ok(taken)
}

/// Puts segments that lie outside memory into the frames where a map has their pages.
pub fn follow(elf: &mut Elf, map: &PageMap, memory: u64) -> Result<(), String> {
    let inside = |segment: &Segment| {
        let Range { start, end } = segment.frames();
        start >= BASE && end <= BASE + memory
    };
    for segment in elf.segments.iter_mut().filter(|segment| !inside(segment)) {
        let frame = |page: u64| map.entries.iter().find(|entry| entry.address() == page);
        let pages = pages(segment);
        let Some(first) = frame(pages.start).map(|entry| entry.frame()) else {
            continue;
        };
        for page in pages.clone().step_by(PAGE as usize) {
            let right = first + (page - pages.start);
            if frame(page).map(|entry| entry.frame()) != Some(right) {
                return Err(format!(
                    "segment {} lies outside memory, and the map does not have its page {page:#x} at {right:#x}, behind the one before; give it frames in a row",
                    segment.number
                ));
            }
        }
        segment.physical = first + (segment.address - pages.start);
    }
    Ok(())
}

/// The pages that a segment touches.
fn pages(segment: &Segment) -> Range<u64> {
    let Range { start, end } = segment.pages();
    start / PAGE * PAGE..end.div_ceil(PAGE) * PAGE
}

/// The segments by the pages that they touch, in rising order.
fn runs(segments: &[Segment]) -> Result<Vec<Run>, String> {
    let mut order: Vec<usize> = (0..segments.len()).collect();
    order.sort_by_key(|&at| segments[at].address);
    let mut runs: Vec<Run> = Vec::new();
    for at in order {
        let segment = &segments[at];
        let (pages, rights) = (pages(segment), rights(segment));
        match runs.last_mut() {
            Some(last) if pages.start < last.pages.end => {
                if last.rights != rights {
                    let number = segments[last.segments[0]].number;
                    return Err(format!(
                        "segments {number} and {} share the page {:#x}, with rights {} and {rights}; link them on pages of their own (ALIGN(4096) in the linker script)",
                        segment.number, pages.start, last.rights
                    ));
                }
                last.pages.end = last.pages.end.max(pages.end);
                last.segments.push(at);
            }
            _ => runs.push(Run {
                pages,
                rights,
                segments: vec![at],
                frame: 0,
            }),
        }
    }
    Ok(runs)
}

/// Rights as a map has them. W alone would be a shadow page, and is no right that an ordinary page can have.
fn rights(segment: &Segment) -> String {
    let has = |letter| segment.rights.contains(letter);
    let letter = |has, letter| if has { letter } else { '-' };
    let read = has('r') || has('w');
    [
        letter(read, 'r'),
        letter(has('w'), 'w'),
        letter(has('x'), 'x'),
    ]
    .into_iter()
    .collect()
}

fn few_enough(runs: &[Run], wish: &Wish) -> Result<(), String> {
    let pages = |run: &Run| (run.pages.end - run.pages.start) / PAGE;
    let program: u64 = runs.iter().map(pages).fold(0, u64::saturating_add);
    let stacks = (wish.stack + wish.shadow) / PAGE;
    match program + stacks <= MOST as u64 {
        true => Ok(()),
        false => Err(format!(
            "the program has {program} pages and its stacks {stacks}, and a map has at most {MOST}; make the program or --stack smaller"
        )),
    }
}

/// Whether the segments of a run lie in memory, in frames of their own, by their physical addresses.
fn keeps_frames(
    run: &mut Run,
    segments: &[Segment],
    memory: u64,
    taken: &mut Vec<Range<u64>>,
) -> bool {
    let moved = |&at: &usize| segments[at].physical.wrapping_sub(segments[at].address);
    let by = moved(&run.segments[0]);
    let frame = run.pages.start.wrapping_add(by);
    let length = run.pages.end - run.pages.start;
    let inside = frame >= BASE && length <= memory && frame - BASE <= memory - length;
    let alike = by % PAGE == 0 && run.segments.iter().all(|at| moved(at) == by);
    let keeps = alike && inside && !meets(taken, &(frame..frame + length));
    if keeps {
        run.frame = frame;
        taken.push(frame..frame + length);
    }
    keeps
}

fn meets(ranges: &[Range<u64>], one: &Range<u64>) -> bool {
    ranges
        .iter()
        .any(|other| one.start < other.end && other.start < one.end)
}

/// The first frames in a row that are free, which are then taken.
fn free(taken: &mut Vec<Range<u64>>, length: u64, wish: &Wish) -> Result<u64, String> {
    let ends = taken.iter().map(|range| range.end);
    let mut starts: Vec<u64> = ends.chain([BASE]).collect();
    starts.sort_unstable();
    let end = BASE + wish.memory;
    let fits = |&start: &u64| {
        let frames = start..start + length;
        frames.end <= end && !meets(taken, &frames)
    };
    let Some(start) = starts.into_iter().find(fits) else {
        let memory = wish.memory;
        return Err(format!("memory of {memory} bytes has no {length} bytes in a row left for the map's pages; give more by --memory"));
    };
    taken.push(start..start + length);
    Ok(start)
}

/// Pages before `end` or further on, with a page on each side that nothing else has.
fn beside(pages: &mut Vec<Range<u64>>, length: u64, end: u64) -> Range<u64> {
    let mut end = end;
    while meets(pages, &(end - length - PAGE..end + PAGE)) {
        end += FURTHER;
    }
    pages.push(end - length..end);
    end - length..end
}

impl Run {
    /// What a map file has of it, with the segments' numbers. Without any right there is no page.
    fn lines(&self, segments: &[Segment], u: &str) -> String {
        let numbers: Vec<String> = self
            .segments
            .iter()
            .map(|&at| segments[at].number.to_string())
            .collect();
        let numbers = numbers.join(", ");
        match self.rights.as_str() {
            "---" => format!("# segment {numbers} has no rights, and so no pages\n"),
            rights => format!(
                "# segment {numbers}\n{}{rights}{u}\n",
                line(&self.pages, self.frame)
            ),
        }
    }
}

/// A line of a map file, up to its flags.
fn line(pages: &Range<u64>, frame: u64) -> String {
    format!("{:#x}..{:#x} -> {frame:#x} ", pages.start, pages.end)
}

/// How many words of the executable segments are landing pads (AUIPC to x0).
fn pads(elf: &Elf) -> usize {
    let executable = elf
        .segments
        .iter()
        .filter(|segment| segment.rights.contains('x'));
    let words = executable.flat_map(|segment| {
        let skip = segment.address.wrapping_neg() as usize % 4;
        elf.bytes[segment.bytes.clone()]
            .get(skip..)
            .unwrap_or_default()
            .chunks_exact(4)
    });
    let pad = |word: &&[u8]| word[0] == 0x17 && word[1] & 0xf == 0;
    words.filter(pad).count()
}
