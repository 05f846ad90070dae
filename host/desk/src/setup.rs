//! From the options of `desk run` to what is run: the state at the start, the map, the limits, the outputs.

use crate::drive::Limits;
use crate::dump::Dump;
use crate::environment::Services;
use crate::failure::Failure;
use crate::image;
use crate::layout::Layout;
use crate::load::{self, load, Image, Loaded};
use crate::map::PageMap;
use crate::output::{self, Output};
use crate::run_options::{Expect, RunOptions, Wanted};
use crate::start::{self, hart, pc};
use crate::state::State;
use crate::symbols::Symbols;
use crate::window::{Start, Window};
use crate::words;
use sporhulma::{word, Hart};

/// All that `desk run` was asked to do.
pub struct Job {
    pub image: Image,
    pub state: State,
    pub map: PageMap,
    /// How the map was laid out, if no file gave it.
    pub layout: Option<Layout>,
    /// Whether the start is that of a user program by `--user`.
    pub user: bool,
    pub symbols: Symbols,
    pub limits: Limits,
    pub expect: Option<Expect>,
    pub services: Services,
    /// Whether the program's exit value is the status.
    pub exit_status: bool,
    /// Whether a note is an end that was not asked for.
    pub strict: bool,
    /// Which steps are traced.
    pub window: Window,
    pub trace_to: Option<Output>,
    /// Whether the steps are counted by function.
    pub profile: bool,
    pub profile_svg: Option<Output>,
    pub registers: bool,
    pub dumps: Vec<Dump>,
    pub save: Option<Output>,
    /// Whether the frames that the map names are to be told.
    pub frames: bool,
    pub json: bool,
}

impl Job {
    pub fn new(options: &RunOptions) -> Result<Job, Failure> {
        options.agree()?;
        let Loaded {
            image,
            mem,
            map,
            layout,
            symbols,
        } = load(options)?;
        let state = started(options, &image, mem, layout.as_ref())?;
        let symbols = match &options.symbols {
            Some(path) => load::symbols(path)?,
            None => symbols,
        };
        Ok(Job {
            dumps: dumps(options, &symbols)?,
            window: window(options, &symbols)?,
            symbols,
            user: options.user,
            map,
            layout,
            expect: options.expect.clone(),
            services: services(options)?,
            exit_status: options.exit_status,
            strict: options.strict,
            trace_to: output(options, "--trace-to", &options.trace_to)?,
            profile: options.profile || options.profile_svg.is_some(),
            profile_svg: output(options, "--profile-svg", &options.profile_svg)?,
            registers: options.registers,
            save: output(options, "--save", &options.save)?,
            frames: options.frames,
            json: options.json,
            state,
            limits: Limits {
                steps: options.steps,
                follow: options.follow,
            },
            image,
        })
    }
}

/// The state at the start, for `--user` that of a user program.
fn started(
    options: &RunOptions,
    image: &Image,
    mem: Vec<u8>,
    layout: Option<&Layout>,
) -> Result<State, Failure> {
    let user = layout.filter(|_| options.user);
    let mut hart = hart(user.map_or_else(Hart::fresh, start::user), &options.start)?;
    hart.rest[word::PC] = pc(&options.start, image)?.unwrap_or(hart.rest[word::PC]);
    let given = given(options, hart.rest[word::PC])?;
    Ok(State { hart, mem, given })
}

/// The word that the first step takes, if one is given; what it says of targets is from pc on.
fn given(options: &RunOptions, pc: u64) -> Result<Option<u32>, Failure> {
    let word = options.word.as_deref().map(|text| words::given(text, pc));
    word.transpose()
        .map_err(|wrong| Failure::at("--word", wrong))
}

/// What serves the program's calls: something must, where its exit is waited for.
fn services(options: &RunOptions) -> Result<Services, Failure> {
    let services = Services {
        semihosting: options.semihosting,
        syscalls: options.syscalls,
    };
    let exit = |expect: &Expect| matches!(expect.wanted, Wanted::Exit(_));
    let waits = match (
        options.exit_status,
        options.expect.as_ref().is_some_and(exit),
    ) {
        (true, _) => "--exit-status",
        (_, true) => "--expect",
        _ => return Ok(services),
    };
    if !services.semihosting && !services.syscalls {
        let wrong = "nothing serves an exit of the program; add --syscalls or --semihosting";
        return Err(Failure::at(waits, wrong));
    }
    Ok(services)
}

/// The page map of a file.
pub fn map(path: &str) -> Result<PageMap, Failure> {
    PageMap::parse(path, &image::text(path)?)
}

/// The file that an option names, open for writing; it must be none that would be lost by that.
fn output(
    options: &RunOptions,
    option: &str,
    path: &Option<String>,
) -> Result<Option<Output>, Failure> {
    let (trace, save) = (options.trace_to.as_deref(), options.save.as_deref());
    let others = [
        ("the image", Some(options.image.as_str())),
        ("the page map", options.map_file()),
        ("the file of symbols", options.symbols.as_deref()),
        ("the trace", trace.filter(|_| option != "--trace-to")),
        (
            "the saved memory",
            save.filter(|_| option == "--profile-svg"),
        ),
    ];
    output::asked(option, path.as_deref(), &others)
}

/// Which steps are traced.
fn window(options: &RunOptions, symbols: &Symbols) -> Result<Window, Failure> {
    let wrong = |wrong: String| Failure::at("--trace-from", wrong);
    match (options.traces(), options.trace_last, &options.trace_from) {
        (None, ..) => Ok(Window::None),
        (_, Some(steps), _) => Ok(Window::Last(steps)),
        (.., from) => {
            let from = from.as_deref().unwrap_or("1");
            let start = Start::parse(from, symbols).map_err(wrong)?;
            Ok(Window::From(start, options.trace_steps.unwrap_or(u64::MAX)))
        }
    }
}

/// The stretches of memory that are shown at the end.
fn dumps(options: &RunOptions, symbols: &Symbols) -> Result<Vec<Dump>, Failure> {
    let wrong = |wrong: String| Failure::at("--dump", wrong);
    let dumps = options.dump.iter();
    dumps
        .map(|asked| Dump::parse(asked, options.memory, symbols).map_err(wrong))
        .collect()
}
