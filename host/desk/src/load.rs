//! What `desk run` puts into memory: a raw image at its start, a text in Intel HEX where its records say, or an ELF file by its segments.

use crate::elf::{self, Elf};
use crate::failure::Failure;
use crate::image;
use crate::intel_hex;
use crate::layout::{self, lay_out, Layout};
use crate::map::PageMap;
use crate::run_options::{MapWish, RunOptions};
use crate::setup;
use crate::symbols::Symbols;
use clap::ValueEnum;

/// What the image is.
#[derive(Clone, Copy, Debug, PartialEq, ValueEnum)]
pub enum Format {
    Raw,
    Hex,
    Elf,
}

/// The file that was loaded.
pub struct Image {
    pub path: String,
    pub format: Format,
    /// The start address that a text in Intel HEX gives last, or the entry point of an ELF file.
    pub start: Option<u64>,
}

impl Image {
    pub fn format_name(&self) -> &'static str {
        match self.format {
            Format::Raw => "raw",
            Format::Hex => "hex",
            Format::Elf => "elf",
        }
    }

    /// What `--pc start` stands for.
    pub fn start_address(&self) -> Result<u64, String> {
        let path = &self.path;
        match (self.format, self.start) {
            (_, Some(start)) => Ok(start),
            (Format::Raw, None) => Err(format!(
                "'start' is the start address of an Intel HEX or ELF file, and {path} is a raw image; give an address"
            )),
            (_, None) => Err(format!(
                "'start' is the file's start address, and {path} gives none (no type 05 record); give an address"
            )),
        }
    }
}

/// What `desk run` begins with.
pub struct Loaded {
    pub image: Image,
    pub mem: Vec<u8>,
    pub map: PageMap,
    /// How the map was laid out, if no file gave it.
    pub layout: Option<Layout>,
    /// What the image itself names.
    pub symbols: Symbols,
}

/// Memory with what the image holds, and the page map, by which an ELF file's segments may be placed.
pub fn load(options: &RunOptions) -> Result<Loaded, Failure> {
    let (path, chosen) = (options.image.as_str(), options.format);
    let bytes = image::bytes(path)?;
    let format = chosen.unwrap_or_else(|| told(&bytes));
    let mut loaded = Loaded {
        image: Image {
            path: path.into(),
            format,
            start: None,
        },
        mem: vec![0; options.memory as usize],
        map: map(options, format)?,
        layout: None,
        symbols: Symbols::default(),
    };
    loaded.image.start = match format {
        Format::Hex => intel_hex::load(path, &bytes, &mut loaded.mem, chosen.is_none())?,
        Format::Raw => {
            place(path, &image::raw(path, bytes)?, &mut loaded.mem)?;
            None
        }
        Format::Elf => Some(loaded.place_elf(options, &bytes)?),
    };
    Ok(loaded)
}

impl Loaded {
    /// Puts an ELF file into memory, by a map that is laid out for it or by the one that is there; gives its entry point.
    fn place_elf(&mut self, options: &RunOptions, bytes: &[u8]) -> Result<u64, Failure> {
        let path = options.image.as_str();
        let at = |wrong| Failure::at(path, wrong);
        let mut elf = Elf::read(path, image::whole(path, bytes)?)?;
        if let MapWish::Auto(_) = options.map_wish() {
            let layout = lay_out(&mut elf, &options.wish()).map_err(at)?;
            self.map = PageMap::parse("--map auto", &layout.text)?;
            self.layout = Some(layout);
        } else {
            elf.leave_out_headers();
            layout::follow(&mut elf, &self.map, options.memory).map_err(at)?;
        }
        elf.place(path, &mut self.mem)?;
        self.symbols = Symbols::new(path, &elf)?;
        Ok(elf.entry)
    }
}

/// The page map that a file gives; one that is laid out comes with the ELF file.
fn map(options: &RunOptions, format: Format) -> Result<PageMap, Failure> {
    match options.map_wish() {
        MapWish::File(file) => setup::map(file),
        MapWish::Auto(option) if format != Format::Elf => {
            let path = &options.image;
            let wrong = format!(
                "it lays out the segments of an ELF file, and {path} is none; give --map FILE"
            );
            Err(Failure::at(option, wrong))
        }
        MapWish::Auto(_) | MapWish::None => Ok(PageMap::default()),
    }
}

/// What a file is, by its content.
fn told(bytes: &[u8]) -> Format {
    if elf::told(bytes) {
        Format::Elf
    } else if intel_hex::told(bytes) {
        Format::Hex
    } else {
        Format::Raw
    }
}

/// The names that an ELF file gives, for an image that has none.
pub fn symbols(path: &str) -> Result<Symbols, Failure> {
    let bytes = image::bytes(path)?;
    let elf = Elf::read(path, image::whole(path, &bytes)?)?;
    Symbols::new(path, &elf)
}

/// Puts a raw image at the start of memory.
fn place(path: &str, image: &[u8], mem: &mut [u8]) -> Result<(), Failure> {
    let length = mem.len();
    match mem.get_mut(..image.len()) {
        Some(start) => {
            start.copy_from_slice(image);
            Ok(())
        }
        None => {
            let (bytes, enough) = (image.len(), image.len().next_multiple_of(4096));
            let wrong =
                format!("the image has {bytes} bytes and memory {length}; try --memory {enough}");
            Err(Failure::at(path, wrong))
        }
    }
}
