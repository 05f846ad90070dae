//! What the demo leaves: the story, the picture, and a clear line when it can't.

use demo::image::place;
use demo::incident::Incident;
use demo::Failure;
use std::fs;
use std::path::{Path, PathBuf};

/// A folder of this test's own, empty, removed at the end.
struct Folder(PathBuf);

impl Folder {
    fn new(name: &str) -> Folder {
        let path = std::env::temp_dir().join(format!("demo-{name}-{}", std::process::id()));
        fs::create_dir(&path).unwrap();
        Folder(path)
    }

    fn names(&self) -> Vec<String> {
        let name = |entry: std::io::Result<fs::DirEntry>| entry.unwrap().file_name();
        fs::read_dir(&self.0)
            .unwrap()
            .map(|e| name(e).into_string().unwrap())
            .collect()
    }
}

impl Drop for Folder {
    fn drop(&mut self) {
        fs::remove_dir_all(&self.0).unwrap();
    }
}

fn run(svg: &Path) -> Result<String, Failure> {
    let mut out = Vec::new();
    demo::run(&mut out, svg).map(|()| String::from_utf8(out).unwrap())
}

fn picture(folder: &Folder) -> String {
    let svg = folder.0.join("torque.svg");
    run(&svg).unwrap();
    fs::read_to_string(svg).unwrap()
}

#[test]
fn the_story_has_the_numbers_of_the_runs() {
    let folder = Folder::new("story");
    let story = run(&folder.0.join("torque.svg")).unwrap();
    let incident = Incident::happen().unwrap();
    let stray = &incident.stray;
    let (_, _, pc) = incident.on.trap();
    for wanted in [
        format!(" {} times ", stray.speed_factor),
        format!(" {} times ", stray.torque_factor),
        format!(": {}.", stray.full_product()),
        format!(" {},", stray.product),
        format!("class {} ", stray.class().unwrap()),
        format!("turns {:#x} ({})", stray.pushed, place(stray.pushed)),
        format!("into {:#x} ({})", stray.stored, place(stray.stored)),
        format!("the return goes to {:#x} ", stray.landed),
        format!("up to {:.1} Nm", incident.off.peak()),
        format!(
            "cause 18 (software check), tval 3 (shadow stack),\n  at {pc:#x} ({})",
            place(pc)
        ),
        format!("the return address {:#x} is not\n", incident.used()),
        format!("the pushed {:#x}, which lies", incident.pushed().unwrap()),
    ] {
        assert!(story.contains(&wanted), "no '{wanted}' in:\n{story}");
    }
}

#[test]
fn the_story_says_in_one_line_that_the_mended_controller_runs_through() {
    let folder = Folder::new("mended");
    let story = run(&folder.0.join("torque.svg")).unwrap();
    let line = "Shadow stack on, mended so that the product saturates: \
                runs through, the drive gets 60.0 Nm at most.";
    assert!(story.lines().any(|said| said == line), "{story}");
}

#[test]
fn the_story_is_short() {
    let folder = Folder::new("short");
    // The last line names the picture's file, which may be long.
    let story = run(&folder.0.join("torque.svg")).unwrap();
    let lines: Vec<&str> = story.lines().filter(|line| !line.is_empty()).collect();
    assert!((12..=15).contains(&lines.len()), "{} lines", lines.len());
    assert!(lines[..lines.len() - 1]
        .iter()
        .all(|line| line.len() <= 100));
}

/// The elements still open at the end, after a walk over all tags; attributes must be NAME="VALUE".
fn open_elements(svg: &str) -> Vec<String> {
    let mut open = Vec::new();
    for piece in svg.split('<').skip(1) {
        let (tag, text) = piece.split_once('>').expect("a tag has its end");
        assert!(
            text.split('&').skip(1).all(|rest| rest.contains(';')),
            "a bare & in {text}"
        );
        if let Some(name) = tag.strip_prefix('/') {
            assert_eq!(open.pop().as_deref(), Some(name));
            continue;
        }
        let whole = tag.strip_suffix('/');
        let tag = whole.unwrap_or(tag);
        let (name, attributes) = tag.split_once(' ').unwrap_or((tag, ""));
        let quotes: Vec<&str> = attributes.split('"').collect();
        assert_eq!(quotes.len() % 2, 1, "quotes of {tag}");
        let names = quotes.iter().step_by(2).take(quotes.len() / 2);
        assert!(
            names.clone().all(|name| name.ends_with('=')),
            "attributes of {tag}"
        );
        assert!(
            quotes[quotes.len() - 1].trim().is_empty(),
            "attributes of {tag}"
        );
        if whole.is_none() {
            open.push(name.to_string());
        }
    }
    open
}

#[test]
fn the_picture_is_well_formed() {
    let svg = picture(&Folder::new("formed"));
    assert!(svg.starts_with("<svg xmlns=\"http://www.w3.org/2000/svg\" "));
    assert_eq!(open_elements(&svg), Vec::<String>::new());
    assert_eq!(open_elements("<a b=\"c\"><d/>"), ["a"]);
}

/// How many points the curve of this name has.
fn points(svg: &str, id: &str) -> usize {
    let (_, rest) = svg.split_once(&format!("id=\"{id}\" points=\"")).expect(id);
    rest.split('"').next().unwrap().split(' ').count()
}

#[test]
fn the_picture_has_the_runs_and_the_trap() {
    let svg = picture(&Folder::new("curves"));
    let incident = Incident::happen().unwrap();
    for curve in ["off-speed", "off-torque"] {
        assert_eq!(points(&svg, curve), incident.off.samples.len());
    }
    for curve in ["on-speed", "on-torque"] {
        assert_eq!(points(&svg, curve), incident.on.samples.len());
    }
    let mended = incident.mended.samples.len();
    assert_eq!(points(&svg, "mended-torque"), mended);
    let (used, pushed) = (incident.used(), incident.pushed().unwrap());
    for text in [
        format!(
            ">Shadow stack on: trap at {} ms<",
            incident.trap_ms().unwrap()
        ),
        format!(">return address {used:#x} does not match<"),
        format!(">the pushed {pushed:#x}: the kick is never sent<"),
        ">Mended, shadow stack on:<".into(),
        ">Speed (rpm)<".into(),
        ">Torque sent to the drive (Nm)<".into(),
        ">Time (ms)<".into(),
    ] {
        assert!(svg.contains(&text), "no '{text}'");
    }
}

#[test]
fn the_readmes_picture_is_the_demos() {
    let made = picture(&Folder::new("readme"));
    let kept = include_str!("../../../docs/torque.svg");
    assert!(
        made == kept,
        "docs/torque.svg is old; run ./desk demo --svg docs/torque.svg"
    );
}

#[test]
fn the_picture_replaces_an_older_one_and_leaves_nothing_else() {
    let folder = Folder::new("older");
    fs::write(folder.0.join("torque.svg"), "older").unwrap();
    assert!(picture(&folder).ends_with("</svg>\n"));
    assert_eq!(folder.names(), ["torque.svg"]);
}

#[test]
fn a_link_is_followed() {
    let folder = Folder::new("link");
    let (file, link) = (folder.0.join("file.svg"), folder.0.join("link.svg"));
    fs::write(&file, "older").unwrap();
    std::os::unix::fs::symlink(&file, &link).unwrap();
    run(&link).unwrap();
    assert!(fs::symlink_metadata(&link).unwrap().is_symlink());
    assert!(fs::read_to_string(&file).unwrap().ends_with("</svg>\n"));
}

#[test]
fn a_place_that_takes_no_picture_is_said_in_one_line() {
    let folder = Folder::new("places");
    let missing = folder.0.join("missing");
    let here = folder.0.display();
    for (svg, why) in [
        (
            missing.join("torque.svg"),
            format!("there is no folder {here}/missing; make it first"),
        ),
        (
            folder.0.clone(),
            "that is a folder; give a file such as torque.svg in it".into(),
        ),
        (
            "/dev/null".into(),
            "that is no ordinary file; give a file such as torque.svg".into(),
        ),
        (
            missing.join(".."),
            "that names no file; give a file such as torque.svg".into(),
        ),
    ] {
        assert_eq!(
            run(&svg),
            Err(Failure::Place(format!(
                "cannot write {}: {why}",
                svg.display()
            )))
        );
    }
    assert!(folder.names().is_empty());
}

#[test]
fn a_story_that_cannot_be_written_is_an_error() {
    struct Closed;
    impl std::io::Write for Closed {
        fn write(&mut self, _: &[u8]) -> std::io::Result<usize> {
            Err(std::io::ErrorKind::BrokenPipe.into())
        }
        fn flush(&mut self) -> std::io::Result<()> {
            Ok(())
        }
    }
    let folder = Folder::new("closed");
    let wrong = demo::run(&mut Closed, &folder.0.join("torque.svg"));
    let line = "cannot write the story: broken pipe".into();
    assert_eq!(wrong, Err(Failure::Own(line)));
}
