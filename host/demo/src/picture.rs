//! The picture: above, the speed that the old simulator drew; below, the torque that the drive got; in both the
//! same program with the shadow stack on, which ends at the trap; and below the mended one, which runs through.

use crate::chart::{
    Anchor, Panel, Svg, BLUE, GREEN, GREY, INDIGO, INK, PALE_GREEN, PALE_VERMILION, SMALL, TITLE,
    VERMILION,
};
use crate::image::{place, symbol};
use crate::incident::Incident;
use crate::outcome::{step_ms, Outcome, Sample};

const WIDTH: u32 = 1120;
const HEIGHT: u32 = 960;
/// Where headings start, and where the panels do.
const MARGIN: f64 = 24.0;
const LEFT: f64 = 84.0;
const PANEL_WIDTH: f64 = 1004.0;
/// From one line of text to the next.
const LINE: f64 = 29.0;
/// From one grid line to the next: ms, rpm and Nm.
const GRID_MS: f64 = 100.0;
const GRID_RPM: f64 = 100.0;
const GRID_NM: f64 = 20.0;

const BOLD: &str = "font-weight=\"bold\"";
const DASHED: &str = "stroke-width=\"2\" stroke-dasharray=\"8 6\"";
const DOTTED: &str = "stroke-width=\"2\" stroke-dasharray=\"3 5\"";
/// The curve of the shadow stack lies under the other, and shows on both sides of it.
const WIDE: &str = "stroke-width=\"12\"";
const NARROW: &str = "stroke-width=\"5\"";
/// The mended curve lies over another, which shows between its dashes.
const BROKEN: &str = "stroke-width=\"5\" stroke-dasharray=\"16 10\"";

/// The picture as SVG.
pub fn of(incident: &Incident) -> Result<String, String> {
    let end = incident.off.samples.len() as f64 * step_ms()?;
    let panel = |top, height, y| Panel {
        left: LEFT,
        top,
        width: PANEL_WIDTH,
        height,
        x: (0.0, end),
        y,
    };
    let (low, high) = (
        symbol("HOLD")? as f64 - GRID_RPM,
        symbol("GOAL")? as f64 + GRID_RPM,
    );
    let speed = panel(150.0, 340.0, (low, high));
    let most = (incident.off.peak() / GRID_NM).ceil() * GRID_NM + GRID_NM;
    let torque = panel(574.0, 304.0, (0.0, most));

    let mut svg = Svg::new(
        WIDTH,
        HEIGHT,
        "A wrapped product, with the shadow stack off and on, and mended",
    );
    heading(&mut svg);
    axes(&mut svg, &speed, &torque);
    trap_line(&mut svg, &speed, &torque, incident)?;
    speed_curves(&mut svg, &speed, incident);
    torque_curves(&mut svg, &torque, incident);
    speed_labels(&mut svg, &speed, incident);
    torque_labels(&mut svg, &torque, incident)?;
    end_of_shadow_stack(&mut svg, &speed, incident, incident.last()?.speed)?;
    end_of_shadow_stack(&mut svg, &torque, incident, incident.last()?.command)?;
    callout(&mut svg, &speed, incident)?;
    Ok(svg.end())
}

fn heading(svg: &mut Svg) {
    let large = format!("font-size=\"{TITLE}\" {BOLD}");
    let title = "A smooth curve, and a kick that nobody drew";
    svg.styled((MARGIN, 50.0), Anchor::Start, INK, &large, title);
    let what =
        "A motor controller's sixteen-bit product wraps, and a store runs over a saved return address.";
    svg.text((MARGIN, 84.0), Anchor::Start, GREY, what);
}

fn axes(svg: &mut Svg, speed: &Panel, torque: &Panel) {
    speed.axes(svg, (GRID_MS, GRID_RPM), false);
    torque.axes(svg, (GRID_MS, GRID_NM), true);
    for (panel, name) in [
        (speed, "Speed (rpm)"),
        (torque, "Torque sent to the drive (Nm)"),
    ] {
        svg.styled((MARGIN, panel.top - 20.0), Anchor::Start, INK, BOLD, name);
    }
    let below = (LEFT + PANEL_WIDTH / 2.0, torque.bottom() + 66.0);
    svg.styled(below, Anchor::Middle, INK, BOLD, "Time (ms)");
}

/// A curve of a run: one value of each sample.
fn points(panel: &Panel, outcome: &Outcome, value: fn(&Sample) -> f64) -> String {
    panel.points(
        outcome
            .samples
            .iter()
            .map(|sample| (sample.ms, value(sample))),
    )
}

fn speed_curves(svg: &mut Svg, panel: &Panel, incident: &Incident) {
    let set_point = points(panel, &incident.off, |sample| sample.reference);
    svg.curve("set-point", &set_point, GREY, DASHED);
    let on = points(panel, &incident.on, |sample| sample.speed);
    svg.curve("on-speed", &on, GREEN, WIDE);
    let off = points(panel, &incident.off, |sample| sample.speed);
    svg.curve("off-speed", &off, BLUE, NARROW);
}

fn torque_curves(svg: &mut Svg, panel: &Panel, incident: &Incident) {
    let kick: Vec<_> = incident
        .kick()
        .map(|sample| (sample.ms, sample.command))
        .collect();
    let ends = [kick.last(), kick.first()].into_iter().flatten();
    let foot = ends.map(|&(ms, _)| (ms, incident.limit));
    let area = panel.points(kick.iter().copied().chain(foot));
    svg.shape(&format!(
        "polygon points=\"{area}\" fill=\"{PALE_VERMILION}\""
    ));

    let limit = panel.at_y(incident.limit);
    svg.line((LEFT, limit), (LEFT + PANEL_WIDTH, limit), GREY, DASHED);
    let on = points(panel, &incident.on, |sample| sample.command);
    svg.curve("on-torque", &on, GREEN, WIDE);
    let off = points(panel, &incident.off, |sample| sample.command);
    svg.curve("off-torque", &off, VERMILION, NARROW);
    let mended = points(panel, &incident.mended, |sample| sample.command);
    svg.curve("mended-torque", &mended, INDIGO, BROKEN);
}

fn speed_labels(svg: &mut Svg, panel: &Panel, incident: &Incident) {
    let goal = incident
        .off
        .samples
        .last()
        .map_or(panel.y.1, |sample| sample.reference);
    let (x, y) = (panel.at_x(incident.stray.ms) + 22.0, panel.at_y(goal));
    svg.text((x, y - 12.0), Anchor::Start, GREY, "set point");
    let lines = ["Shadow stack off:", "the speed that was drawn,", "smooth"];
    label(svg, (x, y + 36.0), BLUE, &lines);
}

fn torque_labels(svg: &mut Svg, panel: &Panel, incident: &Incident) -> Result<(), String> {
    let limit = (LEFT + PANEL_WIDTH - 8.0, panel.at_y(incident.limit) - 12.0);
    svg.text(
        limit,
        Anchor::End,
        GREY,
        &format!("limit {} Nm", incident.limit),
    );

    let lasts = incident.kick().count() as f64 * step_ms()?;
    let x = panel.at_x(incident.stray.ms + lasts) + 24.0;
    let kick = format!(
        "Shadow stack off: up to {:.0} Nm for {lasts} ms, a kick",
        incident.off.peak()
    );
    let why = "the return skipped the limiter: this is what the drive really got";
    let high = panel.at_y(incident.off.peak()) + 12.0;
    label(svg, (x, high), VERMILION, &[kick.as_str(), why]);
    let lines = [
        "Mended, shadow stack on:",
        "its product saturates,",
        "and it runs to its end",
    ];
    let low = panel.at_y(incident.limit) + 34.0;
    label(svg, (x, low), INDIGO, &lines);
    Ok(())
}

/// Lines of text below each other, the first one bold.
fn label(svg: &mut Svg, (x, y): (f64, f64), colour: &str, lines: &[impl AsRef<str>]) {
    for (below, line) in (0u8..).zip(lines) {
        let weight = if below == 0 { BOLD } else { "" };
        let at = (x, y + f64::from(below) * LINE);
        svg.styled(at, Anchor::Start, colour, weight, line.as_ref());
    }
}

/// The moment of the trap: a line down from the speed curve, and through the torque's panel.
fn trap_line(
    svg: &mut Svg,
    speed: &Panel,
    torque: &Panel,
    incident: &Incident,
) -> Result<(), String> {
    let x = speed.at_x(incident.trap_ms()?);
    let curve = speed.at_y(incident.last()?.speed);
    svg.line((x, curve), (x, speed.bottom()), INK, DOTTED);
    svg.line((x, torque.top), (x, torque.bottom()), INK, DOTTED);
    Ok(())
}

/// Where a curve of the shadow stack ends, at the value `y`: a cross in a dark disc, and what it means.
fn end_of_shadow_stack(
    svg: &mut Svg,
    panel: &Panel,
    incident: &Incident,
    y: f64,
) -> Result<(), String> {
    let (x, y) = (panel.at_x(incident.trap_ms()?), panel.at_y(y));
    svg.shape(&format!(
        "circle cx=\"{x:.1}\" cy=\"{y:.1}\" r=\"13\" fill=\"{INK}\" stroke=\"#FFFFFF\" stroke-width=\"3\""
    ));
    let round = "stroke-width=\"3\" stroke-linecap=\"round\"";
    svg.line((x - 5.0, y - 5.0), (x + 5.0, y + 5.0), "#FFFFFF", round);
    svg.line((x - 5.0, y + 5.0), (x + 5.0, y - 5.0), "#FFFFFF", round);
    let small = format!("font-size=\"{SMALL}\" {BOLD}");
    for (above, label) in [(20.0 + LINE, "Shadow stack"), (20.0, "on: stops here")] {
        svg.styled((LEFT + 6.0, y - above), Anchor::Start, GREEN, &small, label);
    }
    Ok(())
}

/// What the trap says, in a box below the speed curve, with a line to the mark.
fn callout(svg: &mut Svg, panel: &Panel, incident: &Incident) -> Result<(), String> {
    let (left, top, width, height) = (546.0, panel.bottom() - 146.0, 532.0, 136.0);
    let mark = (
        panel.at_x(incident.trap_ms()?) + 15.0,
        panel.at_y(incident.last()?.speed),
    );
    svg.line(mark, (left, mark.1), GREEN, "stroke-width=\"2\"");
    svg.shape(&format!(
        "rect id=\"trap\" x=\"{left}\" y=\"{top}\" width=\"{width}\" height=\"{height}\" rx=\"8\" \
         fill=\"{PALE_GREEN}\" stroke=\"{GREEN}\" stroke-width=\"2\""
    ));
    let (cause, tval, pc) = incident.on.trap();
    let (used, pushed) = (incident.used(), incident.pushed()?);
    let lines = [
        format!("Shadow stack on: trap at {} ms", incident.trap_ms()?),
        format!("return address {used:#x} does not match"),
        format!("the pushed {pushed:#x}: the kick is never sent"),
        format!("cause {cause}, tval {tval}, at {}", place(pc)),
    ];
    label(svg, (left + 18.0, top + 34.0), INK, &lines);
    Ok(())
}
