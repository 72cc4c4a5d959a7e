//! The phase diagram: for each phase in running order the arms of the junction with the
//! groups that are green in it.

use crate::svg::{Anchor, Svg};
use site::{letter, Group, Side, Site};

const SIZE: f64 = 170.0;
const MIDDLE: f64 = SIZE / 2.0;
const HEAD: f64 = 24.0;
/// The half width of an arm, and how far an arm begins from the middle.
const ARM: f64 = 24.0;
const NEAR: f64 = 30.0;

/// The picture of all phases.
pub fn diagram(site: &Site) -> String {
    let order = site.running_order();
    let mut svg = Svg::default();
    svg.put(ARROW);
    for (at, phase) in order.iter().enumerate() {
        let x = at as f64 * (SIZE + 34.0) + 8.0;
        svg.put(&format!("<g transform=\"translate({x:.0} 8)\">"));
        card(&mut svg, site, *phase);
        svg.put("</g>");
        let text = if at + 1 < order.len() { "→" } else { "↺" };
        let style = "font-size=\"20\" fill=\"#7b8794\"";
        svg.text(
            x + SIZE + 17.0,
            HEAD + MIDDLE + 8.0,
            Anchor::Middle,
            style,
            text,
        );
    }
    let width = order.len() as f64 * (SIZE + 34.0) + 16.0;
    let lines = (0..site.phases.len())
        .map(|phase| names(site, phase).len())
        .max();
    let height = HEAD + SIZE + 14.0 * lines.unwrap_or(0) as f64 + 28.0;
    svg.end(width, height, "The phases in running order")
}

const ARROW: &str = "<defs><marker id=\"tip\" viewBox=\"0 0 8 8\" refX=\"6\" refY=\"4\" markerWidth=\"5\" markerHeight=\"5\" \
    orient=\"auto\"><path d=\"M0 0L8 4L0 8z\" fill=\"#26805a\"/></marker></defs>";

/// The groups of a phase, a few in a line.
fn names(site: &Site, phase: usize) -> Vec<String> {
    let own = site.groups.iter().filter(|group| group.in_phase(phase));
    let names: Vec<&str> = own.map(|group| group.name.as_str()).collect();
    names.chunks(7).map(|line| line.join(" ")).collect()
}

fn card(svg: &mut Svg, site: &Site, phase: usize) {
    let name = site.phases[phase].name.as_deref().unwrap_or_default();
    svg.title(2.0, 15.0, &letter(phase).to_string());
    let name = crate::svg::shortened(name, 27);
    svg.note(20.0, 15.0, &name);
    svg.put(&format!("<g transform=\"translate(0 {HEAD})\">"));
    svg.rect(
        0.0,
        0.0,
        SIZE,
        SIZE,
        "fill=\"#f5f7fa\" stroke=\"#cbd2d9\" rx=\"6\"",
    );
    let bearings: Vec<f64> = site
        .approaches
        .iter()
        .filter_map(|one| one.bearing)
        .map(f64::from)
        .collect();
    for bearing in &bearings {
        arm(svg, *bearing);
    }
    if bearings.is_empty() {
        listed(svg, site, phase);
    } else {
        svg.rect(
            MIDDLE - ARM,
            MIDDLE - ARM,
            2.0 * ARM,
            2.0 * ARM,
            "fill=\"#dde2e8\"",
        );
    }
    for group in site.groups.iter().filter(|group| group.in_phase(phase)) {
        green(svg, site, group);
    }
    svg.put("</g>");
    for (at, line) in names(site, phase).iter().enumerate() {
        let y = HEAD + SIZE + 15.0 + 14.0 * at as f64;
        svg.text(
            2.0,
            y,
            Anchor::Start,
            "font-size=\"11\" fill=\"#323f4b\"",
            line,
        );
    }
}

/// The groups of a phase with their names, if the text does not say where they are.
fn listed(svg: &mut Svg, site: &Site, phase: usize) {
    let own = site.groups.iter().filter(|group| group.in_phase(phase));
    for (at, group) in own.enumerate().take(13) {
        let y = 16.0 + 12.0 * at as f64;
        let name = group.place.name.as_deref().unwrap_or_default();
        svg.note(8.0, y, &group.name);
        svg.faint(34.0, y, &crate::svg::shortened(name, 21));
    }
}

/// A point so far out on an arm, and so far to the right of whoever looks outwards.
fn point(bearing: f64, out: f64, right: f64) -> (f64, f64) {
    let (sin, cos) = bearing.to_radians().sin_cos();
    (
        MIDDLE + out * sin + right * cos,
        MIDDLE - out * cos + right * sin,
    )
}

fn arm(svg: &mut Svg, bearing: f64) {
    let corners = [
        (NEAR - 8.0, -ARM),
        (MIDDLE - 4.0, -ARM),
        (MIDDLE - 4.0, ARM),
        (NEAR - 8.0, ARM),
    ];
    let points = corners.map(|(out, right)| point(bearing, out, right));
    svg.polygon(&points, "fill=\"#dde2e8\"");
    let (from, to) = (point(bearing, NEAR, 0.0), point(bearing, MIDDLE - 4.0, 0.0));
    svg.line(
        from,
        to,
        "stroke=\"#ffffff\" stroke-width=\"1.4\" stroke-dasharray=\"5 4\"",
    );
}

/// A group that is green: a crossing over its arm, or arrows from its arm.
fn green(svg: &mut Svg, site: &Site, group: &Group) {
    let approach = group.place.approach.map(|at| &site.approaches[at]);
    let bearing = match approach.and_then(|approach| approach.bearing) {
        Some(bearing) => f64::from(bearing),
        None => return,
    };
    if group.is_pedestrian() {
        let (from, to) = (
            point(bearing, 54.0, -ARM - 4.0),
            point(bearing, 54.0, ARM + 4.0),
        );
        svg.line(
            from,
            to,
            "stroke=\"#26805a\" stroke-width=\"7\" stroke-dasharray=\"4 3\"",
        );
        return;
    }
    let lane = f64::from(group.place.lanes.map_or(1, |(first, _)| first)) - 1.0;
    // Lane 1 is at the kerb. Who looks outwards has the entering traffic on the right if
    // traffic goes on the left.
    let kerb = if site.side == Side::Left { 1.0 } else { -1.0 };
    let offset = kerb * (17.0 - 9.0 * lane);
    for arrow in &group.place.arrows {
        // Left, straight, right, u-turn: where the way out lies.
        let turn = [90.0, 180.0, 270.0, 0.0][*arrow];
        let out = bearing + turn;
        let (from, near) = (point(bearing, 66.0, offset), point(bearing, NEAR, offset));
        let exit = if turn == 180.0 { -offset } else { -kerb * 12.0 };
        let (bend, to) = (point(out, NEAR, exit), point(out, 60.0, exit));
        let corner = corner((bearing, offset), (out, exit));
        let path = format!(
            "M{:.1} {:.1}L{:.1} {:.1}Q{:.1} {:.1} {:.1} {:.1}L{:.1} {:.1}",
            from.0, from.1, near.0, near.1, corner.0, corner.1, bend.0, bend.1, to.0, to.1
        );
        svg.put(&format!(
            "<path d=\"{path}\" fill=\"none\" stroke=\"#26805a\" stroke-width=\"3\" stroke-linejoin=\"round\" marker-end=\"url(#tip)\"/>"
        ));
    }
}

/// Where two lanes would meet, each a bearing and an offset; between their ends if they go
/// the same way.
fn corner(one: (f64, f64), two: (f64, f64)) -> (f64, f64) {
    let (from, to) = (point(one.0, 0.0, one.1), point(two.0, 0.0, two.1));
    // The lanes run along (sin, -cos).
    let (sin, cos) = one.0.to_radians().sin_cos();
    let (other_sin, other_cos) = two.0.to_radians().sin_cos();
    let across = cos * other_sin - sin * other_cos;
    if across.abs() < 0.01 {
        let (near, far) = (point(one.0, NEAR, one.1), point(two.0, NEAR, two.1));
        return ((near.0 + far.0) / 2.0, (near.1 + far.1) / 2.0);
    }
    let along = ((from.0 - to.0) * other_cos + (from.1 - to.1) * other_sin) / across;
    (from.0 + along * sin, from.1 - along * cos)
}
