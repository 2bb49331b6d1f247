//! The lines of a node and of the merger.

use crate::alignment::{Plan, WaitKind};
use crate::check::{ByShifts, ByTables};
use crate::cores::{self, Pmu};
use crate::lines::{BESIDE, Line, Mode, Side, assert_same, head, name_of, shape};
use crate::merging::{self, MergedNode};
use crate::plain::Shape;
use crate::publishing::Output;
use crate::script::Script;
use crate::traffic::{self, Beside, FLOOR, NODES, PMUS, RATE, Run, TIME_BASE};
use crate::{ours, refusals};
use std::fmt::Write;
use std::hint::black_box;

fn plan(window: u64, wait_kind: WaitKind) -> Plan {
    Plan {
        wait: 2,
        wait_kind,
        window,
        ahead: 32,
        columns: PMUS,
    }
}

/// What a concentrator with this id is told.
fn settings_text(id: u16, plan: Plan) -> String {
    let kind = if plan.wait_kind == WaitKind::Absolute {
        "wait_kind = \"absolute\"\n"
    } else {
        ""
    };
    let Plan {
        wait,
        window,
        ahead,
        ..
    } = plan;
    format!(
        "id = {id}\nrate = {RATE}\nnominal = 50\ntime_base = {TIME_BASE}\nwait = {wait}\n{kind}window = {window}\nahead = {ahead}\nlayout_every = 50\nout_port = 4713\nsession_port = 4712\n"
    )
}

fn node_text(plan: Plan, time_base: u32) -> String {
    let mut text = settings_text(NODES[0], plan);
    for id in 1..=PMUS {
        let _ = write!(
            text,
            "[[pmu]]\nstream = {id}\ntime_base = {time_base}\nport = {}\n",
            5000 + id
        );
    }
    text
}

fn node_settings(plan: Plan, time_base: u32) -> cores::Settings {
    let pmus = (1..=PMUS as u16)
        .map(|id| Pmu {
            stream: id,
            source: id,
            time_base,
        })
        .collect();
    cores::Settings {
        output: Output {
            id: NODES[0],
            rate: RATE,
            time_base: TIME_BASE,
        },
        plan,
        pmus,
    }
}

/// A line of a node of 16 PMUs, from datagrams to published frames.
fn node(mode: &mut Mode, name: String, shapes: &[Shape], plan: Plan, beside: Beside) {
    let base = beside.time_base();
    let (text, settings) = (node_text(plan, base), node_settings(plan, base));
    let run = traffic::node_run(shapes, 2_048, beside);
    let Run { opening, whole } = &run;
    let of = |plain: fn(&cores::Settings, &Script, u64) -> u64| {
        let settings = &settings;
        Side::opened(
            move || plain(settings, black_box(opening), FLOOR),
            move || plain(settings, black_box(whole), FLOOR),
        )
    };
    let ours = Side::opened(
        || ours::node(&text, black_box(opening), FLOOR),
        || ours::node(&text, black_box(whole), FLOOR),
    );
    let others = vec![of(cores::run::<ByTables>), of(cores::run::<ByShifts>)];
    Line {
        name,
        count: run.datagrams(),
        counted: run.datagrams(),
        ours,
        others,
    }
    .take(mode);
}

const MERGER: u16 = 301;

fn merger_text(plan: Plan, time_base: u32) -> String {
    let mut text = settings_text(MERGER, plan);
    for id in NODES {
        let _ = write!(
            text,
            "[[node]]\nid = {id}\ntime_base = {time_base}\nport = {}\n",
            4500 + id
        );
    }
    for source in 1..=PMUS {
        let _ = write!(text, "[[pmu]]\nsource = {source}\n");
    }
    text
}

fn merger_settings(plan: Plan, time_base: u32) -> merging::Settings {
    let output = Output {
        id: MERGER,
        rate: RATE,
        time_base: TIME_BASE,
    };
    let nodes = NODES.map(|id| MergedNode { id, time_base });
    merging::Settings {
        output,
        plan,
        nodes,
        sources: (1..=PMUS as u16).collect(),
    }
}

/// A line of the merger of two nodes and 16 PMUs, from datagrams to published frames.
fn merger(mode: &mut Mode, name: String, shapes: &[Shape], plan: Plan, beside: Beside) {
    let base = beside.time_base();
    let (text, settings) = (merger_text(plan, base), merger_settings(plan, base));
    let run = traffic::merger_run(shapes, 1_024, beside);
    let Run { opening, whole } = &run;
    let of = |plain: fn(&merging::Settings, &Script, u64) -> u64| {
        let settings = &settings;
        Side::opened(
            move || plain(settings, black_box(opening), FLOOR),
            move || plain(settings, black_box(whole), FLOOR),
        )
    };
    let ours = Side::opened(
        || ours::merger(&text, black_box(opening), FLOOR),
        || ours::merger(&text, black_box(whole), FLOOR),
    );
    let others = vec![of(merging::run::<ByTables>), of(merging::run::<ByShifts>)];
    Line {
        name,
        count: run.datagrams(),
        counted: run.datagrams(),
        ours,
        others,
    }
    .take(mode);
}

type Concentrator = fn(&mut Mode, String, &[Shape], Plan, Beside);

/// The lines of a concentrator: complete data, by shape and window; and what comes beside it.
fn concentrator(
    mode: &mut Mode,
    title: &str,
    shapes: &[Shape],
    line: Concentrator,
    beside: &[(&str, Beside)],
) {
    head(mode, &[title, "window"], &BESIDE);
    let usual = [shape(8, 4, 1); PMUS];
    for shape in shapes {
        for window in [8, 64, 256] {
            line(
                mode,
                format!("{} | {window}", name_of(*shape)),
                &[*shape; PMUS],
                plan(window, WaitKind::Relative),
                Beside::Nothing,
            );
        }
    }
    let mixed: Vec<Shape> = (0..PMUS)
        .map(|pmu| shape(if pmu % 2 == 0 { 2 } else { 32 }, 0, 0))
        .collect();
    line(
        mode,
        "2/0/0 beside 32/0/0 | 64".into(),
        &mixed,
        plan(64, WaitKind::Relative),
        Beside::Nothing,
    );
    line(
        mode,
        "8/4/1, waits counted in instants | 64".into(),
        &usual,
        plan(64, WaitKind::Absolute),
        Beside::Absent,
    );
    for (name, beside) in beside {
        line(
            mode,
            format!("8/4/1, {name} | 64"),
            &usual,
            plan(64, WaitKind::Relative),
            *beside,
        );
    }
}

const REFUSED: (&str, Beside) = ("one datagram in ten refused", Beside::Refused);
const TWICE: (&str, Beside) = ("one in twenty twice", Beside::Twice);
const ABSENT: (&str, Beside) = ("one PMU in four absent", Beside::Absent);
const LATE: (&str, Beside) = ("the second node a tick late", Beside::Late);
const SECOND_FIRST: (&str, Beside) = ("the second node first", Beside::SecondFirst);
const DIFFER: (&str, Beside) = ("one block in four differs", Beside::Differ);
const OTHER_BASE: (&str, Beside) = ("another TIME_BASE comes in", Beside::OtherBase);

/// Each cause of refusal is told apart alike.
fn compare_refusals() {
    let plan = plan(8, WaitKind::Relative);
    let script = refusals::to_node(shape(8, 4, 1));
    let settings = node_settings(plan, TIME_BASE);
    let answers = [
        ours::node(&node_text(plan, TIME_BASE), &script, FLOOR),
        cores::run::<ByTables>(&settings, &script, FLOOR),
    ];
    assert_same("refusals of a node", &answers);
    let script = refusals::to_merger(&[shape(8, 4, 1); PMUS]);
    let settings = merger_settings(plan, TIME_BASE);
    let answers = [
        ours::merger(&merger_text(plan, TIME_BASE), &script, FLOOR),
        merging::run::<ByTables>(&settings, &script, FLOOR),
    ];
    assert_same("refusals of the merger", &answers);
}

pub fn nodes(mode: &mut Mode) {
    compare_refusals();
    let shapes = [shape(1, 0, 0), shape(8, 4, 1), shape(32, 32, 8)];
    concentrator(
        mode,
        "a node of 16 PMUs",
        &shapes,
        node,
        &[REFUSED, TWICE, ABSENT, OTHER_BASE],
    );
}

pub fn mergers(mode: &mut Mode) {
    let shapes = [shape(1, 0, 0), shape(8, 4, 1), shape(32, 32, 8)];
    concentrator(
        mode,
        "the merger of two nodes",
        &shapes,
        merger,
        &[
            REFUSED,
            TWICE,
            ABSENT,
            LATE,
            SECOND_FIRST,
            DIFFER,
            OTHER_BASE,
        ],
    );
}
