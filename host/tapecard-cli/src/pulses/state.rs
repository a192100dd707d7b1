//! A pulse drive's record as a person wants to see it.

use tapecard::bytes::train;
use tapecard::pulse::{Motion, Record};

use crate::words;

/// One line: where the tape is and what is pending.
pub fn summary(record: &Record) -> String {
    let mut parts = vec![place(record)];
    if record.cartridge_in() {
        parts.push(format!("track {}", record.track()));
        if record.referenced() {
            parts.push("referenced".into());
        }
    }
    if record.new_mark() {
        parts.push("new cartridge".into());
    }
    if record.report_left() > 0 {
        parts.push(format!("report open, {} left", items(record)));
    }
    if record.waiting_code() != 0 {
        parts.push(waiting(record));
    }
    parts.push(error(record));
    parts.join("; ")
}

/// All of the record, a line each.
pub fn whole(record: &Record) -> Vec<String> {
    let report = match record.report_left() {
        0 => "none open".into(),
        _ => format!("open, {} left", items(record)),
    };
    vec![
        format!("cartridge  {}", cartridge(record)),
        format!("tape       {}", place(record)),
        format!("track      {}", record.track()),
        format!("referenced {}", words::yes_no(record.referenced())),
        format!("new        {}", words::yes_no(record.new_mark())),
        format!("held       {}", error(record)),
        format!("report     {report}"),
        format!("arguments  {}", waiting(record)),
        format!(
            "rate       {}, {}",
            record.rate(),
            words::pulses::rate(record.rate())
        ),
        format!("level      {}", record.level()),
        format!("vendor     {}", record.vendor()),
        format!("ROM        {}", record.rom()),
    ]
}

/// What a call changed, a line each.
pub fn changes(before: &Record, after: &Record) -> Vec<String> {
    let mut lines = error_changes(before, after);
    let motion = |record: &Record| (record.motion(), record.target(), record.place());
    if motion(before) != motion(after) {
        lines.push(place(after));
    }
    if before.track() != after.track() {
        lines.push(format!("track {}", after.track()));
    }
    if before.rate() != after.rate() {
        let words = words::pulses::rate(after.rate());
        lines.push(format!("rate {}, {words}", after.rate()));
    }
    let arguments = |record: &Record| (record.waiting_code(), record.arguments_held());
    if arguments(before) != arguments(after) && after.waiting_code() != 0 {
        lines.push(waiting(after));
    }
    lines
}

/// What changed of the error and of the new-cartridge mark.
fn error_changes(before: &Record, after: &Record) -> Vec<String> {
    let mut lines = Vec::new();
    let pair = |record: &Record| (record.error(), record.error_command());
    if pair(before) != pair(after) && after.error() != 0 {
        lines.push(format!("now held: {}", error(after)));
    }
    if before.error() != 0 && after.error() == 0 {
        lines.push("the error is cleared".into());
    }
    if before.new_mark() && !after.new_mark() && after.cartridge_in() {
        lines.push("the new-cartridge mark is cleared".into());
    }
    lines
}

/// What a train is for a drive in this state.
pub fn meaning(pulses: u16, before: &Record) -> String {
    let name = words::pulses::train_name(pulses).unwrap_or("no command of this drive");
    if pulses == train::SOFT_RESET || before.waiting_code() == 0 {
        return name.into();
    }
    let number = u16::from(before.arguments_held()) + 1;
    let code = before.waiting_code();
    format!(
        "argument {number} of {code}, value {}",
        i32::from(pulses) - 2
    )
}

fn cartridge(record: &Record) -> String {
    let Some(c) = record.cartridge() else {
        return "none".into();
    };
    let mut text = format!(
        "{} and {}, format {} ({}), type {} ({})",
        words::count(c.segments.into(), "segment"),
        words::count(c.tracks.into(), "track"),
        c.format,
        words::pulses::tape_format(c.format),
        c.kind,
        words::pulses::tape_type(c.kind)
    );
    for (holds, name) in [
        (c.burst, "reference burst"),
        (c.protected, "write protected"),
        (c.wide, "wide"),
    ] {
        if holds {
            text.push_str(", ");
            text.push_str(name);
        }
    }
    text
}

fn place(record: &Record) -> String {
    if !record.cartridge_in() {
        return "no cartridge".into();
    }
    let (place, segments) = (record.place(), record.segments());
    match record.motion() {
        Motion::Still => format!("still at {place} of {segments}"),
        Motion::Run => moving("moving", record),
        Motion::Load => moving("loading", record),
    }
}

fn moving(how: &str, record: &Record) -> String {
    format!(
        "{how} from {} to {} of {}, {} left",
        record.place(),
        record.target(),
        record.segments(),
        words::count(record.distance().into(), "tick")
    )
}

fn error(record: &Record) -> String {
    words::pulses::error(record.error(), record.error_command())
}

fn items(record: &Record) -> String {
    words::count(record.report_left().into(), "item")
}

fn waiting(record: &Record) -> String {
    let code = record.waiting_code();
    if code == 0 {
        return "none waited for".into();
    }
    let missing = words::pulses::arguments_needed(code).saturating_sub(record.arguments_held());
    format!(
        "{code}, {}, waits for {}",
        words::pulses::train_name(code.into()).unwrap_or("unknown"),
        words::count(missing.into(), "argument")
    )
}
