//! The commands panel and service: a series' last point, as a whole number and in full.

use rondo::{Refusal, SeriesHandle, ServiceFigure, View};
use serde_json::{Value, json};

use crate::cli::AtTier;
use crate::failure::{Done, Failure, refusal};
use crate::reading::{Form, json_value, not_there};
use crate::time::date;
use crate::writing::view;
use crate::{file, value};

pub fn panel(series: &AtTier, form: Form) -> Done<String> {
    let bytes = file::read(&series.file)?;
    let view = view(&series.file, &bytes)?;
    let figure = view.panel(handle(series), series.tier).map_err(|r| refused(view, series, r))?;
    Ok(match (form, figure) {
        (Form::Table, Some(whole)) => format!("{whole} ns\n"),
        (Form::Table, None) => no_point(view, series),
        (Form::Csv, Some(whole)) => format!("figure_ns\n{whole}\n"),
        (Form::Csv, None) => "figure_ns\n".to_string(),
        (Form::Json, figure) => json_of(figure.map(|whole| json!({ "figure_ns": whole }))),
    })
}

pub fn service(series: &AtTier, form: Form) -> Done<String> {
    let bytes = file::read(&series.file)?;
    let view = view(&series.file, &bytes)?;
    let figure = view.service(handle(series), series.tier).map_err(|r| refused(view, series, r))?;
    Ok(match (form, figure) {
        (Form::Table, Some(figure)) => lines_of(&figure),
        (Form::Table, None) => no_point(view, series),
        (Form::Csv, figure) => csv_of(figure.as_ref()),
        (Form::Json, figure) => json_of(figure.as_ref().map(full)),
    })
}

fn handle(series: &AtTier) -> SeriesHandle {
    SeriesHandle::new(series.schema, series.column)
}

/// Why there is no figure, and what to do.
fn refused(view: View, series: &AtTier, r: Refusal) -> Failure {
    let why = match r {
        Refusal::OffPanel => off_panel(view, series),
        other => not_there(view.image(), handle(series), other),
    };
    refusal(r, &why).after(series.file.display())
}

/// The value that no panel shows, and where to read it.
fn off_panel(view: View, series: &AtTier) -> String {
    let full = "`rondo service` gives it in full";
    match view.service(handle(series), series.tier) {
        Ok(Some(f)) => format!("the value is {}, and a panel shows -2^53 to 2^53 ns; {full}", value::text(f.value)),
        _ => format!("{}; {full}", Refusal::OffPanel),
    }
}

/// That there is none, and how one comes about where the finest tier has one.
fn no_point(view: View, series: &AtTier) -> String {
    let AtTier { schema, column, tier, .. } = series;
    let finest = view.service(handle(series), 0);
    let made = if matches!(finest, Ok(Some(_))) { "; `rondo consolidate` brings coarser tiers up to date" } else { "" };
    format!("no point: schema {schema}, column {column} has none in tier {tier}{made}\n")
}

fn lines_of(figure: &ServiceFigure) -> String {
    let line = |name: &str, stamp: u64| format!("{name:<12}{}  {stamp}ns\n", date(stamp));
    let point = line("last point", figure.stamp) + &format!("{:<12}{}\n", "value", value::text(figure.value));
    point + &line("oldest", figure.oldest) + &line("newest", figure.newest)
}

fn csv_of(figure: Option<&ServiceFigure>) -> String {
    let mut out = "stamp_ns,time,value,oldest_ns,newest_ns\n".to_string();
    if let Some(f) = figure {
        out += &format!("{},{},{},{},{}\n", f.stamp, date(f.stamp), value::text(f.value), f.oldest, f.newest);
    }
    out
}

fn full(figure: &ServiceFigure) -> Value {
    json!({
        "stamp_ns": figure.stamp,
        "time": date(figure.stamp),
        "value": json_value(figure.value),
        "oldest_ns": figure.oldest,
        "newest_ns": figure.newest,
    })
}

fn json_of(figure: Option<Value>) -> String {
    format!("{}\n", figure.unwrap_or(Value::Null))
}
