//! The keys of an edited track, before and after.

use std::fmt::Write;

use dovebolt::{Curve, Keys};

use crate::drawing::words::exact;
use crate::edits::Edit;
use crate::html;

/// Rows at most; more keys are counted.
const MOST_ROWS: usize = 60;

/// A part of a key that its curve has.
struct Field<'a> {
    name: &'static str,
    before: &'a [f32],
    after: &'a [f32],
}

/// A Constant curve's keys have values alone, a Step curve's no slopes.
fn fields<'a>(edit: &Edit, before: &'a Keys, after: &'a Keys) -> Vec<Field<'a>> {
    let own = edit.track.keys();
    let field = |name, before: &'a Vec<f32>, after: &'a Vec<f32>| Field {
        name,
        before: &before[own.clone()],
        after: &after[own.clone()],
    };
    let frame = field("Frame", &before.frames, &after.frames);
    let value = field("Value", &before.values, &after.values);
    let slope = field("Slope", &before.slopes, &after.slopes);
    match edit.track.curve {
        Curve::Constant => vec![value],
        Curve::Step => vec![frame, value],
        Curve::Hermite => vec![frame, value, slope],
    }
}

/// One cell where both are the same, two where they differ.
fn cells(field: &Field, n: usize) -> String {
    let (before, after) = (field.before[n], field.after[n]);
    if before.to_bits() == after.to_bits() {
        return format!("<td colspan=\"2\" class=\"same\">{}</td>", exact(after));
    }
    format!(
        "<td><del>{}</del></td><td><ins>{}</ins></td>",
        exact(before),
        exact(after)
    )
}

fn row(edit: &Edit, fields: &[Field], n: usize) -> String {
    let edited = edit.keys.contains(&n);
    let mut out = String::from(if edited {
        "<tr class=\"edited\">"
    } else {
        "<tr>"
    });
    let tag = if edited {
        " <span class=\"tag\">edited</span>"
    } else {
        ""
    };
    let _ = write!(out, "<th scope=\"row\">{n}{tag}</th>");
    out.extend(fields.iter().map(|field| cells(field, n)));
    out + "</tr>\n"
}

/// The edited keys and those beside them.
fn near(edit: &Edit, count: usize) -> Vec<usize> {
    let beside = |n: &usize| (0..count).contains(n);
    let mut rows: Vec<usize> = edit
        .keys
        .iter()
        .flat_map(|n| [n.wrapping_sub(1), *n, n + 1])
        .filter(beside)
        .collect();
    rows.sort();
    rows.dedup();
    rows
}

fn gap(count: usize, columns: usize, words: &str) -> String {
    let keys = html::count(count, "key", "keys");
    format!("<tr><td colspan=\"{columns}\" class=\"gap\">{keys} {words}</td></tr>\n")
}

fn rows(edit: &Edit, fields: &[Field]) -> String {
    let (count, columns) = (fields[0].before.len(), 1 + 2 * fields.len());
    let near = near(edit, count);
    let mut out = String::new();
    let mut next = 0;
    for &n in near.iter().take(MOST_ROWS) {
        if n > next {
            out += &gap(n - next, columns, "the same in both");
        }
        out += &row(edit, fields, n);
        next = n + 1;
    }
    match count - next {
        0 => {}
        rest if near.len() > MOST_ROWS => out += &gap(rest, columns, "not shown"),
        rest => out += &gap(rest, columns, "the same in both"),
    }
    out
}

pub fn table(edit: &Edit, before: &Keys, after: &Keys) -> String {
    let fields = fields(edit, before, after);
    let number = edit.track.number;
    let mut heads = String::new();
    for field in &fields {
        let name = field.name;
        let _ = write!(heads, "<th scope=\"colgroup\" colspan=\"2\">{name}</th>");
    }
    let pairs = "<th scope=\"col\">before</th><th scope=\"col\">after</th>".repeat(fields.len());
    let table = format!(
        "<table class=\"keys\"><caption>Keys of track {number}, as they are stored</caption>\n\
         <thead><tr><th scope=\"col\" rowspan=\"2\">Key</th>{heads}</tr>\n<tr>{pairs}</tr></thead>\n\
         <tbody>\n{}</tbody></table>\n",
        rows(edit, &fields)
    );
    html::scrolled(&format!("Keys of track {number}"), &table)
}
