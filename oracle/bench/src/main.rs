//! `bench [--spread]`: the proved code and the Rust side by side, in one process
//! on the same inputs. Prints the tables of docs/BENCHMARKS.md: microseconds a
//! call, the least and the median, and with `--spread` in brackets the tenth part
//! below and above. The last table has the aims; where one is missed, the status
//! is 1.

mod aims;
mod drags;
mod growth;
mod journal;
mod menus;
mod page;
mod players;
mod readings;
mod saving;
mod shapes;
mod tables;
mod timing;

use aims::Aim;
use menus::{Menu, NAMED};
use page::Page;
use std::process::ExitCode;

fn main() -> ExitCode {
    let arguments: Vec<String> = std::env::args().skip(1).collect();
    let spread = match arguments.iter().map(String::as_str).collect::<Vec<_>>()[..] {
        [] => false,
        ["--spread"] => true,
        _ => {
            eprintln!("bench [--spread]");
            return ExitCode::from(2);
        }
    };
    run(Page { spread })
}

fn run(page: Page) -> ExitCode {
    let [_, typical, full] =
        NAMED.map(|(name, size, parts)| tables::menu(page, name, &mut Menu::new(size, parts)));
    growth::animations(page);
    journal::table(page);
    let shapes = tables::shapes(page);
    growth::table(page);
    let aims = aims::all(&typical, &full, &shapes);
    print_aims(page, &aims);
    ExitCode::from(aims::status(&aims))
}

fn print_aims(page: Page, aims: &[Aim]) {
    page.head(
        "aims, judged by the median",
        &["what", "at most", "measured", "aim"],
    );
    aims.iter().for_each(|aim| page.row(&aim.cells()));
    println!();
    for words in aims.iter().filter_map(Aim::words) {
        println!("{words}");
    }
}
