//! The figures that the library has to reach, declared before anything is measured, so that one that was not measured is found; and
//! how many answers were compared.

/// When a figure is held: always, where it does not depend on the machine, or where the caller asks for all.
#[derive(Clone, Copy, PartialEq, Eq)]
pub enum Held {
    Always,
    OnCheck,
}

struct Figure {
    what: String,
    limit: f64,
    held: Held,
    value: Option<f64>,
}

impl Figure {
    fn is_reached(&self) -> bool {
        self.value.is_some_and(|value| value <= self.limit)
    }

    fn note(&self) -> &'static str {
        match self.value {
            None => "NOT MEASURED",
            Some(value) if value <= self.limit => "reached",
            Some(_) => "FAILED",
        }
    }
}

#[derive(Default)]
pub struct Figures {
    figures: Vec<Figure>,
    /// How many games all solvers were compared on.
    pub compared: usize,
    /// What was wrong or could not be done, beside the figures.
    pub faults: Vec<String>,
}

impl Figures {
    /// A figure that is to be measured, and the largest value that is accepted.
    pub fn declare(&mut self, what: String, limit: f64, held: Held) {
        self.figures.push(Figure { what, limit, held, value: None });
    }

    /// The value of a declared figure.
    pub fn measured(&mut self, what: &str, value: f64) {
        let figure = self.figures.iter_mut().find(|figure| figure.what == what);
        figure.unwrap_or_else(|| panic!("the figure '{what}' is declared")).value = Some(value);
    }

    pub fn fault(&mut self, what: String) {
        println!("FAILED: {what}");
        self.faults.push(what);
    }

    /// The figures that are not reached or not measured, of those that are held always, or of all.
    pub fn missed(&self, is_check: bool) -> Vec<String> {
        let held = self.figures.iter().filter(|figure| is_check || figure.held == Held::Always);
        held.filter(|figure| !figure.is_reached()).map(|figure| format!("{} ({})", figure.what, figure.note())).collect()
    }

    pub fn print(&self) {
        println!("| figure | measured | at most | |");
        println!("|---|---|---|---|");
        for figure in &self.figures {
            let places = if figure.limit >= 1000.0 { 0 } else { 2 };
            let value = figure.value.map_or(String::new(), |value| format!("{value:.places$}"));
            println!("| {} | {value} | {} | {} |", figure.what, figure.limit, figure.note());
        }
    }
}
