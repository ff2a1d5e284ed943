//! Measures calls of the proved code against ordinary Rust, and compares their answers.

mod bounds;
mod exclusion;
mod largest;
mod near;
mod numbers;
mod polishing;
mod program;
mod reading;
mod reference;
mod refusing;
mod resuming;
mod root_estimate;
mod roots;
mod rows;
mod solving;
mod sorting;
mod teams;

fn main() {
    roots::measure();
    bounds::measure();
    exclusion::measure();
    reading::measure();
    sorting::measure();
    solving::measure();
    polishing::measure();
    near::measure();
    teams::measure();
    refusing::measure();
    resuming::measure();
}
