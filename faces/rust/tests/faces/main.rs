//! The faces against an independent model. The long run: `cargo test --offline --release -- --ignored --nocapture fuzz`.
mod both;
mod functions;
mod fuzz;
mod lent;
mod model;
mod random;
mod sheets;
