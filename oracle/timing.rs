//! Times in one run: every contestant works through the same arguments in turn, again and again, and the best pass of each counts.
#![allow(dead_code)]

use std::hint::black_box;
use std::time::Instant;

type Pass<'a, A> = Box<dyn Fn(&[A]) + 'a>;

pub struct Contest<'a, A> {
    arguments: &'a [A],
    contestants: Vec<(&'static str, usize, Pass<'a, A>)>,
}

impl<'a, A: Copy> Contest<'a, A> {
    pub fn new(arguments: &'a [A]) -> Self {
        Contest { arguments, contestants: Vec::new() }
    }

    /// Its name, how many passes it makes, and its call.
    pub fn enter<R>(&mut self, name: &'static str, passes: usize, call: impl Fn(A) -> R + 'a) {
        let pass = move |arguments: &[A]| {
            for &a in arguments {
                black_box(call(black_box(a)));
            }
        };
        self.contestants.push((name, passes, Box::new(pass)));
    }

    /// Nanoseconds a call, the best pass of each.
    pub fn times(&self) -> Vec<f64> {
        let mut best = vec![f64::INFINITY; self.contestants.len()];
        let rounds = self.contestants.iter().map(|c| c.1).max().unwrap_or(0);
        for round in 0..rounds {
            for (i, (_, passes, pass)) in self.contestants.iter().enumerate() {
                if round < *passes {
                    let start = Instant::now();
                    pass(self.arguments);
                    best[i] = best[i].min(start.elapsed().as_nanos() as f64 / self.arguments.len() as f64);
                }
            }
        }
        best
    }

    /// Each time, and its ratio to the first one entered.
    pub fn show(&self, title: &str) {
        println!("{title}");
        let times = self.times();
        for ((name, _, _), time) in self.contestants.iter().zip(&times) {
            println!("  {name:44} {time:8.1} ns   {:5.2}", time / times[0]);
        }
    }
}
