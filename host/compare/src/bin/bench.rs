//! `bench [model]`: one run of each job, ours and the Rust's, as medians and ratios.

use compare::command::services;
use compare::jobs::{self, Job};
use compare::services::Services;
use model::answer::{Answer, Service};
use model::read::read;
use oracle::convert::plain;
use std::hint::black_box;
use std::process::ExitCode;
use std::time::{Duration, Instant};

/// Rounds of which the median is taken, and about how long a round of one side is.
const ROUNDS: usize = 41;
const ROUND: Duration = Duration::from_millis(2);

const NOTE: &str = "Medians of 41 rounds of about 2 ms, the sides in turn. Buffers were not cleared between calls; images, Programs and
buffers stay where they are. `type_check` has its Program built beforehand; `build` makes it from the image, by the model's
reader, and then checks it. A ratio below 1: ours is faster.";

/// Longer than anything that is written.
const ROOM: usize = 1 << 20;

fn main() -> ExitCode {
    let words: Vec<String> = std::env::args().skip(1).collect();
    let model = words.iter().any(|word| word == "model");
    if words.len() > usize::from(model) {
        eprintln!("bench [model]");
        return ExitCode::from(2);
    }
    let services = match services(model) {
        Ok(services) => services,
        Err(code) => return code,
    };
    let mut bench = Bench { offered: services.offered(), services: &*services, out: vec![0; ROOM] };
    bench.checks();
    bench.reading();
    bench.written("expand", Service::Expand, &jobs::expands());
    bench.written("order", Service::Order, &jobs::orders());
    println!("\n{NOTE}");
    ExitCode::SUCCESS
}

struct Bench<'a> {
    services: &'a dyn Services,
    offered: Vec<Service>,
    out: Vec<u8>,
}

impl Bench<'_> {
    fn checks(&mut self) {
        if !self.offered.contains(&Service::Check) {
            return;
        }
        let heads = ["image", "errors", "ours µs", "type_check", "ratio", "build", "ratio"];
        let [image, errors, ours, alone, ratio, build, other] = heads;
        println!(
            "{:40} {image:>7} {errors:>7} {ours:>9} {alone:>11} {ratio:>6} {build:>9} {other:>6}",
            "check"
        );
        for job in jobs::checks() {
            let image = job.image();
            let rust = plain(&job.program).expect("names are UTF-8");
            let answer = self.services.ask(Service::Check, &image, &mut self.out);
            let build =
                || read(&image).ok().and_then(|program| plain(&program)).expect("an image of a program");
            let [ours, alone, built] = medians([
                &mut *self.call(Service::Check, &image),
                &mut || drop(black_box(rust.type_check())),
                &mut || drop(black_box(build().type_check())),
            ]);
            println!(
                "{:40} {:7} {:7} {ours:9.1} {alone:11.1} {:6.2} {built:9.1} {:6.2}",
                job.what,
                image.len(),
                answer.first,
                ours / alone,
                ours / built
            );
        }
    }

    /// Reading alone has no export: check on an image that is refused at its last field reads all of it and stops there.
    fn reading(&mut self) {
        if !self.offered.contains(&Service::Check) {
            return;
        }
        let image = jobs::refused_at_the_end();
        let Answer { number, first, .. } = self.services.ask(Service::Check, &image, &mut self.out);
        let [ours, reader] =
            medians([&mut *self.call(Service::Check, &image), &mut || drop(black_box(read(&image)))]);
        let (length, each) = (image.len(), 1e3 * ours / image.len() as f64);
        println!("\nread only: {length} bytes, refused with {number} at {first}: {ours:.1} µs, {each:.2} ns a byte");
        println!("the model's reader on them: {reader:.1} µs");
    }

    /// What a service writes, by the byte.
    fn written(&mut self, name: &str, service: Service, jobs: &[Job]) {
        if !self.offered.contains(&service) {
            return;
        }
        println!(
            "\n{name:40} {:>7} {:>7} {:>7} {:>9} {:>10}",
            "image", "items", "bytes", "ours µs", "ns a byte"
        );
        for job in jobs {
            let image = job.image();
            let Answer { first, second, .. } = self.services.ask(service, &image, &mut self.out);
            let [ours] = medians([&mut *self.call(service, &image)]);
            let each = 1e3 * ours / second as f64;
            println!("{:40} {:7} {first:7} {second:7} {ours:9.1} {each:10.2}", job.what, image.len());
        }
    }

    /// The call that is measured.
    fn call<'b>(&'b mut self, service: Service, image: &'b [u8]) -> Box<dyn FnMut() + 'b> {
        Box::new(move || {
            black_box(self.services.ask(service, black_box(image), &mut self.out));
        })
    }
}

/// The median time of each call in microseconds. The sides take turns, so that a machine that slows down slows all of them.
fn medians<const N: usize>(mut calls: [&mut dyn FnMut(); N]) -> [f64; N] {
    let times: Vec<u32> =
        calls.iter_mut().map(|call| (ROUND.as_nanos() / once(*call, 1).as_nanos().max(1)) as u32).collect();
    let mut rounds: [Vec<f64>; N] = std::array::from_fn(|_| Vec::new());
    for _ in 0..ROUNDS {
        for (side, call) in calls.iter_mut().enumerate() {
            let times = times[side].max(1);
            rounds[side].push(once(*call, times).as_secs_f64() * 1e6 / f64::from(times));
        }
    }
    rounds.map(|mut round| {
        round.sort_by(f64::total_cmp);
        round[ROUNDS / 2]
    })
}

fn once(call: &mut dyn FnMut(), times: u32) -> Duration {
    let started = Instant::now();
    (0..times).for_each(|_| call());
    started.elapsed()
}
