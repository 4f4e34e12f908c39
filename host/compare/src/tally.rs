//! Many images compared with the model, what was met on the way, and each way of going astray with the smallest image that shows it.

use crate::room::{rooms, Astray, Lender, Room, What};
use crate::services::Services;
use crate::shrink::shrink;
use model::answer::{answers, Full, Service, SERVICES};
use model::text::hex;
use std::collections::BTreeMap;
use std::fmt;

/// Of each way of going astray so many images are made smaller, and later ones that are smaller to begin with.
const SHRUNK: u64 = 3;

/// The rooms that an image's calls are tried in; the number is the image's turn.
pub type Rooms = fn(&Full, usize) -> Vec<Room>;

pub struct Tally<'a> {
    pub services: &'a dyn Services,
    offered: Vec<Service>,
    pub lender: Lender,
    pub images: u64,
    /// How often each service had to answer each of 01's numbers, room being enough.
    pub numbers: [[u64; 12]; 3],
    pub findings: Findings,
}

/// The differences found, by what is wrong.
#[derive(Default)]
pub struct Findings(BTreeMap<String, Finding>);

/// What is wrong with an image, if something is: its name and its story.
pub type Still<'a> = &'a mut dyn FnMut(&[u8]) -> Option<(String, String)>;

struct Finding {
    times: u64,
    image: Vec<u8>,
    story: String,
}

impl Findings {
    pub fn count(&self) -> u64 {
        self.0.values().map(|finding| finding.times).sum()
    }

    /// What is wrong, each name once.
    pub fn names(&self) -> Vec<&str> {
        self.0.keys().map(String::as_str).collect()
    }

    /// Counts a difference of this name.
    pub fn add(&mut self, name: String, image: &[u8], still: Still) {
        let finding = self.0.entry(name.clone()).or_insert(Finding {
            times: 0,
            image: image.to_vec(),
            story: String::new(),
        });
        finding.times += 1;
        if finding.times > SHRUNK && image.len() >= finding.image.len() {
            return;
        }
        let smallest = shrink(image, &mut |image| still(image).is_some_and(|(other, _)| other == name));
        if finding.story.is_empty() || smallest.len() < finding.image.len() {
            finding.story = still(&smallest).map_or(String::new(), |(_, story)| story);
            finding.image = smallest;
        }
    }
}

impl<'a> Tally<'a> {
    pub fn new(services: &'a dyn Services) -> Tally<'a> {
        Tally {
            services,
            offered: services.offered(),
            lender: Lender::default(),
            images: 0,
            numbers: [[0; 12]; 3],
            findings: Findings::default(),
        }
    }

    pub fn offers(&self, service: Service) -> bool {
        self.offered.contains(&service)
    }

    /// An image, in the rooms of its turn.
    pub fn image(&mut self, image: &[u8]) {
        self.image_in(image, rooms);
    }

    pub fn image_in(&mut self, image: &[u8], rooms: Rooms) {
        let turn = self.images as usize;
        self.images += 1;
        let fulls = answers(image);
        for service in &self.offered {
            let number = fulls[*service as usize].answer.number;
            self.numbers[*service as usize][number as usize] += 1;
        }
        let Some(astray) = self.astray(image, &fulls, turn, rooms) else { return };
        let mut findings = std::mem::take(&mut self.findings);
        findings.add(name(&astray), image, &mut |image| {
            let astray = self.astray(image, &answers(image), turn, rooms)?;
            Some((name(&astray), astray.to_string()))
        });
        self.findings = findings;
    }

    /// The first call for this image that goes astray.
    fn astray(&mut self, image: &[u8], fulls: &[Full; 3], turn: usize, rooms: Rooms) -> Option<Astray> {
        for service in self.offered.iter() {
            let full = &fulls[*service as usize];
            for room in rooms(full, turn) {
                let held = self.lender.held(self.services, *service, image, full, room);
                if let Err(astray) = held {
                    return Some(astray);
                }
            }
        }
        None
    }
}

/// A name for what is wrong, the same for images that go astray alike.
fn name(astray: &Astray) -> String {
    let what = match &astray.what {
        What::Answer { expected, found } if expected.number != found.number => {
            format!("answers {} for {}", found.number, expected.number)
        }
        What::Answer { expected, .. } => format!("answers {} with other numbers", expected.number),
        What::AnswerBytes { .. } => "changes bytes beside its answer".to_string(),
        What::Out { .. } => "writes other bytes".to_string(),
    };
    format!("{:?} {what}", astray.service)
}

impl fmt::Display for Findings {
    fn fmt(&self, f: &mut fmt::Formatter) -> fmt::Result {
        for (name, finding) in &self.0 {
            writeln!(f, "difference, {} times: {name}", finding.times)?;
            writeln!(f, "  {}", finding.story)?;
            writeln!(f, "  {}", hex(&finding.image))?;
        }
        Ok(())
    }
}

impl fmt::Display for Tally<'_> {
    fn fmt(&self, f: &mut fmt::Formatter) -> fmt::Result {
        for service in SERVICES.iter().filter(|service| !self.offered.contains(service)) {
            writeln!(f, "left out: {service:?}, which the archive does not export")?;
        }
        for service in &self.offered {
            let met = self.numbers[*service as usize].iter().enumerate().filter(|(_, times)| **times > 0);
            let met: Vec<String> = met.map(|(number, times)| format!("{number} ({times})")).collect();
            writeln!(f, "{service:?} had to answer {}", met.join(", "))?;
        }
        write!(f, "{}", self.findings)?;
        write!(
            f,
            "{} images, {} calls, {} differences",
            self.images,
            self.lender.calls,
            self.findings.count()
        )
    }
}
