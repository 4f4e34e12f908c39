//! The sample answers, for all three services, where they are beside the repository.

use model::answer::{Answer, Full, Service, SERVICES};
use model::sample::samples;
use std::io::Write;

#[test]
fn sample_answers() {
    let Some(samples) = samples() else {
        // Past the test harness, which would keep it to itself.
        writeln!(std::io::stderr(), "left out: the sample answers, which are not beside the repository")
            .unwrap();
        return;
    };
    for sample in &samples {
        for (service, said) in SERVICES.into_iter().zip(&sample.said) {
            compare(service, &sample.image, said);
        }
    }
    assert!(samples.len() >= 400, "{} cases", samples.len());
}

fn compare(service: Service, image: &[u8], said: &Full) {
    let Full { answer, bytes } = said;
    let mut exact = vec![0xa5; bytes.len()];
    assert_eq!(service.answer(image, &mut exact), *answer);
    assert_eq!(exact, *bytes);

    let mut ample = vec![0xa5; bytes.len() + 9];
    assert_eq!(service.answer(image, &mut ample), *answer);
    assert_eq!(ample, [&bytes[..], &[0xa5; 9]].concat());

    if !bytes.is_empty() {
        let mut short = vec![0xa5; bytes.len() - 1];
        let needed = Answer { number: 11, ..*answer };
        assert_eq!(service.answer(image, &mut short), needed);
        assert!(short.iter().all(|byte| *byte == 0xa5));
    }
}
