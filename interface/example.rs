//! Maps document 01's job from Rust, prices and checks the mapping, and tries the other calls.

mod deqhulov;

const JOB: [u32; 14] = [
    0x10000010, 0x20010103, 0x30000001, 0x30000003, 0x30000008, 0x30000019, 0x40000001, 0x40000002, 0x50854960, 0x518A2960,
    0x5185C960, 0x54000001, 0x5C894407, 0x5C89440C,
];

fn main() {
    let mut mapping = [0; deqhulov::MAPPING_WORDS];
    let words = deqhulov::map(&JOB, &mut mapping).expect("the printed job is mapped");
    let text: Vec<String> = mapping[..words].iter().map(|word| format!("{word:08X}")).collect();
    println!("{}", text.join(" "));
    println!("glue {}", deqhulov::price(&JOB, &mapping[..words]).expect("the mapping is the job's"));
    assert_eq!(deqhulov::check(&JOB, &mapping[..words]), Ok(()));
    println!("accepted");

    // words lent that are too few are left as they were
    let mut lent = [7; 5];
    let refusal = deqhulov::map(&JOB, &mut lent).unwrap_err();
    assert_eq!((refusal.number, refusal.place, lent), (23, 6, [7; 5]));
    // a job of no words, and one of more than any job has
    assert_eq!(deqhulov::map(&[], &mut mapping).unwrap_err().number, 1);
    assert_eq!(deqhulov::map(&[0x10000010; 100_000], &mut mapping).unwrap_err().number, 1);
    // a mapping without words is the mapping's refusal, not the job's
    assert_eq!(deqhulov::price(&JOB, &[]).unwrap_err(), deqhulov::Refusal { number: 1, place: 0, values: [1, 0, 0, 0] });

    let refusal = deqhulov::judge(0x5C894407, 16, 0).unwrap_err();
    assert_eq!((refusal.number, refusal.place, refusal.values[0]), (deqhulov::WRONG_RECIPE, 25, deqhulov::O1));
    println!("5C894407 at width 16: {} at function {}, port {}", refusal.number, refusal.place, refusal.values[0]);

    // NAND as the main output of AND: right only of a negated AND. No mark is above 1
    assert!(deqhulov::judge(0x54A14100, 16, 0).is_err() && deqhulov::judge(0x54A14100, 16, 1).is_ok());
    assert_eq!(deqhulov::judge(0x54A14100, 16, 2).unwrap_err(), deqhulov::Refusal { number: 3, place: 2, values: [0; 4] });

    // ADD at width 8: 127 + 1 overflows
    let ports = deqhulov::evaluate(1, 8, 127, 1, 0).expect("in range");
    assert_eq!(ports, deqhulov::Ports { o0: 128, ocout: false, ovf: true, o1: false });
    println!("ADD of 127 and 1 at width 8: {}, overflow {}", ports.o0, ports.ovf);
    assert_eq!(deqhulov::evaluate(1, 8, 256, 1, 0).unwrap_err().place, 2);
}
