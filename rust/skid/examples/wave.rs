//! Document 02's waveform (L11), through the crate `skid`: the example to the byte and back, and each refusal.
use skid::wave::{self, NotRead, NotWritten, Read};
use skid::{Lease, Step};

const EXAMPLE: &str =
    "$timescale 1 ns $end\n$scope module t $end\n$var wire 1 ! c0 $end\n$var wire 1 \" c1 $end\n\
$upscope $end\n$enddefinitions $end\n#0\n0!\n0\"\n#1\n1!\n";

const OTHER: Step = Step::END;

fn main() {
    let history = [Step::take(0)];
    let size = EXAMPLE.len();

    // the example, and the bytes behind it
    let mut text = [7u8; 138];
    assert_eq!(wave::write(2, &history, &mut text), Ok(size));
    assert_eq!(&text[..size], EXAMPLE.as_bytes());
    assert_eq!(&text[size..], [7, 7]);

    // back, and the steps behind it
    let mut steps = [OTHER; 2];
    assert_eq!(
        wave::read(&text[..size], &mut steps),
        Ok(Read { cells: 2, steps: 1 })
    );
    assert_eq!(steps, [Step::take(0), OTHER]);

    // refusals, in order, and nothing written
    let mut short = [7u8; 135];
    let long = vec![Step::OBSERVE; 32_769];
    assert_eq!(
        wave::write(0, &long, &mut short),
        Err(NotWritten::BadScript)
    );
    assert_eq!(
        wave::write(0, &history, &mut short),
        Err(NotWritten::TooWide)
    );
    assert_eq!(
        wave::write(95, &history, &mut short),
        Err(NotWritten::TooWide)
    );
    assert_eq!(
        wave::write(2, &history, &mut short),
        Err(NotWritten::NoRoom)
    );
    assert_eq!(short, [7; 135]);
    assert_eq!(
        wave::read(&text[..size - 1], &mut []),
        Err(NotRead::BadLine(11))
    );
    assert_eq!(wave::read(&text[..size], &mut []), Err(NotRead::NoRoom));
    assert_eq!(wave::read(&[], &mut steps), Err(NotRead::BadLine(1)));
    assert_eq!(steps, [Step::take(0), OTHER]);

    // the longest dump, and back
    let mut all = Vec::new();
    for _ in 0..174 {
        all.extend((0..94).map(Step::take));
        all.extend((0..94).map(|cell| {
            Step::release(Lease {
                cell,
                serial: 0,
                boot: 0,
            })
        }));
    }
    all.extend((0..56).map(Step::take));
    assert_eq!(all.len(), 32_768);
    let mut text = vec![0; wave::LONGEST];
    let size = wave::write(94, &all, &mut text).unwrap();
    assert_eq!(size, wave::LONGEST);
    let mut back = vec![OTHER; all.len()];
    assert_eq!(
        wave::read(&text, &mut back),
        Ok(Read {
            cells: 94,
            steps: 32_768
        })
    );
    assert_eq!(back, all);
    println!("waveform in Rust: passed");
}
