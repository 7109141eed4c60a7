//! Fitting files, the headroom check and the filter, through the archive.

use tamqoret::{Entry, Error, FileError, Filter, State, Verdict, fitting, fitting_list, headroom, run};

#[test]
fn taps_of_a_file() {
    assert_eq!(fitting("# left\n\n0.5\n-0x.8\n1e-1").as_deref(), Ok([16384, -16384, 3277].as_slice()));
    assert_eq!(fitting(""), Err(FileError::File(Error::WrongTaps)));
    assert_eq!(fitting("0\n".repeat(65)), Err(FileError::File(Error::TooManyValues)));
    assert_eq!(fitting("0\n".repeat(64)).map(|taps| taps.len()), Ok(64));
    assert_eq!(fitting(vec![b'\n'; 16385]), Err(FileError::File(Error::TooLong)));
}

#[test]
fn the_list_names_every_refused_line() {
    let (list, read) = fitting_list("0.5\n\n1\n# x\nx\n");
    assert_eq!(read, Err(FileError::Line { line: 3, error: Error::Overflow }));
    let wanted = [(1, Ok(16384)), (3, Err(Error::Overflow)), (5, Err(Error::InvalidDigit))];
    assert!(list.entries().eq(wanted.map(|(line, raw)| Entry { line, raw })));
    let error = read.unwrap_err();
    assert_eq!((error.number(), error.to_string()), (42, "line 3: overflow".to_string()));
    assert_eq!(fitting_list("0\n".repeat(65)).0.entries().count(), 0);
}

#[test]
fn verdicts() {
    assert_eq!(headroom(&[32767]), Ok(Verdict::Never));
    let Ok(Verdict::High(samples)) = headroom(&[-32768]) else { panic!("verdict 1") };
    assert_eq!(*samples, [-32768]);
    assert_eq!(headroom(&[32767, 1]), Ok(Verdict::Never));
    let Ok(Verdict::High(samples)) = headroom(&[32767, 2]) else { panic!("verdict 1") };
    assert_eq!(*samples, [32767, 32767]);
    let Ok(Verdict::High(samples)) = headroom(&[16384, -16384]) else { panic!("verdict 1") };
    assert_eq!(*samples, [32767, -32768]);
    assert_eq!(headroom(&[16385, -16383]), Ok(Verdict::Never));
    assert_eq!((headroom(&[]), headroom(&[0; 65])), (Err(Error::WrongTaps), Err(Error::WrongTaps)));
}

#[test]
fn half_steps_go_to_the_even_output() {
    let mut filter = Filter::new(&[16384]).unwrap(); // half a step for each step of the sample
    let (mut outputs, mut clips) = ([0; 6], [0; 6]);
    assert_eq!(filter.run(&[1, 3, 5, -1, -3, -5], &mut outputs, &mut clips), Ok(0));
    assert_eq!(outputs, [0, 2, 2, 0, -2, -2]);
}

#[test]
fn the_witness_clips() {
    let taps = [20000, -20000, 0, 5];
    let Ok(Verdict::High(samples)) = headroom(&taps) else { panic!("verdict 1") };
    let mut filter = Filter::new(&taps).unwrap();
    let oldest_first: Vec<i16> = samples.iter().rev().copied().collect();
    let (mut outputs, mut clips) = ([0; 4], [9; 4]);
    assert_eq!(filter.run(&oldest_first, &mut outputs, &mut clips), Ok(1));
    assert_eq!((outputs[3], clips), (32767, [0, 0, 0, 1]));
    assert_eq!(filter.state().samples[..4], *samples);
    filter.reset();
    assert_eq!((filter.state(), filter.taps()), (&State::default(), taps.as_slice()));
}

#[test]
fn refused_blocks_change_nothing() {
    let (mut state, mut outputs, mut clips) = (State { samples: [3; 64] }, [7; 2], [9; 3]);
    assert_eq!(run(&[1], &mut state, &[1, 2, 3], &mut outputs, &mut clips), Err(Error::WrongLength));
    assert_eq!(run(&[], &mut state, &[1, 2], &mut outputs, &mut clips[..2]), Err(Error::WrongTaps));
    assert_eq!((state.samples, outputs, clips), ([3; 64], [7; 2], [9; 3]));
    assert_eq!(Filter::new(&[]).err(), Some(Error::WrongTaps));
    assert_eq!(Filter::new(&[0; 65]).err(), Some(Error::WrongTaps));
}
