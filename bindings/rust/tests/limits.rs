//! The largest and deepest plans, in the stack that Rust gives a thread, and what a plan file may not be.

use mossladder::{Literal, MOST_BYTES, Refusal, Rewrite, STACK, Truth};

fn number(n: usize) -> [u8; 2] {
    u16::try_from(n).unwrap().to_be_bytes()
}

/// A record: its kind, codes and numbers.
fn record(file: &mut Vec<u8>, kind: u8, codes: &[u8], numbers: &[usize]) {
    file.push(kind);
    file.extend(codes);
    for n in numbers {
        file.extend(number(*n));
    }
}

fn in_the_promised_stack(test: impl FnOnce() + Send + 'static) {
    std::thread::Builder::new().stack_size(STACK).spawn(test).unwrap().join().unwrap();
}

/// A Boolean column x, e0 x, then Not of the last expression 1,023 times; a Scan, and 127 Selections on the last.
fn nots() -> Vec<u8> {
    let mut file = vec![0x01, 0, 0, 1, 0x20, 0, 0];
    for e in 0..1023 {
        record(&mut file, 0x21, &[0], &[e]);
    }
    record(&mut file, 0x30, &[], &[0, 1]);
    record(&mut file, 0x40, &[], &[0]);
    for input in 0..127 {
        record(&mut file, 0x33, &[], &[1023, input]);
    }
    file
}

#[test]
fn deep_expressions_and_operators() {
    in_the_promised_stack(|| {
        let file = nots();
        assert_eq!(mossladder::read(&file).unwrap(), file);
        assert_eq!(mossladder::evaluate(&file, 1023, &[Literal::Boolean(true)]), Ok(Truth::False));
        assert_eq!(mossladder::evaluate(&file, 1023, &[]), Ok(Truth::Unknown));
        let listing = mossladder::facts(&file).unwrap();
        assert_eq!(listing, "facts 127 0\ncolumn 0 b0\nresidual e1023\n");
        // a Not over an expression that has become another is appended, and the plan is full
        let simplified = mossladder::simplify(&file, 1).unwrap();
        assert_eq!(simplified.rewrite, Rewrite::Refused(Refusal { number: 3, place: 0 }));
        assert_eq!(simplified.plan, file);
    });
}

/// As many bytes as an accepted plan can be written in: every table full, of the longest records.
fn longest() -> Vec<u8> {
    let mut file = Vec::new();
    for name in 0..64 {
        record(&mut file, 0x01, &[], &[name]);
        file.push(3);
    }
    for n in 0..1024u64 {
        file.push(0x13);
        file.extend(n.to_be_bytes());
    }
    record(&mut file, 0x30, &[], &[0, 0]);
    record(&mut file, 0x36, &[], &[0, 2048]);
    for n in 0..2048 {
        record(&mut file, 0x42, &[], &[n % 64, n % 1024]);
    }
    for _ in 2..128 {
        record(&mut file, 0x3d, &[], &[0, 0, 0, 0]);
    }
    file
}

#[test]
fn the_longest_plan() {
    in_the_promised_stack(|| {
        let file = longest();
        assert_eq!(file.len(), MOST_BYTES);
        assert_eq!(mossladder::read(&file).unwrap(), file);
        assert!(mossladder::facts(&file).unwrap().starts_with("facts 127 0\n"));
        let more = [&file[..], &[0x11, 1]].concat();
        assert_eq!(mossladder::read(&more).unwrap_err(), Refusal { number: 3, place: file.len() as u64 });
    });
}

#[test]
fn every_file_of_one_byte_is_refused() {
    for byte in 0..=255 {
        let refusal = mossladder::read(&[byte]).unwrap_err();
        assert!(refusal.place == 0 && matches!(refusal.name(), "Short" | "Unknown"), "{byte:02x}: {refusal}");
    }
}

#[test]
fn slices_of_nothing() {
    assert_eq!(mossladder::read(&[]).unwrap(), []);
    assert_eq!(mossladder::derive(&[], 7).unwrap_err(), Refusal { number: 8, place: 7 });
    assert_eq!(mossladder::apply(&[], 0, &[]).unwrap_err().number, 8);
    let simplified = mossladder::simplify(&[], 0).unwrap();
    assert_eq!(simplified.rewrite, Rewrite::Refused(Refusal { number: 8, place: 0 }));
    assert_eq!(mossladder::evaluate(&[], 0, &[]).unwrap_err().number, 8);
}

#[test]
fn many_threads_at_once() {
    let file = nots();
    let whole = mossladder::facts(&file).unwrap();
    std::thread::scope(|scope| {
        for _ in 0..4 {
            scope.spawn(|| assert_eq!(mossladder::facts(&file).unwrap(), whole));
        }
    });
}
