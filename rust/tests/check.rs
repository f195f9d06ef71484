//! The check of a text that comes in parts.
use leversorrel::{check, Check, Fault, Verdict};

const LEGAL: &[u8] = b"thp-journal 1\nnode 0 blocks 1\n0 alloc 0\n0 pin 0\nnode 1 blocks 2\n5 alloc 0\nend\n";
const ILLEGAL: &[u8] = b"thp-journal 1\nnode 0 blocks 1\n0 alloc 0\nnode 1 blocks 2\n5 pin 0\nend\n";
const FAULTY: &[u8] = b"thp-journal 1\nnode 0 blocks 1\n0 alloc\nend\n";

fn verdict_by_parts(text: &[u8], most: usize) -> Result<(Verdict, Result<String, Fault>), Fault> {
    let mut check = Check::new()?;
    for part in text.chunks(most) {
        check.read(part)?;
    }
    let verdict = check.finish()?;
    assert_eq!(check.finish()?, verdict);
    assert_eq!(check.read(b"0 pin 0\n"), Err(Fault::Finished));
    Ok((verdict, check.reason()))
}

#[test]
fn a_verdict_is_that_of_the_whole_text() -> Result<(), Fault> {
    for text in [LEGAL, ILLEGAL, FAULTY] {
        for most in 1..text.len() + 2 {
            assert_eq!(verdict_by_parts(text, most)?.0, check(text)?);
        }
    }
    Ok(())
}

#[test]
fn an_illegal_event_has_its_reason() -> Result<(), Fault> {
    let reason = "line 5: 5 pin 0\nexpected: nothing\nwhy: refused no-page: the page was never allocated, or was freed\n";
    assert_eq!(verdict_by_parts(ILLEGAL, 7)?, (Verdict::Illegal { line: 5 }, Ok(reason.to_string())));
    assert_eq!(verdict_by_parts(LEGAL, 7)?, (Verdict::Legal, Err(Fault::NoReason)));
    assert_eq!(verdict_by_parts(FAULTY, 7)?.1, Err(Fault::NoReason));
    assert_eq!(Check::new()?.reason(), Err(Fault::NoReason));
    Ok(())
}

#[test]
fn a_check_goes_to_another_thread_and_back() -> Result<(), Fault> {
    let mut check = Check::new()?;
    check.read(&ILLEGAL[..40])?;
    let mut check = std::thread::spawn(move || check.read(&ILLEGAL[40..]).map(|()| check)).join().expect("the thread ended")?;
    assert_eq!(check.finish()?, Verdict::Illegal { line: 5 });
    assert!(!format!("{check:?}").is_empty());
    Ok(())
}
