//! Values of types that have changed, sealed as each of their three versions and opened by one program.
use bitcode::sealed::{Label, OpenError, open_any, seal, seal_bytes};
use bitcode_changed_types::hurry::Hurry;
use bitcode_changed_types::job::{Job, JobOf1, JobOf2};
use bitcode_changed_types::opened::{EXPECTED, JOB, first_job_again, open_job, open_queue};
use bitcode_changed_types::queue::Queue;
use bitcode_changed_types::state::State;
use std::alloc::Global;
use std::collections::{BTreeMap, HashMap};

const FIRST_JOB: Label = Label {
    kind: 0x4A4F_4253,
    version: 1,
};

const SECOND: Label = Label {
    kind: 0x4A4F_4253,
    version: 2,
};

fn first(alloc: Global, number: u64) -> Result<JobOf1, OpenError> {
    Ok((number, String::from_str(alloc, "host")?, String::from_str(alloc, "name")?))
}

fn second(alloc: Global, number: u64) -> Result<JobOf2, OpenError> {
    Ok((number, String::from_str(alloc, "host")?, String::from_str(alloc, "name")?, 2))
}

fn job(alloc: Global, number: u64, tries: u8) -> Result<Job, OpenError> {
    Ok(Job {
        number,
        name: String::from_str(alloc, "name")?,
        tries,
        weight: 2,
        delay: None,
    })
}

#[test]
fn a_first_job_comes_back(rt: HostRuntime) -> Result<(), OpenError> {
    let alloc = rt.alloc();
    let again = first_job_again(alloc, &first(alloc, 7)?)?;
    assert!(rt; again == job(alloc, 7, 5)?);
    Ok(())
}

#[test]
fn a_struct_is_opened_of_each_version(rt: HostRuntime) -> Result<(), OpenError> {
    let alloc = rt.alloc();
    let bytes = seal(alloc, FIRST_JOB, &first(alloc, 7)?)?;
    let opened: Job = open_any(alloc, &EXPECTED, &bytes)?;
    assert!(rt; opened == job(alloc, 7, 5)?);
    let bytes = seal(alloc, SECOND, &second(alloc, 8)?)?;
    let opened: Job = open_any(alloc, &EXPECTED, &bytes)?;
    assert!(rt; opened == job(alloc, 8, 2)?);
    let newest = Job {
        number: 9,
        name: String::from_str(alloc, "name")?,
        tries: 1,
        weight: 4,
        delay: Some(30),
    };
    let bytes = seal(alloc, JOB, &newest)?;
    let opened: Job = open_any(alloc, &EXPECTED, &bytes)?;
    assert!(rt; opened == newest);
    assert!(rt; open_job(alloc, &bytes)? == newest);
    Ok(())
}

#[test]
fn a_version_that_is_not_read_is_refused(rt: HostRuntime) -> Result<(), OpenError> {
    let alloc = rt.alloc();
    for version in [0, 4] {
        let label = Label { kind: JOB.kind, version };
        let bytes = seal(alloc, label, &job(alloc, 7, 5)?)?;
        let refused: Result<Job, OpenError> = open_any(alloc, &EXPECTED, &bytes);
        assert!(rt; refused == Err(OpenError::AnotherVersion { found: version, expected: 3 }));
    }
    let other = Label { kind: 1, version: 1 };
    let bytes = seal(alloc, other, &first(alloc, 7)?)?;
    let refused: Result<Job, OpenError> = open_any(alloc, &EXPECTED, &bytes);
    assert!(rt; refused == Err(OpenError::AnotherKind { found: 1, expected: JOB.kind }));
    let mut bytes = seal(alloc, FIRST_JOB, &first(alloc, 7)?)?;
    let last = bytes.len() - 1;
    bytes[last] ^= 1;
    let refused: Result<Job, OpenError> = open_any(alloc, &EXPECTED, &bytes);
    assert!(rt; refused.is_err());
    Ok(())
}

#[test]
fn an_enum_is_opened_of_each_version(rt: HostRuntime) -> Result<(), OpenError> {
    let alloc = rt.alloc();
    let mut bytes = Vec::new(alloc);
    seal_bytes(FIRST_JOB, &[1, 4, 7], &mut bytes)?;
    let opened: State = open_any(alloc, &EXPECTED, &bytes)?;
    assert!(rt; opened == State::Running(7));
    let mut bytes = Vec::new(alloc);
    seal_bytes(SECOND, &[2, 9, 0], &mut bytes)?;
    let opened: State = open_any(alloc, &EXPECTED, &bytes)?;
    assert!(rt; opened == State::Failed { code: 9, is_final: true });
    let newest = State::Failed { code: 9, is_final: false };
    let bytes = seal(alloc, JOB, &newest)?;
    let opened: State = open_any(alloc, &EXPECTED, &bytes)?;
    assert!(rt; opened == newest);
    let mut bytes = Vec::new(alloc);
    seal_bytes(FIRST_JOB, &[1], &mut bytes)?;
    let opened: Hurry = open_any(alloc, &EXPECTED, &bytes)?;
    assert!(rt; opened == Hurry::High);
    let mut bytes = Vec::new(alloc);
    seal_bytes(FIRST_JOB, &[1, 1], &mut bytes)?;
    let opened: Option<Hurry> = open_any(alloc, &EXPECTED, &bytes)?;
    assert!(rt; opened == Some(Hurry::High));
    Ok(())
}

#[test]
fn a_map_is_opened_of_each_version(rt: HostRuntime) -> Result<(), OpenError> {
    let alloc = rt.alloc();
    let mut firsts: HashMap<u32, JobOf1> = HashMap::new(alloc);
    let mut seconds: HashMap<u32, JobOf2> = HashMap::new(alloc);
    for number in 0..40 {
        firsts.insert(number, first(alloc, number as u64)?)?;
        seconds.insert(number, second(alloc, number as u64)?)?;
    }
    let opened: HashMap<u32, Job> = open_any(alloc, &EXPECTED, &seal(alloc, FIRST_JOB, &firsts)?)?;
    let again: HashMap<u32, Job> = open_any(alloc, &EXPECTED, &seal(alloc, SECOND, &seconds)?)?;
    assert!(rt; opened.len() == 40 && again.len() == 40);
    for number in 0..40 {
        assert!(rt; opened.get(&number) == Some(&job(alloc, number as u64, 5)?));
        assert!(rt; again.get(&number) == Some(&job(alloc, number as u64, 2)?));
    }
    let newest: HashMap<u32, Job> = open_any(alloc, &EXPECTED, &seal(alloc, JOB, &again)?)?;
    assert!(rt; newest.len() == 40 && newest.get(&3) == again.get(&3));
    Ok(())
}

#[test]
fn a_list_is_opened_of_each_version(rt: HostRuntime) -> Result<(), OpenError> {
    let alloc = rt.alloc();
    let firsts = vec![in alloc; first(alloc, 1)?, first(alloc, 2)?]?;
    let opened: Vec<Job> = open_any(alloc, &EXPECTED, &seal(alloc, FIRST_JOB, &firsts)?)?;
    assert!(rt; opened.len() == 2 && opened[1] == job(alloc, 2, 5)?);
    let seconds = vec![in alloc; second(alloc, 1)?, second(alloc, 2)?]?;
    let again: Vec<Job> = open_any(alloc, &EXPECTED, &seal(alloc, SECOND, &seconds)?)?;
    assert!(rt; again.len() == 2 && again[1] == job(alloc, 2, 2)?);
    Ok(())
}

#[test]
fn a_struct_that_holds_them_is_opened_of_each_version(rt: HostRuntime) -> Result<(), OpenError> {
    let alloc = rt.alloc();
    // one state has the same bytes in all versions that have its variant
    let mut states: BTreeMap<u32, State> = BTreeMap::new(alloc);
    states.insert(3, State::Running(7))?;
    let bytes = seal(alloc, FIRST_JOB, &states)?;
    let queue = open_queue(alloc, &bytes)?;
    assert!(rt; queue.hurry == Hurry::High && queue.states.len() == 1);
    assert!(rt; queue.states.get(&3) == Some(&State::Running(7)));
    let bytes = seal(alloc, SECOND, &(states, Hurry::Low))?;
    let queue = open_queue(alloc, &bytes)?;
    assert!(rt; queue.hurry == Hurry::Low);
    assert!(rt; queue.states.get(&3) == Some(&State::Running(7)));
    let bytes = seal(alloc, JOB, &queue)?;
    let again: Queue = open_queue(alloc, &bytes)?;
    assert!(rt; again == queue);
    Ok(())
}
