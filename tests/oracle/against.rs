//! How long a step of a path takes by one library and by another, each loaded from files that hold it at several places of a page: where the
//! loops fall decides more than many a change to them. One program, the same nets, turn and turn about.
use crate::paths::{self, Case};
use crate::rattle::{path_by, Fields, PathFunction};
use std::ffi::{c_char, c_int, c_void, CString};
use std::hint::black_box;
use std::time::Instant;

const ROUNDS: usize = 50;

/// At least so many steps are timed at once.
const STEPS: u64 = 10_000;

extern "C" {
    fn dlopen(name: *const c_char, flags: c_int) -> *mut c_void;
    fn dlsym(library: *mut c_void, name: *const c_char) -> *mut c_void;
}

/// `cild_path` of the library in a file.
fn loaded(file: &str) -> PathFunction {
    const NOW: c_int = 2;
    let (file_name, function) = (CString::new(file).unwrap(), CString::new("cild_path").unwrap());
    unsafe {
        let library = dlopen(file_name.as_ptr(), NOW);
        assert!(!library.is_null(), "{file} cannot be loaded");
        let function = dlsym(library, function.as_ptr());
        assert!(!function.is_null(), "{file} has no cild_path");
        std::mem::transmute::<*mut c_void, PathFunction>(function)
    }
}

/// Paths one after another, each from the state that the one before it left, and how many steps they take: a short path that is played again and again is
/// learnt by the machine's branch predictor, and how soon is not what is asked.
fn played(function: PathFunction, fields: &Fields, case: &Case, state: &mut [u64; 4], table: &mut [f64]) -> u64 {
    let mut steps = 0;
    while steps < STEPS {
        steps += path_by(function, fields, state, &case.instants, case.limit, table)[1];
    }
    steps
}

/// The files of the other library, then as many of ours.
pub fn bench(folder: &str, files: &[&str]) {
    let functions: Vec<PathFunction> = files.iter().map(|file| loaded(file)).collect();
    let half = files.len() / 2;
    println!("{:34} {:>8} {:>8} {:>7}   each placement", "nanoseconds a step of a path", "other", "ours", "ratio");
    for (name, case) in paths::measured().into_iter().chain(paths::measured_files(folder)).chain(paths::measured_timers()).chain(paths::measured_beyond()) {
        let fields = Fields::of(&case.net);
        let mut best = vec![f64::INFINITY; files.len()];
        let (mut ends, mut steps) = (vec![case.state; files.len()], 0);
        for _ in 0..ROUNDS {
            for (k, function) in functions.iter().enumerate() {
                let (mut state, mut table) = (black_box(case.state), vec![0.0; 2048]);
                let began = Instant::now();
                steps = played(*function, &fields, &case, &mut state, &mut table);
                best[k] = best[k].min(began.elapsed().as_nanos() as f64);
                ends[k] = state;
                black_box(table);
            }
        }
        assert!(ends.iter().all(|end| *end == ends[0]), "{name}: the answers differ");
        let each: Vec<f64> = best.iter().map(|time| time / steps as f64).collect();
        let mean = |part: &[f64]| part.iter().sum::<f64>() / part.len() as f64;
        let (other, ours) = (mean(&each[..half]), mean(&each[half..]));
        let shown: Vec<String> = each.iter().map(|x| format!("{x:.1}")).collect();
        println!("{name:34} {other:8.2} {ours:8.2} {:7.3}   {} | {}", ours / other, shown[..half].join(" "), shown[half..].join(" "));
    }
}
