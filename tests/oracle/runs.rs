//! Whole runs: the source's records are filled from a plain net, and its private sampler is reached.
//! Each is held to document 01 at one case. The path is held to `paths`, by the library and at some
//! drawn nets; the program crates/path_replay is held to it at more.
use crate::draw::Draw;
use crate::ensembles;
use crate::nets;
use crate::paths;
use crate::report::{same, Report};
use crate::ssa::inside::filled;
use crate::ssa::sde::inside::normals;
use crate::ssa::{plog, realization, sample_grid, Xoshiro256};

pub fn compare(report: &mut Report, seed: u64, count: u64) {
    report.compare("realization of the example", |case| {
        let times = sample_grid(2.0, 3);
        let mut rng = Xoshiro256::new(1);
        let table = realization(&filled(&nets::example()), &times, &mut rng);
        let shown = vec![vec![2.0, 0.0, 0.0], vec![0.0, 0.0, 2.0]];
        case(table == shown, &|| format!("{table:?}, document 01 {shown:?}"));
    });
    report.compare("paths by the library, edges and drawn", |case| {
        let mut draw = Draw::new(1);
        let edges = paths::edges().into_iter().map(|c| (paths::play(&c), c));
        let mut unseen = 0;
        for (answer, c) in edges.chain((0..200).map(|_| paths::drawn(&mut draw)).map(|(c, a)| (a, c))) {
            let ours = paths::by_library(&c);
            case(ours == answer.line(&c), &|| format!("{ours}harness {}", answer.line(&c)));
            unseen += answer.peak_unseen(&c) as u64;
        }
        // among them are enough whose peak shows at no instant
        case(unseen > 80, &|| format!("{unseen} cases tell the peak from the sums at the instants"));
    });
    report.compare("peaks worked by pencil", |case| {
        for (c, peak) in paths::peaks() {
            let (answer, ours) = (paths::play(&c), paths::by_library(&c));
            case(answer.peak == peak, &|| format!("{}by pencil {peak}", answer.line(&c)));
            case(ours == answer.line(&c), &|| format!("{ours}harness {}", answer.line(&c)));
        }
    });
    report.compare("paths of heavy weights by the library", |case| {
        let mut draw = Draw::new(seed);
        let mut rounded = 0;
        for _ in 0..5 * count {
            let (c, answer) = paths::heavy(&mut draw);
            if let Some(agrees) = paths::source_agrees(&c, &answer) {
                case(agrees, &|| format!("{}the source differs from the rules as worked here", answer.line(&c)));
            }
            let ours = paths::by_library(&c);
            case(ours == answer.line(&c), &|| format!("{ours}harness {}", answer.line(&c)));
            rounded += (answer.rounded > 0 && answer.rounded < answer.steps) as u64;
        }
        // among them are enough of which some steps are rounded and some are not
        case(rounded * 50 > 5 * count, &|| format!("{rounded} of {} cases tell rounded steps from others", 5 * count));
    });
    report.compare("labels by the library", |case| {
        let mut draw = Draw::new(seed);
        for _ in 0..count {
            // other labels, the same figures
            let (mut c, answer) = paths::drawn(&mut draw);
            paths::relabel(&mut draw, &mut c.net);
            let ours = paths::by_library(&c);
            case(ours == answer.line(&c), &|| format!("{ours}with other labels {}", answer.line(&c)));
            // damaged ones
            paths::spoil_label(&mut draw, &mut c.net);
            let (ours, theirs) = (paths::by_library(&c), paths::play(&c).line(&c));
            case(ours == theirs, &|| format!("{ours}harness {theirs}"));
        }
    });
    report.compare("ensembles by the library", |case| {
        let (mut draw, mut labels) = (Draw::new(seed), Draw::new(seed));
        for k in 0..count {
            let mut c = ensembles::drawn(&mut draw);
            let answer = ensembles::play(&c);
            if let Some(agrees) = ensembles::source_agrees(&c, &answer) {
                case(agrees, &|| format!("case {k}: the source differs from the rules as worked here"));
            }
            case(ensembles::library_agrees(&c, &answer), &|| format!("case {k}: {:?}", answer.outcome));
            paths::relabel(&mut labels, &mut c.net);
            case(ensembles::library_agrees(&c, &answer), &|| format!("case {k} with other labels: {:?}", answer.outcome));
            paths::spoil_label(&mut labels, &mut c.net);
            if ensembles::fault(&c).is_some() {
                let answer = ensembles::play(&c);
                case(ensembles::library_agrees(&c, &answer), &|| format!("case {k} with damaged labels: {:?}", answer.outcome));
            }
        }
    });
    report.compare("normal draws of the source", |case| {
        for seed in 0..1000 {
            let mut rng = Xoshiro256::new(seed);
            let (a, b, square) = loop {
                let a = 2.0 * rng.uniform() - 1.0;
                let b = 2.0 * rng.uniform() - 1.0;
                let square = a * a + b * b;
                if 0.0 < square && square < 1.0 {
                    break (a, b, square);
                }
            };
            let scale = (-2.0 * plog(square) / square).sqrt();
            let drawn = normals(seed, 2);
            case(same(drawn[0], a * scale) && same(drawn[1], b * scale), &|| format!("seed {seed}: {drawn:?}"));
        }
    });
}
