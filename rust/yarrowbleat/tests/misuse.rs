//! Misuse of the safe crate ends in an error with the scope's number and detail, and of its raw layer in a refusal;
//! and a few clouds that are accepted.

use yarrowbleat::*;

const TRIANGLE: [[f32; 3]; 3] = [[0.0, 0.0, 0.0], [1.0, 0.0, 0.0], [0.0, 1.0, 0.0]];

fn told<T: std::fmt::Debug>(result: Result<T, Error>) -> (u32, usize) {
    let error = result.expect_err("a refusal");
    // A spot and a short index share their numbers with a point and with short work.
    if !matches!(error, Error::Spot(_) | Error::ShortIndex) {
        assert_eq!(Error::check(error.number(), error.detail()), Err(error));
    }
    assert!(!error.to_string().is_empty());
    (error.number(), error.detail())
}

fn with(change: impl Fn(&mut BallPivotingConfig)) -> Result<Patch, Error> {
    let mut config = BallPivotingConfig { radius: 1.0, ..Default::default() };
    change(&mut config);
    reconstruct_with_normals(&TRIANGLE, &TRIANGLE, &config)
}

fn covered(patch: &Patch) -> (usize, usize) {
    (patch.coverage().covered, patch.coverage().scanned)
}

/// A number that the crate has no name for is an error like the others.
#[test]
fn unknown_answers() {
    for answer in [1000, u32::MAX] {
        assert_eq!(told(Error::check(answer, 7)), (answer, 7));
    }
    assert!(Error::check(1000, 7).unwrap_err().to_string().ends_with("no words for: 1000, 7"));
    assert_eq!(Error::check(0, 7), Ok(()));
}

/// Marks over slices of any length: each number below it counts once, a number beyond it not at all.
#[test]
fn marks() {
    let mark = |faces: &[u32], entries: usize| {
        let mut reached = vec![7; entries];
        (sys::mark_reached(faces, &mut reached), reached)
    };
    assert_eq!(mark(&[], 0), (0, vec![]));
    assert_eq!(mark(&[], 2), (0, vec![0, 0]));
    assert_eq!(mark(&[0, 2, 2, 4, u32::MAX], 4), (2, vec![1, 0, 1, 0]));
    assert_eq!(mark(&[0, 1, 2], 0), (0, vec![]));
}

#[test]
fn lengths() {
    let lay = |p: &[[f32; 3]], n: &[[f32; 3]]| told(ball_pivoting_from_normals(p, n, 1.0));
    assert_eq!(lay(&[], &[]), (1, 0));
    assert_eq!(lay(&[], &TRIANGLE), (1, 0));
    assert_eq!(lay(&TRIANGLE, &[]), (2, 0));
    assert_eq!(lay(&TRIANGLE, &TRIANGLE[..2]), (2, 0));
    let many = vec![[0.0; 3]; MAX_POINTS + 1];
    assert_eq!(lay(&many, &many), (3, 0));
    assert_eq!(lay(&TRIANGLE[..2], &TRIANGLE[..2]), (8, 0));
    assert_eq!(told(estimate_optimal_radius(&[], 0.5)), (1, 0));
    assert_eq!(told(estimate_optimal_radius(&many, 0.5)), (3, 0));
}

#[test]
fn numbers() {
    for bad in [f32::NAN, f32::INFINITY, f32::NEG_INFINITY] {
        let mut wrong = TRIANGLE;
        wrong[1][2] = bad;
        assert_eq!(told(ball_pivoting_from_normals(&wrong, &TRIANGLE, 1.0)), (4, 1));
        assert_eq!(told(ball_pivoting_from_normals(&TRIANGLE, &wrong, 1.0)), (4, 1));
        assert_eq!(told(estimate_optimal_radius(&wrong, 0.5)), (4, 1));
        assert_eq!(told(estimate_optimal_radius(&TRIANGLE, bad)), (6, 0));
        assert_eq!(told(ball_pivoting_from_normals(&TRIANGLE, &TRIANGLE, bad)), (5, 1));
    }
}

#[test]
fn settings() {
    for length in [9, 10, 1000] {
        assert_eq!(told(with(|c| c.additional_radii = vec![1.0; length])), (5, 2));
        assert_eq!(told(with(|c| c.adaptive_percentiles = vec![0.5; length])), (5, 3));
    }
    assert!(with(|c| (c.additional_radii, c.adaptive_percentiles) = (vec![1.0; 8], vec![0.5; 8])).is_ok());
    assert!(with(|c| (c.additional_radii, c.adaptive_percentiles) = (vec![], vec![])).is_ok());
    assert_eq!(told(with(|c| c.additional_radii[2] = f32::NAN)), (5, 2));
    assert_eq!(told(with(|c| c.adaptive_percentiles[3] = 1.1)), (5, 3));
    assert_eq!(told(with(|c| c.quality_threshold = -1.0)), (5, 4));
    assert_eq!(told(with(|c| c.max_edge_factor = f32::NAN)), (5, 5));
    assert_eq!(told(with(|c| c.min_triangle_area = f32::INFINITY)), (5, 6));
    assert_eq!(told(with(|c| c.spatial_cell_factor = 0.4)), (5, 7));
    let text = with(|c| c.spatial_cell_factor = 0.4).unwrap_err().to_string();
    assert_eq!(text, "a setting is outside its bounds: spatial_cell_factor is to be 0.5 to 16");
}

/// Rule 0, which an old program's settings would have, is none, and is told after all other settings.
#[test]
fn rules() {
    assert_eq!([FrontierRule::Heap, FrontierRule::Queue].map(FrontierRule::number), [1, 2]);
    assert_eq!(BallPivotingConfig::default().frontier_rule, FrontierRule::Heap);
    assert!(with(|c| c.frontier_rule = FrontierRule::Queue).is_ok());
    let raw = |rule: u32, factor: f32| {
        let settings =
            sys::BallPivotingConfig { frontier_rule: rule, spatial_cell_factor: factor, ..sys::default_config(1.0) };
        let (mut faces, mut words, mut floats) = ([0; 3], [0; 136], [0.0; 76]);
        let flat = TRIANGLE.as_flattened();
        let r = sys::reconstruct_with_normals(flat, flat, settings, &mut faces, &mut words, &mut floats);
        (r.answer, r.detail)
    };
    assert_eq!([0, 1, 2, 3, u32::MAX].map(|rule| raw(rule, 2.0)), [(5, 8), (0, 0), (0, 0), (5, 8), (5, 8)]);
    assert_eq!(raw(0, 17.0), (5, 7));
    assert_eq!(Error::Setting(8).to_string(), "a setting is outside its bounds: frontier_rule is to be 1 or 2");
}

/// The fewest points on which the two orders differ.
#[test]
fn orders_of_popping() {
    let points = [[0.0, 0.0, 1.0], [1.0, 0.0, 0.0], [3.0, 0.0, 1.0], [0.0, 1.0, 1.0], [1.0, 1.0, 0.0]];
    let last = |frontier_rule| {
        let lists = (vec![], vec![]);
        let config = BallPivotingConfig {
            additional_radii: lists.0,
            adaptive_percentiles: lists.1,
            frontier_rule,
            ..BallPivotingConfig::new(2.0)
        };
        *reconstruct_with_normals(&points, &points, &config).unwrap().faces.last().unwrap()
    };
    assert_eq!([last(FrontierRule::Heap), last(FrontierRule::Queue)], [[3, 0, 4], [1, 3, 4]]);
}

/// Where each face came from, and the patch that faces one way.
#[test]
fn origins() {
    let points = [[0.0, 0.0, 1.0], [1.0, 0.0, 0.0], [3.0, 0.0, 1.0], [0.0, 1.0, 1.0], [1.0, 1.0, 0.0]];
    let config = BallPivotingConfig { additional_radii: vec![0.01], ..BallPivotingConfig::new(2.0) };
    let config = BallPivotingConfig { adaptive_percentiles: vec![], ..config };
    let traced = |turned| reconstruct_with_origins(&points, &points, &config, turned).unwrap();
    let (laid, turned) = (traced(false), traced(true));
    assert_eq!(laid.patch, reconstruct_with_normals(&points, &points, &config).unwrap());
    assert_eq!(laid.patch.faces, [[0, 1, 2], [0, 1, 3], [3, 0, 4]]);
    assert_eq!(turned.patch.faces, [[0, 1, 2], [1, 0, 3], [3, 0, 4]]);
    assert_eq!(laid.origins, turned.origins);
    // The first radius lays nothing, and counts.
    assert_eq!(laid.patch.radii, [0.01, 2.0]);
    let pairs: Vec<[u32; 2]> = laid.origins.iter().map(|origin| [origin.parent, origin.place]).collect();
    assert_eq!(pairs, [[0, 1], [0, 1], [1, 1]]);
    let plain = BallPivotingConfig { adaptive_radius: false, ..config };
    let traced = reconstruct_with_origins(&points, &points, &plain, false).unwrap();
    assert!((0..).zip(&traced.origins).all(|(face, origin)| (origin.parent, origin.place) == (face, 0)));
    assert_eq!(told(reconstruct_with_origins(&points, &points, &plain, true)), (18, 0));
    assert_eq!(told(reconstruct_with_origins(&points, &points[1..], &plain, true)), (2, 0));
}

#[test]
fn files() {
    assert_eq!(told(read_cloud(b"")), (10, 1));
    assert_eq!(told(read_cloud(b"1\n0,0,0,0,0,1\nnan,0,0,0,0,1\n")), (10, 3));
    let cloud = read_cloud(b"0.5\n1,2,3,4,5,6\n").unwrap();
    assert_eq!((cloud.radius, cloud.points, cloud.normals), (0.5, vec![[1.0, 2.0, 3.0]], vec![[4.0, 5.0, 6.0]]));
    assert_eq!(read_cloud(b"2\n").unwrap().points.len(), 0);
}

/// The raw layer over slices that are too short, empty ones among them.
#[test]
fn lent_slices() {
    let config = sys::BallPivotingConfig::from(&BallPivotingConfig { radius: 1.0, ..Default::default() });
    let lay = |faces: usize, words: usize, floats: usize| {
        let (mut faces, mut words, mut floats) = (vec![7; faces], vec![7; words], vec![7.0; floats]);
        let flat = TRIANGLE.as_flattened();
        let r = sys::reconstruct_with_normals(flat, flat, config, &mut faces, &mut words, &mut floats);
        (r.answer, r.detail, faces)
    };
    assert_eq!(lay(0, 0, 0), (7, 0, vec![]));
    assert_eq!(lay(2, 136, 75), (7, 0, vec![7; 2]));
    for faces in 0..3 {
        assert_eq!(lay(faces, 136, 76), (9, 0, vec![0; faces]));
    }
    assert_eq!(lay(4, 136, 76), (0, 0, vec![0, 1, 2, 7]));
}

/// The scope's cases of the estimate, and the cloud of three points.
#[test]
fn accepted() {
    assert_eq!(estimate_optimal_radius(&TRIANGLE[..1], 0.5), Ok(0.1));
    assert_eq!(estimate_optimal_radius(&TRIANGLE[..2], 0.5), Ok(2.5));
    let patch = ball_pivoting_from_normals(&TRIANGLE, &TRIANGLE, 1.0).unwrap();
    assert_eq!((patch.faces.as_slice(), patch.seeds, patch.looks, patch.pivots), (&[[0, 1, 2]][..], 1, 3, 3));
    assert_eq!((covered(&patch), patch.unreached()), ((3, 3), vec![]));
}

/// The plain path stops at 10,000 faces, which the face slice holds; it touches the first points only.
#[test]
fn most_faces() {
    let points: Vec<[f32; 3]> = (0..100).map(|i| [(i % 10) as f32, (i / 10) as f32, (i * i % 7) as f32]).collect();
    let config = BallPivotingConfig { radius: 100.0, adaptive_radius: false, ..Default::default() };
    let patch = reconstruct_with_normals(&points, &points, &config).unwrap();
    assert_eq!((patch.faces.len(), patch.radii.len(), patch.seeds), (10_000, 0, 0));
    let last = *patch.faces.iter().flatten().max().unwrap() as usize;
    assert_eq!(covered(&patch), (last + 1, 100));
    assert_eq!(patch.unreached(), (last as u32 + 1..100).collect::<Vec<_>>());
}

/// Faces of another program: orders and every refusal.
#[test]
fn orders() {
    let order = |text: &str, points| order_patch(text.as_bytes(), points);
    let found = order("0,1,2\n2,3,4\n00002,1,3\n", 5).unwrap();
    assert_eq!((found.order, found.seeds), (vec![0, 2, 1], 1));
    let none = order("", 0).unwrap();
    assert_eq!((none.order, none.seeds), (vec![], 0));
    assert_eq!(told(order("0,1,2\n0,1\n", 9_999)), (10, 2));
    assert_eq!(told(order("0,1,2\n", 4_097)), (3, 0));
    assert_eq!(told(order("0,0,1\n0,1,9\n", 3)), (14, 0));
    assert_eq!(told(order("0,1,2\n0,1,0\n", 3)), (17, 0));
    assert_eq!(told(order("0,1,2\n1,2,0\n", 4)), (23, 0));
    let mut slices = (vec![7; 1], vec![7; 136], vec![7.0; 75]);
    let short = sys::order_patch(b"", 3, &mut slices.0, &mut slices.1, &mut slices.2);
    assert_eq!((short.answer, slices.1[0], slices.2[0]), (7, 7, 7.0));
    slices.2.push(7.0);
    let two = sys::order_patch(b"0,1,2\n1,0,2\n", 3, &mut slices.0, &mut slices.1, &mut slices.2);
    assert_eq!((two.answer, slices.0[0], slices.1[0], slices.2[0]), (13, 7, 0, 0.0));
}
