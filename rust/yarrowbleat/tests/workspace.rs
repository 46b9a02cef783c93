//! A work space gives what the calls without one give, and from the second patch on allocates nothing; files take room
//! that their own length bounds.

use std::alloc::{GlobalAlloc, Layout, System};
use std::cell::Cell;
use yarrowbleat::tally::{SeasonPatch, Tally};
use yarrowbleat::{BallPivotingConfig, Error, Patch, TracedPatch, Workspace};

thread_local! {
    static COUNT: Cell<usize> = const { Cell::new(0) };
    static BYTES: Cell<usize> = const { Cell::new(0) };
}

/// The system's memory, with a count of what a thread asks for.
struct Counting;

// SAFETY: every call is the system's own.
unsafe impl GlobalAlloc for Counting {
    unsafe fn alloc(&self, layout: Layout) -> *mut u8 {
        COUNT.with(|count| count.set(count.get() + 1));
        BYTES.with(|bytes| bytes.set(bytes.get() + layout.size()));
        unsafe { System.alloc(layout) }
    }

    unsafe fn dealloc(&self, place: *mut u8, layout: Layout) {
        unsafe { System.dealloc(place, layout) }
    }
}

#[global_allocator]
static MEMORY: Counting = Counting;

/// A wall of so many points in rows of eight, a little uneven.
fn wall(points: usize) -> Vec<[f32; 3]> {
    let at = |i: usize| [(i % 8) as f32, (i / 8) as f32, ((i * 7 % 5) as f32) / 10.0];
    (0..points).map(at).collect()
}

#[test]
fn the_same_as_without() {
    let mut room = Workspace::new();
    let (mut patch, mut traced) = (Patch::default(), TracedPatch::default());
    for points in [3, 64, 40, 300, 2, 0, 17] {
        let (cloud, config) = (wall(points), BallPivotingConfig::new(1.5));
        let alone = yarrowbleat::reconstruct_with_normals(&cloud, &cloud, &config);
        let told = room.reconstruct_with_normals(&cloud, &cloud, &config, &mut patch);
        assert_eq!(told.map(|()| patch.clone()), alone);
        let alone = yarrowbleat::reconstruct_with_origins(&cloud, &cloud, &config, true);
        let told = room.reconstruct_with_origins(&cloud, &cloud, &config, true, &mut traced);
        assert_eq!(told.map(|()| traced.clone()), alone);
        assert_eq!(room.coverage(&patch), patch.coverage());
        let alone = yarrowbleat::estimate_optimal_radius(&cloud, 0.5);
        assert_eq!(room.estimate_optimal_radius(&cloud, 0.5), alone);
    }
    assert_eq!(
        room.reconstruct_with_normals(&[], &[], &BallPivotingConfig::new(1.0), &mut patch),
        Err(Error::NoPoints)
    );
    assert_eq!(patch, Patch::default());
}

#[test]
fn a_file_bounds_its_room() {
    let file = vec![b'\n'; 1 << 20];
    let before = BYTES.with(Cell::get);
    assert_eq!(yarrowbleat::read_cloud(&file), Err(Error::Line(1)));
    assert!(BYTES.with(Cell::get) - before <= 2 * file.len());
    let before = BYTES.with(Cell::get);
    assert_eq!(yarrowbleat::order_patch(&file, 0), Err(Error::Line(1)));
    assert!(BYTES.with(Cell::get) - before <= file.len());
}

#[test]
fn a_season_allocates_nothing() {
    let clouds = [wall(64), wall(300), wall(24)];
    let config = BallPivotingConfig::new(1.5);
    let (mut room, mut patch, mut traced) = (Workspace::new(), Patch::default(), TracedPatch::default());
    let mut tally = Tally::new();
    let mut season = |room: &mut Workspace| {
        for (number, cloud) in (0..).zip(&clouds) {
            room.estimate_optimal_radius(cloud, 0.5).unwrap();
            room.reconstruct_with_origins(cloud, cloud, &config, true, &mut traced).unwrap();
            room.reconstruct_with_normals(cloud, cloud, &config, &mut patch).unwrap();
            let reached = room.coverage(&patch);
            let (scanned, covered) = (reached.scanned as u32, reached.covered as u32);
            tally.add(SeasonPatch { number, scanned, covered, faces: patch.faces.len() as u32 }).unwrap();
        }
    };
    season(&mut room);
    let before = COUNT.with(Cell::get);
    season(&mut room);
    assert_eq!(COUNT.with(Cell::get) - before, 0);
    assert_eq!(tally.figures().unwrap().patches, 6);
}
