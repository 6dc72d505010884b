//! Document 01, Rows to check, rows 4 to 6 as document 02 works them again, and document 02's examples, against this
//! implementation.

use crate::engine::Engine;
use crate::geometry::{Buffers, List};
use crate::matrix::UNIT;
use crate::pack::pack;
use crate::record::Record;
use crate::refusal::{Refusal, Refused};
use crate::report::{replay_report, unpack_report, Input};
use crate::stream::commands;
use crate::table::{known, parameters, port};
use crate::transform::{Pair, Single};
use crate::words::to_bytes;

/// The error in the status word.
const ERROR: u32 = 1 << 15;

/// An engine with large buffers of its own.
struct Bench {
    engine: Engine,
    vertices: Vec<i32>,
    polygons: Vec<u32>,
}

impl Bench {
    fn new(vertices: usize, polygons: usize) -> Self {
        let engine = Engine::start(vertices, polygons).expect("rooms in range");
        Bench { engine, vertices: vec![0; 5 * vertices], polygons: vec![0; 3 * polygons] }
    }

    /// In mode 1, at this level, with slots that all differ.
    fn at_level(level: usize) -> Self {
        let mut bench = Bench::new(1, 1);
        bench.run(0x10, &[1]);
        let pair = &mut bench.engine.transform.pair;
        pair.level = level;
        pair.positions = std::array::from_fn(|slot| [slot as i32; 16]);
        pair.vectors = pair.positions.map(|slot| slot.map(|entry| -entry));
        bench
    }

    /// Writes the parameters to the command's port, one write where it takes none.
    fn run(&mut self, command: u8, parameters: &[u32]) {
        let writes = if parameters.is_empty() { &[0] } else { parameters };
        for &value in writes {
            let mut buffers = Buffers { vertices: &mut self.vertices, polygons: &mut self.polygons };
            self.engine.write(port(command), value, &mut buffers).expect("the write is taken");
        }
    }

    fn word(&mut self, word: u32) -> Result<(), Refusal> {
        let mut buffers = Buffers { vertices: &mut self.vertices, polygons: &mut self.polygons };
        self.engine.word(word, &mut buffers)
    }

    fn list(&mut self, list: &[u32]) -> (usize, Option<Refused>) {
        let mut buffers = Buffers { vertices: &mut self.vertices, polygons: &mut self.polygons };
        self.engine.feed_words(&to_bytes(list), &mut buffers)
    }

    fn error(&self) -> bool {
        self.engine.status() & ERROR != 0
    }

    /// S, as the record has it.
    fn level(&self) -> usize {
        Record::from(&self.engine).core.registers.transform.pair.level
    }

    /// What the mode acts on where that has one slot: projection or texture.
    fn single(&self, mode: u32) -> &Single {
        let transform = &self.engine.transform;
        if mode == 0 {
            &transform.projection
        } else {
            &transform.texture
        }
    }
}

#[test]
fn row_1_parameters() {
    assert_eq!(parameters(0x34), Some(32));
    for unknown in [0x73, 0x9F, 0xFF, 0x00] {
        assert_eq!(parameters(unknown), None);
    }
    assert_eq!(known().count(), 37);
}

#[test]
fn row_2_command_words() {
    assert_eq!(Bench::new(1, 1).word(0x0011_0015), Err(Refusal::Hole));
    assert_eq!(Bench::new(1, 1).word(0x0000_1099), Err(Refusal::Hole));
    assert_eq!(Bench::new(1, 1).word(0x9900_0010), Ok(()));
    assert_eq!(commands(0x9900_0010), Some(0x10));
}

#[test]
fn row_3_scale() {
    for (entry, by, expected) in [(1, -1, -1), (1, 4095, 0), (0x7FFF_FFFF, 8192, -2)] {
        let mut bench = Bench::new(1, 1);
        let mut matrix = [0; 16];
        matrix[0] = entry as u32;
        bench.run(0x16, &matrix);
        bench.run(0x1B, &[by as u32, 0, 0]);
        assert_eq!(bench.engine.transform.projection.matrix[0], expected);
    }
}

#[test]
fn row_4_push_at_31() {
    let mut bench = Bench::new(1, 1);
    bench.run(0x10, &[1]);
    (0..31).for_each(|_| bench.run(0x11, &[]));
    assert_eq!((bench.level(), bench.engine.status()), (31, 31 << 8));
    assert_eq!(bench.engine.transform.pair.positions[31], [0; 16]);
    bench.run(0x11, &[]);
    assert_eq!((bench.level(), bench.engine.status()), (32, ERROR));
    assert_eq!(bench.engine.transform.pair.positions[31], UNIT);
}

#[test]
fn row_5_pop() {
    for (number, level, status) in [(1, 63, 31 << 8 | ERROR), (0x3F, 1, 1 << 8)] {
        let mut bench = Bench::new(1, 1);
        bench.run(0x10, &[1]);
        bench.run(0x12, &[number]);
        assert_eq!((bench.level(), bench.engine.status()), (level, status));
        assert_eq!(bench.engine.transform.pair.position, [0; 16]);
    }
}

#[test]
fn row_6_store() {
    let mut bench = Bench::new(1, 1);
    bench.run(0x10, &[2]);
    bench.run(0x13, &[30]);
    assert!(!bench.error());
    assert_eq!(bench.engine.transform.pair.vectors[30], UNIT);
    bench.run(0x13, &[31]);
    assert!(bench.error());
    assert_eq!(bench.engine.transform.pair.vectors[31], UNIT);
}

#[test]
fn row_7_relative_vertex() {
    let mut bench = Bench::new(1, 1);
    bench.run(0x23, &[32767, 5]);
    bench.run(0x28, &[1]);
    assert_eq!(bench.engine.geometry.position, [-32768, 0, 5]);
}

#[test]
fn row_8_ten_bit_vertex() {
    let mut bench = Bench::new(1, 1);
    bench.run(0x24, &[0x200 | 1 << 10 | 0x3FF << 20]);
    assert_eq!(bench.engine.geometry.position, [-32768, 64, -64]);
}

#[test]
fn row_9_rooms_3_and_1() {
    let mut bench = Bench::new(3, 1);
    bench.run(0x40, &[0]);
    (0..3).for_each(|k| bench.run(0x23, &[k, 0]));
    assert!(!bench.engine.overflow());
    (0..3).for_each(|k| bench.run(0x23, &[k, 0]));
    assert!(bench.engine.overflow());
    assert_eq!(bench.polygons, [0, 3, 0]);
    assert_eq!(bench.vertices, [0, 0, 0, 4096, 0, 1, 0, 0, 4096, 0, 2, 0, 0, 4096, 0]);
    bench.engine.clear_overflow();
    assert!(!bench.engine.overflow());
}

#[test]
fn row_10_pack() {
    let log = to_bytes(&[0x0400_0440, 2, 0x0400_0454, 7]);
    let mut output = [0xAA; 16];
    assert_eq!(pack(&log, &mut output), Ok(3));
    assert_eq!(output[..12], to_bytes(&[0x1510, 2, 0]));
    assert_eq!(output[12..], [0xAA; 4]);
    assert_eq!(pack(&log, &mut output[..8]), Err(Refusal::ShortOutput.into()));
}

#[test]
fn row_11_rooms() {
    assert!(Engine::start(6144, 2048).is_ok());
    for (vertices, polygons) in [(6145, 2048), (0, 1), (1, 0), (1, 2049), (usize::MAX, 1)] {
        assert_eq!(Engine::start(vertices, polygons).err(), Some(Refusal::Room));
    }
}

#[test]
fn row_12_empty_log() {
    assert_eq!(pack(&[], &mut []), Ok(0));
}

#[test]
fn the_unpack_programs_example() {
    let list = to_bytes(&[0x1510, 2, 0]);
    assert_eq!(unpack_report(&list), "ports 2\n04000440 00000002\n04000454 00000000\n");
    assert_eq!(unpack_report(&to_bytes(&[0x0011_0015])), "refused 3 0\n");
    assert_eq!(unpack_report(&list[..8]), "refused 8 0\n");
    assert_eq!(unpack_report(&list[..7]), "refused 7 0\n");
}

#[test]
fn orders_in_strips() {
    let mut bench = Bench::new(6144, 2048);
    let firsts = |bench: &Bench| bench.vertices.chunks(5).map(|vertex| vertex[0]).collect::<Vec<_>>();
    bench.run(0x29, &[7]);
    bench.run(0x40, &[2]);
    bench.run(0x29, &[8]);
    (0..5).for_each(|k| bench.run(0x23, &[k, 0]));
    assert_eq!(firsts(&bench)[..9], [0, 1, 2, 2, 1, 3, 2, 3, 4]);
    assert_eq!(bench.polygons[..9], [0, 3, 7, 3, 3, 7, 6, 3, 7]);
    assert_eq!(bench.engine.geometry.list, List::TriangleStrip { odd: true });
    bench.run(0x50, &[0]);
    bench.run(0x40, &[3]);
    (0..6).for_each(|k| bench.run(0x23, &[k, 0]));
    assert_eq!(firsts(&bench)[..9], [0, 1, 3, 2, 2, 3, 5, 4, 4]);
    assert_eq!(bench.polygons[..9], [0, 4, 8, 4, 4, 8, 6, 3, 7]);
}

#[test]
fn clearing_the_error_clears_the_projection_level() {
    let mut bench = Bench::new(1, 1);
    bench.run(0x12, &[0]);
    assert_eq!(bench.engine.status(), 1 << 13 | ERROR);
    bench.engine.clear_error();
    assert_eq!(bench.engine.status(), 0);
}

#[test]
fn a_push_at_each_level() {
    for level in 0..64 {
        let mut bench = Bench::at_level(level);
        let Pair { mut positions, mut vectors, .. } = bench.engine.transform.pair;
        (positions[level % 32], vectors[level % 32]) = (UNIT, UNIT);
        bench.run(0x11, &[]);
        assert_eq!((bench.level(), bench.error()), ((level + 1) % 64, level >= 31));
        let pair = &bench.engine.transform.pair;
        assert_eq!((pair.positions, pair.vectors), (positions, vectors));
    }
}

#[test]
fn each_pop_at_each_level() {
    for level in 0..64 {
        for number in 0..64 {
            let mut bench = Bench::at_level(level);
            bench.run(0x12, &[number as u32]);
            let target = (64 + level - number) % 64;
            let slot = target as i32 % 32;
            assert_eq!((bench.level(), bench.error()), (target, target >= 31));
            let pair = &bench.engine.transform.pair;
            assert_eq!((pair.position, pair.vector), ([slot; 16], [-slot; 16]));
        }
    }
}

#[test]
fn restore_uses_no_level() {
    for slot in 0..32 {
        let mut bench = Bench::at_level(33);
        bench.run(0x14, &[slot as u32]);
        assert_eq!((bench.level(), bench.error()), (33, slot == 31));
        let pair = &bench.engine.transform.pair;
        assert_eq!((pair.position, pair.vector), ([slot; 16], [-slot; 16]));
    }
}

#[test]
fn one_slot_stacks_move_on_an_error() {
    for mode in [0, 3] {
        let mut bench = Bench::new(1, 1);
        bench.run(0x10, &[mode]);
        bench.run(0x12, &[0]);
        assert_eq!((bench.single(mode).matrix, bench.single(mode).pushed, bench.error()), ([0; 16], true, true));
        bench.engine.transform.error = false;
        bench.run(0x15, &[]);
        bench.run(0x11, &[]);
        assert_eq!((bench.single(mode).slot, bench.single(mode).pushed, bench.error()), (UNIT, false, true));
    }
}

#[test]
fn a_list_with_two_projection_pushes() {
    let mut bench = Bench::new(1, 1);
    assert_eq!(bench.list(&[0x111C_1110, 0, 1, 2, 3, 0]), (6, None));
    assert_eq!(bench.engine.status(), ERROR);
    assert_eq!(bench.single(0).slot[12..], [1, 2, 3, 4096]);
}

#[test]
fn one_slot_stacks_look_at_no_slot() {
    for mode in [0, 3] {
        let mut bench = Bench::new(1, 1);
        bench.run(0x10, &[mode]);
        bench.run(0x13, &[31]);
        bench.run(0x16, &[7; 16]);
        bench.run(0x14, &[31]);
        assert_eq!((bench.single(mode).matrix, bench.single(mode).pushed, bench.error()), (UNIT, false, false));
    }
}

#[test]
fn the_clip_matrix_after_an_error() {
    for (mode, command, parameter) in [(0, 0x12, 0), (1, 0x12, 1), (1, 0x14, 31)] {
        let mut bench = Bench::new(1, 1);
        bench.run(0x40, &[0]);
        bench.run(0x23, &[0, 0]);
        bench.run(0x10, &[mode]);
        bench.run(command, &[parameter]);
        assert_eq!((bench.engine.clip(), bench.error()), ([0; 16], true));
    }
}

#[test]
fn sound_levels() {
    let mut record = Record::from(&Bench::new(1, 1).engine);
    assert_eq!((record.core.stacks.positions, record.core.stacks.vectors), ([0; 512], [0; 512]));
    for (level, sound) in [(31, true), (32, true), (63, true), (64, false)] {
        record.core.registers.transform.pair.level = level;
        assert_eq!(record.engine().is_ok(), sound);
    }
}

#[test]
fn scale_leaves_the_vector_matrix() {
    let mut bench = Bench::new(1, 1);
    bench.run(0x10, &[2]);
    bench.run(0x1B, &[8192, 8192, 8192]);
    assert_eq!(bench.engine.direction(), [4096, 0, 0, 0, 4096, 0, 0, 0, 4096]);
    assert_eq!(bench.engine.clip()[0], 8192);
}

#[test]
fn a_list_up_to_a_hole() {
    assert_eq!(Bench::new(1, 1).list(&[0, 0x0011_0015]), (1, Some(Refusal::Hole.at(1))));
}

#[test]
fn a_list_of_any_length() {
    assert_eq!(Bench::new(1, 1).list(&[0; 8193]), (8193, None));
}

#[test]
fn an_empty_list_with_a_port_begun() {
    let mut bench = Bench::new(1, 1);
    bench.run(0x23, &[0]);
    assert_eq!(bench.list(&[]), (0, None));
    assert_eq!(bench.list(&[0]), (0, Some(Refusal::Pending.at(0))));
    assert!(bench.engine.pending());
}

#[test]
fn an_empty_list_with_short_buffers() {
    let refused = (0, Some(Refusal::ShortBuffer.at(0)));
    let (mut vertices, mut polygons) = (Bench::new(1, 1), Bench::new(1, 1));
    vertices.vertices.pop();
    polygons.polygons.pop();
    for mut bench in [vertices, polygons] {
        assert_eq!(bench.list(&[]), refused);
        assert_eq!(bench.list(&[0x0011_0015]), refused);
    }
}

#[test]
fn a_replay_up_to_a_refusal() {
    let report = replay_report(Input::List, (6144, 2048), &to_bytes(&[0x10, 2, 0x1000_1011]));
    assert!(report.starts_with("taken 2\nrefused 3 2\nstatus 00000000\nmode 2\nlevels 0 0 0\noverflow 0\n"));
    assert!(report.ends_with("\nwaiting 0\nvertices 0\npolygons 0\n"));
    assert_eq!(replay_report(Input::Log, (6145, 1), &[]), "refused 11 0\n");
    assert_eq!(replay_report(Input::Log, (1, 1), &[0; 4]), "refused 7 0\n");
}
