//! How many bytes of stack each mask builder, each call on scene records, each on a bank of voices
//! and each on a mixer uses, the most over random scenes.
//!
//!     stack SEED SCENES
//!
//! A call runs on a stack of its own that is filled with one byte before; what still holds it was
//! not used. The frames of the Rust functions that make the call are counted with it, and in them
//! scenes, a bank or a mixer that are passed or answered by value.

use linked::calls::{self as port, Crossing, bank_of};
use linked::{Scene, StripScenes, dovetable_new_mixer, dovetable_request, dovetable_turn};
use linked::{dovetable_add_voice, dovetable_change_voice, dovetable_remove_voice};
use oracle::builders::{Builder, Lent, Masks};
use oracle::mask_calls::{Call, any_scene};
use oracle::mixer::STRIPS;
use oracle::random::Random;
use oracle::scene_records::{SILENT, StoredScene, length_of};
use std::arch::asm;
use std::process::ExitCode;

const PAINT: u8 = 0xa5;
const BYTES: usize = 1 << 20;

/// Where a stack begins, in whole 16 bytes, as the calling convention asks.
#[repr(align(16))]
#[derive(Clone, Copy)]
struct Sixteen([u8; 16]);

/// A call, which answers its number.
type Work<'a> = &'a mut dyn FnMut() -> u32;

/// The call that is made, and the number that it gives.
struct Made<'a> {
    work: Work<'a>,
    number: Option<u32>,
}

extern "C" fn make(made: &mut Made) {
    made.number = Some((made.work)());
}

/// Makes the call on a stack that grows down from the end of the one lent, and counts what it used.
/// The call must be accepted.
fn used(stack: &mut [Sixteen], work: Work) -> usize {
    stack.fill(Sixteen([PAINT; 16]));
    let mut made = Made { work, number: None };
    // The register that holds the old stack is one that a called function keeps.
    unsafe {
        asm!(
            "xchg rsp, r12",
            "call {make}",
            "mov rsp, r12",
            make = sym make,
            in("rdi") &mut made,
            inout("r12") stack.as_mut_ptr_range().end => _,
            clobber_abi("C"),
        );
    }
    assert_eq!(made.number, Some(0));
    let untouched = |piece: &&Sixteen| piece.0 == [PAINT; 16];
    BYTES - 16 * stack.iter().take_while(untouched).count()
}

/// The mask builders, then writing and reading a scene, then the calls on a bank and on a mixer.
fn names() -> Vec<&'static str> {
    let builders = Builder::ALL.iter().map(|one| one.name());
    let records = ["write_scene", "read_scene"];
    let banks = ["add_voice", "remove_voice", "change_voice", "read_masks"];
    let mixers = ["request", "turn", "serve"];
    let before = builders.chain(records).chain(banks);
    before.chain(mixers).collect()
}

/// What the calls on a bank use: one of the scene's voices, with one more that is added, changed
/// and taken out.
fn used_on_bank(
    stack: &mut [Sixteen],
    lent: &Lent,
    crossing: &Crossing,
    masks: &mut Masks,
) -> [usize; 4] {
    let (id, voice) = (1_000, port::record_of(&SILENT));
    let (voices, settings) = (&crossing.voices, crossing.settings);
    let bank = bank_of((0..).zip(voices.iter().copied()));
    let more = dovetable_add_voice(bank, id, voice).bank;
    [
        used(stack, &mut || dovetable_add_voice(bank, id, voice).number),
        used(stack, &mut || dovetable_remove_voice(more, id).number),
        used(stack, &mut || {
            dovetable_change_voice(more, id, voice).number
        }),
        used(stack, &mut || {
            port::read_masks(more, lent, settings, masks).number
        }),
    ]
}

/// What the calls on a mixer use: a request behind fifteen others, and turns of which each names a
/// strip with this scene.
fn used_on_mixer(
    stack: &mut [Sixteen],
    lent: &Lent,
    scene: Scene,
    masks: &mut Masks,
) -> [usize; 3] {
    let last = STRIPS - 1;
    let file = |mixer, strip| dovetable_request(mixer, strip).mixer;
    let others = (0..last).fold(dovetable_new_mixer(), file);
    let all = file(others, last);
    let scenes = StripScenes {
        scenes: [scene; STRIPS],
    };
    [
        used(stack, &mut || dovetable_request(others, last).number),
        used(stack, &mut || u32::from(!dovetable_turn(all).named)),
        used(stack, &mut || port::serve(all, &scenes, lent, masks).number),
    ]
}

/// What each call uses on a scene, in the order of the names.
fn used_on(stack: &mut [Sixteen], drawn: &Call) -> Vec<usize> {
    let lent = drawn.lent();
    let (crossing, mut masks) = (Crossing::from(&lent), drawn.masks());
    let build = |builder| {
        used(stack, &mut || {
            port::build(builder, &lent, &crossing, &mut masks).number
        })
    };
    let mut all: Vec<usize> = Builder::ALL.into_iter().map(build).collect();
    let scene = StoredScene {
        config: lent.config,
        voices: lent.voices.clone(),
    };
    let passed = port::passed(&scene);
    let mut record = vec![0; length_of(scene.voices.len())];
    all.push(used(stack, &mut || {
        port::write_scene(&mut record, passed).number
    }));
    all.push(used(stack, &mut || port::read_scene(&record).number));
    all.extend(used_on_bank(stack, &lent, &crossing, &mut masks));
    all.extend(used_on_mixer(stack, &lent, passed, &mut masks));
    all
}

fn main() -> ExitCode {
    let words: Result<Vec<u64>, _> = std::env::args().skip(1).map(|word| word.parse()).collect();
    let Ok(&[seed, scenes]) = words.as_deref() else {
        eprintln!("usage: stack SEED SCENES");
        return ExitCode::from(2);
    };
    let mut random = Random::new(seed);
    let mut stack = vec![Sixteen([PAINT; 16]); BYTES / 16];
    let mut most = vec![0; names().len()];
    for _ in 0..scenes {
        let all = used_on(&mut stack, &any_scene(&mut random));
        for (most, used) in most.iter_mut().zip(all) {
            *most = used.max(*most);
        }
    }
    for (name, most) in names().into_iter().zip(most) {
        println!("{name:<44}{most:>8}");
    }
    ExitCode::SUCCESS
}
