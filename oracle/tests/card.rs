//! docs/CARD.md: its tables have each field of a record at its bits and within its limits, its
//! worked record comes back, and its damaged records are answered as it says.

use oracle::calls::{read_scene, write_scene};
use oracle::plain_pitch::plain;
use oracle::refusals::{Outcome, Refusal};
use oracle::scene_records::{HEAD_BYTES, StoredScene, VOICE_BYTES, length_of};
use oracle::scenes::SHAPES;
use oracle::spectral_dsp::MaskVoice;

/// The lines of the document below a heading.
fn section(heading: &str) -> Vec<String> {
    let file = concat!(env!("CARGO_MANIFEST_DIR"), "/../docs/CARD.md");
    let text = std::fs::read_to_string(file).expect("the document can be read");
    let after = text.split_once(&format!("\n## {heading}\n"));
    let lines = after.expect("the document has the heading").1.lines();
    let lines = lines.take_while(|line| !line.starts_with("## "));
    lines.map(str::to_owned).collect()
}

/// The cells of a section's table, without its head.
fn table(heading: &str) -> Vec<Vec<String>> {
    let lines = section(heading);
    let rows = lines.iter().filter_map(|line| line.strip_prefix('|'));
    let cells = |row: &str| row.split('|').map(|cell| cell.trim().to_owned()).collect();
    rows.skip(2).map(cells).collect()
}

/// The indented lines of a section.
fn indented(heading: &str) -> Vec<String> {
    let lines = section(heading);
    let lines = lines.iter().filter_map(|line| line.strip_prefix("    "));
    lines.map(str::to_owned).collect()
}

fn decimal<T: std::str::FromStr>(text: &str) -> T {
    let parsed = text.replace(',', "").parse();
    parsed.unwrap_or_else(|_| panic!("{text} is no such number"))
}

fn hexadecimal(text: &str) -> u8 {
    assert_eq!(text.len(), 2, "{text}");
    u8::from_str_radix(text, 16).expect("a byte")
}

/// A row of one of the two layouts.
#[derive(Clone, Debug)]
struct Field {
    name: String,
    /// Its bytes, each with the mask of its bits.
    bits: Vec<(usize, u8)>,
    is_float: bool,
    accepted: String,
    /// The refusal outside its limits; none where nothing is outside.
    otherwise: Option<u8>,
}

impl Field {
    fn of_row(row: &[String]) -> Self {
        let is_float = row[1] == "float";
        let bits = match row[0].split_once("..") {
            Some((first, last)) => (decimal(first)..=decimal(last))
                .map(|at| (at, 0xff))
                .collect(),
            None => {
                let masks = row[1]
                    .split(", ")
                    .map(|mask| mask.strip_prefix("0x").unwrap());
                let bytes = row[0].split(", ").map(decimal);
                bytes.zip(masks.map(hexadecimal)).collect()
            }
        };
        Self {
            name: row[2].clone(),
            bits,
            is_float,
            accepted: row[4].clone(),
            otherwise: (!row[5].is_empty()).then(|| decimal(&row[5])),
        }
    }

    fn width(&self) -> u32 {
        self.bits.iter().map(|(_, mask)| mask.count_ones()).sum()
    }

    /// Its value in a record; a float's is its bits.
    fn word(&self, record: &[u8]) -> u32 {
        self.bits.iter().fold(0_u64, |word, &(at, mask)| {
            word << mask.count_ones() | u64::from((record[at] & mask) >> mask.trailing_zeros())
        }) as u32
    }

    fn put(&self, record: &mut [u8], word: u32) {
        let mut rest = u64::from(word);
        for &(at, mask) in self.bits.iter().rev() {
            let part = (rest << mask.trailing_zeros()) as u8 & mask;
            record[at] = record[at] & !mask | part;
            rest >>= mask.count_ones();
        }
    }

    /// Its bytes, or its bits with dots for those of other fields.
    fn shown(&self, record: &[u8]) -> String {
        let byte = |&(at, mask): &(usize, u8)| match self.is_float {
            true => format!("{:02x}", record[at]),
            false => {
                let bit = |place: u32| match (mask >> place & 1, record[at] >> place & 1) {
                    (0, _) => '.',
                    (_, 0) => '0',
                    _ => '1',
                };
                (0..8).rev().map(bit).collect()
            }
        };
        let bytes: Vec<String> = self.bits.iter().map(byte).collect();
        bytes.join(" ")
    }

    /// The word of a value in the document.
    fn parsed(&self, text: &str) -> u32 {
        match self.is_float {
            true => decimal::<f32>(text).to_bits(),
            false => decimal(text),
        }
    }

    /// Its limits, of two the ones of this form of the pitch.
    fn limits(&self, form: u8) -> (u32, u32) {
        if self.accepted == "any finite" {
            return (f32::MIN.to_bits(), f32::MAX.to_bits());
        }
        let texts: Vec<&str> = self.accepted.split(" or ").collect();
        let text = texts[usize::from(form) % texts.len()];
        let range = text.split(' ').next().unwrap();
        let (low, high) = range.split_once("..").unwrap_or((range, range));
        (self.parsed(low), self.parsed(high))
    }
}

/// A field of a record.
struct Placed {
    field: Field,
    voice: Option<usize>,
}

fn fields(heading: &str) -> Vec<Field> {
    table(heading)
        .iter()
        .map(|row| Field::of_row(row))
        .collect()
}

/// The fields of a record of this many voices, in their order.
fn placed(voices: usize) -> Vec<Placed> {
    let head = fields("The head").into_iter();
    let head = head.map(|field| Placed { field, voice: None });
    let voice = fields("A voice");
    let voices = (0..voices).flat_map(|index| {
        voice.iter().cloned().map(move |mut field| {
            field.name = format!("voice {index}: {}", field.name);
            for (at, _) in &mut field.bits {
                *at += HEAD_BYTES + VOICE_BYTES * index;
            }
            let voice = Some(index);
            Placed { field, voice }
        })
    });
    head.chain(voices).collect()
}

/// The worked record's bytes; each row says its offset.
fn worked() -> Vec<u8> {
    let mut record = Vec::new();
    for row in indented("A worked record") {
        let (offset, bytes) = row.trim().split_once("  ").expect("an offset, then bytes");
        assert_eq!(decimal::<usize>(offset), record.len());
        record.extend(bytes.split(' ').map(hexadecimal));
    }
    record
}

fn refused(number: u8, place: usize) -> Outcome {
    Err(Refusal { number, place })
}

fn setting(scene: &StoredScene, name: &str) -> u32 {
    let (config, motion) = (&scene.config, &scene.config.motion);
    match name {
        "log" => config.fft_size.ilog2(),
        "layer" => config.note_layer_enabled.into(),
        "shape" => motion.shape as u32,
        "partials" => config.partials as u32,
        "count" => scene.voices.len() as u32,
        "zero" => 0,
        "rate" => config.sample_rate.to_bits(),
        "note depth" => config.note_depth_db.to_bits(),
        "width" => config.width_cents.to_bits(),
        "rolloff" => config.harmonic_rolloff_db_per_octave.to_bits(),
        "motion depth" => motion.depth_db.to_bits(),
        "phase" => motion.phase.to_bits(),
        "motion size" => motion.size_octaves.to_bits(),
        _ => panic!("a head has no {name}"),
    }
}

fn of_voice(voice: &MaskVoice, name: &str) -> u32 {
    let (form, note, tuning) = plain(voice.pitch);
    match name {
        "note" => note.into(),
        "form" => form.into(),
        "level" => voice.level.to_bits(),
        "tuning" => tuning.to_bits(),
        "pressure" => voice.pressure.to_bits(),
        "timbre" => voice.timbre.to_bits(),
        "volume" => voice.volume_gain.to_bits(),
        "expression" => voice.expression_gain.to_bits(),
        "pan" => voice.pan.to_bits(),
        _ => panic!("a voice has no {name}"),
    }
}

/// A scene's value of a field, under its name in the document.
fn value(scene: &StoredScene, name: &str) -> u32 {
    match name
        .strip_prefix("voice ")
        .and_then(|rest| rest.split_once(": "))
    {
        Some((index, name)) => of_voice(&scene.voices[decimal::<usize>(index)], name),
        None => setting(scene, name),
    }
}

#[test]
fn the_layouts_give_each_bit_to_one_field() {
    for (heading, length) in [("The head", HEAD_BYTES), ("A voice", VOICE_BYTES)] {
        let fields = fields(heading);
        let bits = fields.iter().flat_map(|field| &field.bits);
        let bits = bits.flat_map(|&(at, mask)| {
            let places = (0..8).filter(move |place| mask & 0x80 >> place != 0);
            places.map(move |place| 8 * at + place)
        });
        assert!(bits.eq(0..8 * length), "{heading}");
    }
}

/// The letter of a field begins its meaning; the zero bits have none.
#[test]
fn the_letters_stand_at_their_bits() {
    let mut drawn = ['?'; 24];
    for (field, row) in fields("The head").iter().zip(table("The head")) {
        let letter = match row[3].split_once(": ") {
            Some((letter, _)) => decimal(letter),
            None => '0',
        };
        for &(at, mask) in field.bits.iter().filter(|_| !field.is_float) {
            let places = (0..8).filter(|place| mask & 0x80 >> place != 0);
            places.for_each(|place| drawn[8 * at + place] = letter);
        }
    }
    let bytes: Vec<String> = drawn.chunks(8).map(|byte| byte.iter().collect()).collect();
    assert_eq!(indented("The head"), [bytes.join(" ")]);
}

#[test]
fn the_shapes_have_their_numbers() {
    let numbered = |(number, shape)| format!("{number} {shape:?}");
    let shapes: Vec<String> = SHAPES.into_iter().enumerate().map(numbered).collect();
    let rows = table("The head");
    let row = rows.iter().find(|row| row[2] == "shape").expect("a row");
    assert!(row[3].ends_with(&shapes.join(", ")), "{}", row[3]);
}

#[test]
fn the_worked_record_comes_back() {
    let record = worked();
    let (outcome, scene) = read_scene(&record);
    assert_eq!(outcome, Ok(()));
    assert_eq!(record.len(), length_of(scene.voices.len()));
    let mut again = vec![0xa5; record.len()];
    assert_eq!(write_scene(&mut again, &scene), Ok(()));
    assert_eq!(again, record);
}

#[test]
fn the_worked_record_is_taken_apart() {
    let record = worked();
    let (_, scene) = read_scene(&record);
    let rows = table("A worked record");
    let placed = placed(scene.voices.len());
    assert_eq!(rows.len(), placed.len());
    for (row, Placed { field, .. }) in rows.iter().zip(&placed) {
        let name = &field.name;
        assert_eq!(row[2], *name);
        assert_eq!(decimal::<usize>(&row[0]), field.bits[0].0, "{name}");
        assert_eq!(row[1], field.shown(&record), "{name}");
        assert_eq!(field.parsed(&row[3]), field.word(&record), "{name}");
        assert_eq!(value(&scene, name), field.word(&record), "{name}");
    }
}

/// The answer to the worked record with another word in a field. Where that is the count, the
/// record gets the length for it; the new voices are zeros.
fn answered(field: &Field, word: u32) -> Outcome {
    let mut record = worked();
    field.put(&mut record, word);
    assert_eq!(field.word(&record), word);
    if field.name == "count" {
        record.resize(length_of(word as usize), 0);
    }
    read_scene(&record).0
}

/// Floats within limits, and floats that are outside.
fn samples(low: f32, high: f32) -> (Vec<f32>, Vec<f32>) {
    let inside = [-0.0, f32::from_bits(1), -f32::from_bits(1)];
    let inside = inside.into_iter().filter(|&x| low <= x && x <= high);
    let around = [low.next_down(), high.next_up()];
    let odd = [f32::NAN, -f32::NAN, f32::INFINITY, f32::NEG_INFINITY];
    (
        inside.chain([low, high]).collect(),
        [&around[..], &odd].concat(),
    )
}

/// On the two voices of the worked record, of which one is a note and one by hertz.
#[test]
fn the_limits_are_those_of_a_reading() {
    let forms = read_scene(&worked()).1.voices;
    let forms: Vec<u8> = forms.iter().map(|voice| plain(voice.pitch).0).collect();
    assert_eq!(forms, [0, 1]);
    for Placed { field, voice } in placed(forms.len()) {
        let (low, high) = field.limits(voice.map_or(0, |voice| forms[voice]));
        let Some(number) = field.otherwise else {
            assert_eq!((low, high), (0, (1 << field.width()) - 1), "{}", field.name);
            continue;
        };
        let place = if number == 5 { voice.unwrap() } else { 0 };
        let (inside, outside): (Vec<u32>, Vec<u32>) = if field.is_float {
            let (inside, outside) = samples(f32::from_bits(low), f32::from_bits(high));
            let words = |xs: Vec<f32>| xs.into_iter().map(f32::to_bits).collect();
            (words(inside), words(outside))
        } else {
            assert!(high >> field.width() == 0, "{}", field.name);
            (0..1 << field.width()).partition(|word| (low..=high).contains(word))
        };
        for word in inside {
            assert_eq!(answered(&field, word), Ok(()), "{}: {word:x}", field.name);
        }
        for word in outside {
            let expected = refused(number, place);
            assert_eq!(answered(&field, word), expected, "{}: {word:x}", field.name);
        }
    }
}

/// A byte that is another than in the worked record, the one field that this changes and its value
/// then, and the answer.
#[test]
fn the_damaged_records_are_answered_as_said() {
    let lines = section("Damaged records");
    let lines = lines.iter().filter_map(|line| line.strip_prefix("- "));
    for line in lines.clone() {
        let (change, answer) = line.split_once(": ").expect("a change and an answer");
        let (bytes, meaning) = change.split_once(", so that ").expect("two halves");
        let bytes: Vec<&str> = bytes.split(' ').collect();
        let ["byte", at, "is", new, "instead", "of", old] = bytes[..] else {
            panic!("{line}");
        };
        let mut record = worked();
        let byte = &mut record[decimal::<usize>(at)];
        assert_eq!(*byte, hexadecimal(old), "{line}");
        *byte = hexadecimal(new);

        let (name, value) = meaning.split_once(" is ").expect("a field and its value");
        let name = name.strip_prefix("the ").unwrap_or(name);
        let name = match name.split_once(" of voice ") {
            Some((name, index)) => format!("voice {index}: {name}"),
            None => name.to_owned(),
        };
        let value = value.split(", ").next().unwrap();
        let mut all = placed(2).into_iter().map(|placed| placed.field);
        let field = all.find(|field| field.name == name).expect("a field");
        assert_eq!(field.word(&record), field.parsed(value), "{line}");
        let mut mended = record.clone();
        field.put(&mut mended, field.word(&worked()));
        assert_eq!(mended, worked(), "{line}");

        let (number, place) = answer.split_once(' ').expect("a number and a place");
        let expected = refused(decimal(number), decimal(place));
        assert_eq!(read_scene(&record).0, expected, "{line}");
    }
    assert_eq!(lines.count(), 4);
}
