//! The wrapper as a user meets it: the small plate from file to cells, lists that are loaded or refused, memory that is too
//! short, entries kept beside a list, queues, what refusals say.

use vombelishi::plate::{self, Places};
use vombelishi::{sound_pair_into, Accepted, Apart, Entry, Queue, Record, Refusal, Refused, Reply};

const SMALL: &[u8] = include_bytes!("../../../samples/small.plate");
const SHORT: Result<(), Refusal> = Err(Refusal { number: 13, detail: 0 });

/// The small plate's words, and where its sections lie.
fn small() -> (Places, Vec<u32>) {
    let places = plate::read(SMALL).unwrap();
    let mut words = vec![0; places.r];
    plate::copy(SMALL, &mut words).unwrap();
    (places, words)
}

/// The small plate's registers, then these words.
fn small_and(words: &[u32]) -> Vec<u32> {
    let (places, all) = small();
    [places.sections(&all)[0], words].concat()
}

fn accepted(registers: &[u32]) -> Accepted {
    Record::new().load_and_check(registers).unwrap()
}

/// Words loaded singly, so that the record need not be accepted.
fn loaded(words: &[u32]) -> Record {
    let mut record = Record::new();
    words.iter().for_each(|word| record.load_word(*word).unwrap());
    record
}

#[test]
fn the_small_plate() {
    let (places, words) = small();
    let [registers, video, cursor, sound] = places.sections(&words);
    assert_eq!([registers.len(), video.len(), cursor.len(), sound.len()], [30, 1, 0, 0]);
    let accepted = accepted(registers);
    let setting = accepted.setting();
    assert_eq!((setting.n, setting.v, setting.depth, setting.display_on), (32, 6, 4, true));
    let mut cells = vec![7; 6 * 32 + 1];
    accepted.frame(video, cursor, &mut cells).unwrap();
    assert_eq!(cells[3 * 32 + 11..3 * 32 + 19], [40960, 40961, 40962, 40963, 40964, 40965, 40966, 40967]);
    assert_eq!(cells[6 * 32], 7);
    assert_eq!(accepted.raster_words(video, 3), Ok(video));
    assert_eq!(accepted.raster_words(video, 2), Ok(&[][..]));
    assert_eq!(accepted.marks(video, cursor, 128), Ok(0));
}

#[test]
fn the_small_plate_written_again() {
    let (places, words) = small();
    let mut out = [7; 141];
    assert_eq!(plate::write(places.sections(&words), &mut out), Ok(140));
    assert_eq!((&out[..140], out[140]), (SMALL, 7));
}

#[test]
fn the_small_plate_as_text() {
    let mut text = vec![0; plate::MOST_TEXT];
    let size = plate::text(SMALL, &mut text).unwrap();
    assert!(text[..size].starts_with(b"frame 32 6 words 1 marks 0\n3x4 2x28\n"));
}

/// The words of a record that sound does not refuse.
fn sounding() -> Vec<u32> {
    let stereo = (0..8).map(|i| ((0x60 + 4 * i) << 24) | 4);
    stereo.chain([0xC000_0003]).collect()
}

fn player() -> Record {
    Record::new().load_and_check_sound(&sounding()).unwrap()
}

#[test]
fn the_counter_goes_on_or_stays() {
    let (mut counter, mut out) = (u32::MAX, [7; 9]);
    player().sound(&[0x2020_2020], &mut counter, &mut out).unwrap();
    assert_eq!((counter, out), (3, [48, 48, 48, 48, 48, 48, 48, 48, 7]));
    let refused = Record::new().sound(&[0x2020_2020], &mut counter, &mut out);
    assert_eq!(refused, Err(Refusal { number: 3, detail: 0x60 }));
    assert_eq!((counter, out), (3, [48, 48, 48, 48, 48, 48, 48, 48, 7]));
}

#[test]
fn a_load_changes_the_named_registers_alone() {
    let mut record = accepted(&small_and(&[])).into_record();
    record.values.iter_mut().for_each(|value| *value |= 0xA500_0000); // only the low 24 bits count
    record.written = [7; 64];
    let mut right = record.clone();
    record = record.load_and_check(&[0x0C00_0FFF, 0x0F00_0123, 0x4200_0456]).unwrap().into_record();
    (right.values[0x03], right.written[0x03]) = (0x123, 1);
    (right.values[0x10], right.written[0x10]) = (0x456, 1);
    assert_eq!(record, right);
    record = record.load_and_check_sound(&sounding()[..8]).unwrap_err().record; // the sound frequency is 0
    assert_eq!(record.load_word(0x5000_0000), Err(Refusal { number: 2, detail: 0 }));
    assert_eq!(record, right);
    record.load_word(0x8003_C000).unwrap();
    (right.values[0x20], right.written[0x20]) = (0x03_C000, 1);
    assert_eq!(record, right);
}

/// A list that is refused for pictures, and that the record comes back as it was given.
fn not_accepted(record: &Record, words: &[u32]) -> (u32, u32) {
    let refused = record.clone().load_and_check(words).unwrap_err();
    assert_eq!(refused.record, *record);
    (refused.refusal.number, refused.refusal.detail)
}

#[test]
fn a_refused_record_comes_back_as_it_came() {
    let right = accepted(&small_and(&[])).into_record();
    let garbage = Record { values: [u32::MAX; 64], written: [0xA5; 64] };
    // The list is judged first, whatever the record.
    for record in [&Record::new(), &right, &garbage] {
        assert_eq!(not_accepted(record, &[0x9C00_0000; 1025]), (1, 0));
        assert_eq!(not_accepted(record, &[0x9C00_0000, 0x5000_0000, 0xFC00_0000]), (2, 1));
    }
    assert_eq!(not_accepted(&Record::new(), &[]), (3, 0xE0));
    assert_eq!(not_accepted(&Record::new(), &small_and(&[])[..29]), (3, 0x3C));
    assert_eq!(not_accepted(&garbage, &[]), (4, 0));
    assert_eq!(not_accepted(&right, &[0x8002_8000]), (6, 0)); // N 22, and BE is 23
    assert_eq!(right.clone().load_and_check(&[0x9C00_0000; 1024]).map(|_| ()), Ok(()));
    assert_eq!(right.clone().load_and_check(&[]).map(Accepted::into_record), Ok(right));
}

#[test]
fn a_list_in_two_calls() {
    let palette: Vec<u32> = (0..16).map(|i| (i << 26) | (i << 4)).collect();
    let words = small_and(&palette);
    let whole = accepted(&words);
    for cut in 0..=words.len() {
        let (first, second) = words.split_at(cut);
        match Record::new().load_and_check(first) {
            Ok(accepted) => assert_eq!(accepted.into_record().load_and_check(second).as_ref(), Ok(&whole)),
            Err(refused) => assert_eq!((refused.record, cut < 30), (Record::new(), true)),
        }
    }
}

#[test]
fn sound_asks_nothing_of_pictures() {
    assert_eq!(player(), loaded(&sounding()));
    assert_eq!(not_accepted(&player(), &[]), (3, 0xE0));
    let silent = |record: Record, words: &[u32]| record.load_and_check_sound(words).unwrap_err();
    let refused = |number, detail, record| Refused { refusal: Refusal { number, detail }, record };
    assert_eq!(silent(player(), &[0x7C00_0000]), refused(10, 0x7C, player()));
    assert_eq!(silent(player(), &[0x7C00_0000, 0x5000_0000]), refused(2, 1, player()));
    assert_eq!(silent(Record::new(), &sounding()[1..]), refused(3, 0x60, Record::new()));
    assert_eq!(silent(Record::new(), &[0x9C00_0000; 1025]), refused(1, 0, Record::new()));
}

#[test]
fn a_pixels_colour() {
    let record = loaded(&[0x3C00_1FFF]);
    let shown = |colour, supremacy| Apart { colour, supremacy };
    assert_eq!([0x0F, 0xFF].map(|pixel| record.colour(8, pixel)), [shown(0x737, true), shown(0xFFF, true)]);
    assert_eq!(record.colour(4, 0x0F), shown(0xFFF, true));
    assert_eq!(loaded(&[0x3C00_0FFF]).colour(8, 0x0F), shown(0x737, false));
}

#[test]
fn a_raster_over_a_camera() {
    let accepted = accepted(&small_and(&[0x4000_1F00, 0x0800_1002])); // supremacy of the border, and of entry 2
    let (mut cells, mut mixed) = ([0; 32], [7; 33]);
    accepted.raster(&[0x7654_3210], &[], 3, &mut cells).unwrap();
    let mut camera: Vec<u16> = (0x100..0x120).collect();
    camera.push(0x1000); // beyond N: not looked at
    assert_eq!(accepted.mix(&cells, &camera, &mut mixed), Ok(()));
    assert_eq!(mixed[..7], [0; 7]); // sync and blank
    assert_eq!(mixed[7..19], [0x107, 0x108, 0x109, 0x10A, 0, 1, 0x10D, 3, 4, 5, 6, 7]);
    assert_eq!((mixed[19], mixed[22], mixed[23], mixed[32]), (0x113, 0x116, 0, 7));
    (camera[30], camera[31]) = (0x1000, 0xFFFF);
    assert_eq!(accepted.mix(&cells, &camera, &mut mixed), Err(Refusal { number: 20, detail: 30 }));
    assert_eq!(accepted.mix(&cells[..31], &camera, &mut mixed), SHORT);
    assert_eq!((mixed[8], mixed[32]), (0x108, 7));
}

/// Lends one place too few, and sees that what is there stays.
fn short<T: Copy + PartialEq + From<u8>>(needed: usize, call: impl Fn(&mut [T]) -> Result<(), Refusal>) {
    let mut lent = vec![T::from(7); needed - 1];
    assert_eq!(call(&mut lent), SHORT);
    assert!(lent.iter().all(|item| *item == T::from(7)));
}

#[test]
fn short_memory() {
    let (places, words) = small();
    let sections = places.sections(&words);
    let [registers, video, cursor, _] = sections;
    let accepted = accepted(registers);
    short(192, |cells| accepted.frame(video, cursor, cells));
    short(32, |cells| accepted.raster(video, cursor, 0, cells));
    short(32, |mixed| accepted.mix(&[0; 32], &[0; 32], mixed));
    short(2, |place| accepted.raster_words_into(video, 0, place));
    short(8, |out| player().sound(&[0], &mut 0, out));
    short(2, |pair| sound_pair_into(0, 1, pair));
    short(9, |numbers| plate::read_into(SMALL, numbers));
    short(31, |words| plate::copy(SMALL, words));
    short(140, |out| plate::write(sections, out).map(|_| ()));
    short(112, |text| plate::text(SMALL, text).map(|_| ()));
}

/// The small plate with a second displayed raster, and two video words.
fn two_rasters() -> (Accepted, [u32; 2]) {
    (accepted(&small_and(&[0xB001_0000])), [0x7654_3210, 0x8888_8888]) // VDE 5
}

#[test]
fn the_entry_of_a_words_raster_changes_alone() {
    let (accepted, mut video) = two_rasters();
    let first = Entry { marks: 3, least: 0, greatest: 35 };
    let mut entries = accepted.summaries(&video, &[], 25).unwrap();
    assert_eq!(entries, [first, Entry { marks: 8, least: 40, greatest: 40 }]);
    assert_eq!(accepted.replace(&mut video, &[], 25, 1, 0xF000_0000, &mut entries), Ok(()));
    assert_eq!(video, [0x7654_3210, 0xF000_0000]);
    assert_eq!(entries, [first, Entry { marks: 1, least: 0, greatest: 76 }]);
    assert_eq!(accepted.summaries(&video, &[], 25), Ok(entries));
}

#[test]
fn entries_that_are_not_right_stay() {
    let (accepted, mut video) = two_rasters();
    let garbage = Entry { marks: 7, least: 8, greatest: 9 };
    let mut entries = [garbage; 3];
    assert_eq!(accepted.replace(&mut video, &[], 0, 0, 0x1111_1111, &mut entries), Ok(()));
    assert_eq!(entries, [Entry { marks: 8, least: 5, greatest: 5 }, garbage, garbage]);
    assert_eq!(accepted.summaries_into(&video, &[], 255, &mut entries), Ok(()));
    let none = |grey| Entry { marks: 0, least: grey, greatest: grey };
    assert_eq!(entries, [none(5), none(40), garbage]);
}

/// A replacement that is refused, and that list and entries stay.
fn refused(accepted: &Accepted, video: &[u32], cursor: &[u32], index: usize, entries: usize) -> u32 {
    let (mut list, mut lent) = (video.to_vec(), vec![Entry::EMPTY; entries]);
    let told = accepted.replace(&mut list, cursor, 0, index, 99, &mut lent).unwrap_err();
    assert_eq!((list.as_slice(), lent, told.detail), (video, vec![Entry::EMPTY; entries], 0));
    told.number
}

#[test]
fn a_refused_replacement_changes_nothing() {
    let (accepted, video) = two_rasters();
    assert_eq!(refused(&accepted, &video[1..], &[], 9, 0), 11);
    assert_eq!(refused(&accepted, &video, &[0], 9, 0), 11);
    for index in [2, 1 << 32, 1 << 62, usize::MAX] {
        assert_eq!(refused(&accepted, &video, &[], index, 0), 18);
    }
    for entries in [0, 1] {
        assert_eq!(refused(&accepted, &video, &[], 1, entries), 13);
        assert_eq!(accepted.summaries_into(&video, &[], 0, &mut vec![Entry::EMPTY; entries]), SHORT);
    }
}

#[test]
fn no_entry_with_the_display_off() {
    let accepted = accepted(&small_and(&[0xB000_8000])); // VDE 3, which is VDS
    assert_eq!(accepted.summaries(&[], &[], 0), Ok(vec![]));
    assert_eq!(refused(&accepted, &[], &[], 0, 3), 18);
}

#[test]
fn a_raster_that_the_cursor_covers() {
    let (accepted, video) = two_rasters();
    let cursor = [0x4400_0FFF, 0x4800_0FFF, 0x4C00_0FFF, 0x9800_0000, 0xB800_8000, 0xBC00_C000]; // at 6, raster 3
    assert_eq!(not_accepted(accepted.record(), &cursor), (19, 0)); // HS 4 at 24 MHz
    let sync = [0xE000_0008, 0x8400_C000, 0x8801_0000]; // HS 8 at 8 MHz, BS 9
    let accepted = accepted.into_record().load_and_check(&[&cursor[..], &sync].concat()).unwrap();
    let second = Entry { marks: 8, least: 40, greatest: 40 };
    assert_eq!(accepted.summaries(&video, &[u32::MAX; 2], 0), Ok(vec![Entry::EMPTY, second]));
    let first = Entry { marks: 7, least: 5, greatest: 35 };
    assert_eq!(accepted.summaries(&video, &[1 << 10, 0], 0), Ok(vec![first, second]));
}

const FULL: Refusal = Refusal { number: 16, detail: 0 };
const EMPTY: Refusal = Refusal { number: 17, detail: 0 };

#[test]
fn a_queue_from_fresh_to_full_and_empty() {
    for (kind, depth, coming) in
        [(Queue::VIDEO, 8, 0), (Queue::CURSOR, 4, 0), (Queue::SOUND, 4, 4), (u16::MAX, 4, 4)]
    {
        let mut queue = Queue::fresh(kind);
        assert_eq!(queue, Queue { words: [0; 8], kind, taken: 0, place: 0, held: 0, coming, count: 0 });
        assert_eq!(queue.read(0), Reply { count: 0, asks: coming == 4, answer: Err(EMPTY) });
        for i in 0..depth {
            assert_eq!(queue.load(i), Reply { count: u64::from(i) + 1, asks: false, answer: Ok(()) });
        }
        assert_eq!(queue.load(99), Reply { count: depth.into(), asks: false, answer: Err(FULL) });
        let bytes: Vec<u8> = (0..4 * depth).map(|_| queue.read(0).answer.unwrap()).collect();
        assert_eq!(bytes, (0..depth).flat_map(u32::to_le_bytes).collect::<Vec<_>>());
        assert_eq!(
            queue.read(0),
            Reply { count: depth.into(), asks: kind != Queue::CURSOR, answer: Err(EMPTY) }
        );
    }
}

#[test]
fn vertical_sync_empties_on_raster_0() {
    for kind in [Queue::VIDEO, Queue::CURSOR, Queue::SOUND] {
        let mut queue = Queue::fresh(kind);
        queue.ask(3);
        queue.load(5).answer.unwrap();
        let held = queue.clone();
        assert_eq!((queue.vertical_sync(1).count, &queue), (1, &held));
        let after = if kind == Queue::SOUND { held } else { Queue::fresh(kind) };
        assert_eq!((queue.vertical_sync(0).count, &queue), (after.count, &after));
    }
}

#[test]
fn a_queue_that_is_not_fit_is_replaced() {
    let unfit = Queue { place: 4, count: u64::MAX, ..Queue::fresh(Queue::CURSOR) };
    let calls: [fn(&mut Queue); 3] = [
        |queue| assert_eq!(queue.read(0), Reply { count: 0, asks: false, answer: Err(EMPTY) }),
        |queue| assert_eq!(queue.vertical_sync(7), Reply { count: 0, asks: false, answer: () }),
        |queue| assert_eq!(queue.ask(0), Reply { count: 0, asks: false, answer: () }),
    ];
    for call in calls {
        let mut queue = unfit.clone();
        call(&mut queue);
        assert_eq!(queue, Queue::fresh(Queue::CURSOR));
    }
    let mut fit = Queue { place: 3, ..unfit };
    assert_eq!(fit.load(1), Reply { count: u64::MAX, asks: false, answer: Err(FULL) });
}

#[test]
fn what_a_rasters_sync_asks_for() {
    let record = loaded(&small_and(&[0xB800_4000, 0xBC01_4000])); // the cursor from raster 2 to 5
    let asked = |kind| [0, 1, 2, 3, 4, 5, 6, u32::MAX].map(|raster| record.sync_ask(kind, raster));
    assert_eq!(asked(Queue::VIDEO), [0, 0, 0, 8, 0, 0, 0, 0]);
    assert_eq!(asked(Queue::CURSOR), [0, 0, 4, 0, 4, 0, 0, 0]);
    assert_eq!(asked(Queue::SOUND), [0; 8]);
    assert_eq!(Record::new().sync_ask(Queue::VIDEO, 1), 0);
}

#[test]
fn a_refusal_says_number_detail_and_rule() {
    let says = |number, detail| Refusal { number, detail }.to_string();
    assert_eq!(says(2, 5), "refused 2 5: a reserved address, word 5");
    assert_eq!(says(3, 0), "refused 3 0: a needed register is unwritten, address 00H");
    assert_eq!(says(6, 0), "refused 6 0: not HS <= BS <= DS < DE <= BE <= N");
    assert_eq!(
        says(10, 0xC0),
        "refused 10 192: a stereo value is 0, or the sound frequency is below 3, address C0H"
    );
    assert_eq!(says(10, 0), "refused 10 0: a stereo value is 0, or the sound frequency is below 3");
    assert_eq!(says(17, 0), "refused 17 0: read from an empty queue");
    assert_eq!(says(18, 0), "refused 18 0: a word index outside the list");
    assert_eq!(says(19, 0), "refused 19 0: the cursor is on, and 6 * HS is below 5 * the pixel rate in MHz");
    assert_eq!(says(20, 7), "refused 20 7: a camera number above 4,095, number 7");
    assert_eq!(says(21, 0), "refused 21 0: not in the table");
}

#[test]
fn a_refused_record_says_its_refusal() {
    let refused = Record::new().load_and_check(&[]).unwrap_err();
    assert_eq!(refused.to_string(), "refused 3 224: a needed register is unwritten, address E0H");
    assert_eq!(Refusal::from(refused), Refusal { number: 3, detail: 0xE0 });
}
