//! The library beside its peers: the same octets, in turn, on one processor. What is in Rust, mbedTLS, and OpenSSL's calls
//! of single types, are measured in this process; the other libraries in C and Go have programs of their own.

mod calls;
mod inputs;
mod limit;
mod measure;
mod messages;
mod of_asn1;
mod of_der;
mod peers;
mod places;

use calls::octets as here;
use der::asn1::{
    AnyRef, BitString, BitStringRef, ContextSpecific, GeneralizedTime, Int, ObjectIdentifier, OctetString,
    OctetStringRef, PrintableString, PrintableStringRef, SetOfVec, UtcTime, Utf8StringRef,
};
use der::{Decode, DerOrd, Encode, Reader, SliceReader, Tagged};
use inputs::{Numbers, Order, sequence};
use measure::{Goal, Plan, by};
use peers::Peer;
use std::cell::RefCell;
use std::hint::black_box;
use std::path::PathBuf;

const COUNT: usize = 100_000;

fn main() {
    let arguments: Vec<String> = std::env::args().skip(1).collect();
    let argument = |i: usize| arguments.get(i).filter(|word| *word != "-").cloned();
    let room = PathBuf::from(std::env::var("BENCH_ROOM").expect("run this by bench/run"));
    let plan = Plan {
        rows: argument(0).unwrap_or_default(),
        once: argument(1),
        rounds: argument(2).and_then(|rounds| rounds.parse().ok()),
        missing: calls::missing(),
        kept: std::env::var("BENCH_ROWS").ok().and_then(|path| std::fs::File::create(path).ok()).map(RefCell::new),
    };
    for name in &plan.missing {
        println!("not there: {name}, whose calls this program does not have");
    }
    let peers = Peer::all(&room);
    messages::rows(&plan, &room, &peers);
    messages::lists(&plan);
    integers(&plan);
    // What follows compares single types, and shows nothing without the library.
    if calls::ARE_THERE {
        sets(&plan);
        walks(&plan);
        types(&plan);
        owned(&plan);
        comparisons(&plan);
        growth(&plan);
    }
}

fn asn1_integers(octets: &[u8]) -> Vec<i64> {
    asn1::parse_single::<asn1::SequenceOf<'_, i64>>(octets).unwrap().collect()
}

fn integers(plan: &Plan) {
    let mut numbers = Numbers::new(3);
    let values: Vec<i64> = (0..COUNT).map(|_| numbers.integer()).collect();
    let octets = inputs::tlv(0x30, &values.iter().flat_map(|value| inputs::integer(*value)).collect::<Vec<u8>>());
    let (octets, values) = (&octets[..], &values[..]);
    calls::ossl_prepare(octets);
    plan.row("read Vec<i64>", COUNT, 31, &[("asn1", 0.15)], vec![
        by("here", || here::read_i64(octets)),
        by("limit", || limit::read_i64(octets)),
        by("der", || Vec::<i64>::from_der(octets).unwrap().len()),
        by("asn1 0.24", || asn1_integers(octets).len()),
        by("asn1 0.12", || asn1_before::parse_single::<asn1_before::SequenceOf<'_, i64>>(octets).unwrap().collect::<Vec<_>>().len()),
        by("openssl", || calls::ossl_read_i64(octets)),
    ]);
    let kept = values.to_vec();
    plan.row("write Vec<i64>", COUNT, 31, &[("asn1", 0.25)], vec![
        by("here", || calls::library_write_i64(values)),
        by("limit", || limit::write_i64(values).len()),
        by("der", || kept.to_der().unwrap().len()),
        by("asn1 0.24", || asn1::write_single(&asn1::SequenceOfWriter::new(values)).unwrap().len()),
        by("asn1 0.12", || asn1_before::write_single(&asn1_before::SequenceOfWriter::new(values)).unwrap().len()),
        by("openssl", calls::ossl_write_i64),
    ]);
    let magnitudes = sequence(COUNT, || ((numbers.integer() as u64) << 1 >> 1).to_der().unwrap());
    let magnitudes = &magnitudes[..];
    plan.row("read Vec<u64>", COUNT, 31, &[("asn1", 0.33)], vec![
        by("here", || here::read_u64(magnitudes)),
        by("der", || Vec::<u64>::from_der(magnitudes).unwrap().len()),
        by("asn1", || asn1::parse_single::<asn1::SequenceOf<'_, u64>>(magnitudes).unwrap().collect::<Vec<_>>().len()),
    ]);
}

fn asn1_set(octets: &[u8]) -> Vec<i32> {
    let set = asn1::parse_single::<asn1::Tlv<'_>>(octets).unwrap();
    asn1::parse::<_, asn1::ParseError, _>(set.data(), |parser| {
        let mut items = Vec::new();
        while !parser.is_empty() {
            items.push(parser.read_element::<i32>()?);
        }
        Ok(items)
    })
    .unwrap()
}

fn sets(plan: &Plan) {
    for (row, order, most) in [
        ("read a SET, 4,000 falling u16", Order::Falling, 0.5),
        ("read a SET, 4,000 rising u16", Order::Rising, 0.2),
    ] {
        let octets = inputs::integer_set(4000, order);
        plan.row(row, 4000, 41, &[("der", most)], vec![
            by("here", || here::read_set(&octets)),
            by("der", || SetOfVec::<u16>::from_der(&octets).unwrap().len()),
        ]);
    }
    let octets = inputs::integer_set(4000, Order::Falling);
    plan.row("read and write a SET, falling", 4000, 41, &[("asn1", 0.8)], vec![
        by("here", || here::rewrite_set(&octets)),
        by("der", || SetOfVec::<u16>::from_der(&octets).unwrap().to_der().unwrap().len()),
        by("asn1", || asn1::write_single(&asn1::SetOfWriter::new(asn1_set(&octets))).unwrap().len()),
        by("openssl", || calls::ossl_rewrite_set(&octets)),
    ]);
}

fn der_walk(octets: &[u8]) -> usize {
    let mut reader = SliceReader::new(octets).unwrap();
    let mut count = 0;
    while !reader.is_finished() {
        let value = AnyRef::decode(&mut reader).unwrap();
        count += 1;
        if Tagged::tag(&value).is_constructed() {
            count += der_walk(value.value());
        }
    }
    count
}

fn asn1_walk(octets: &[u8]) -> usize {
    asn1::parse::<usize, asn1::ParseError, _>(octets, |parser| {
        let mut count = 0;
        while !parser.is_empty() {
            let value = parser.read_element::<asn1::Tlv<'_>>()?;
            count += 1;
            if value.full_data()[0] & 0x20 != 0 {
                count += asn1_walk(value.data());
            }
        }
        Ok(count)
    })
    .unwrap()
}

fn walks(plan: &Plan) {
    let walk = |row: &str, most: f64, octets: &[u8]| {
        plan.row(row, inputs::count(octets), 41, &[("openssl", most)], vec![
            by("here", || here::walk(octets)),
            by("headers", || here::walk_headers(octets)),
            by("der", || der_walk(octets)),
            by("asn1", || asn1_walk(octets)),
            by("openssl", || calls::ossl_walk(octets)),
        ]);
    };
    walk("walk a tree", 0.7, &inputs::tree());
    if let Some(octets) = inputs::certificates() {
        walk("walk certificates", 0.55, &octets);
    }
}

/// A row for reading a SEQUENCE OF a type, and one for reading and writing it.
macro_rules! of_type {
    ($plan:expr, $name:literal, $octets:expr, $read:ident, $rewrite:ident, $der:ty, $goals:expr $(, $asn1:ty)?) => {{
        let octets: Vec<u8> = $octets;
        let octets = &octets[..];
        let (read_goal, rewrite_goal): (Option<f64>, Option<f64>) = $goals;
        let goals = |most: Option<f64>| -> Vec<Goal> { most.map(|most| ("der", most)).into_iter().collect() };
        $plan.row(concat!("read ", $name), COUNT, 25, &goals(read_goal), vec![
            by("here", || here::$read(octets)),
            by("der", || Vec::<$der>::from_der(octets).unwrap().len()),
            $(by("asn1", || asn1::parse_single::<asn1::SequenceOf<'_, $asn1>>(octets).unwrap().collect::<Vec<_>>().len()),)?
        ]);
        $plan.row(concat!("read and write ", $name), COUNT, 25, &goals(rewrite_goal), vec![
            by("here", || here::$rewrite(octets)),
            by("der", || Vec::<$der>::from_der(octets).unwrap().to_der().unwrap().len()),
            $(by("asn1", || {
                let values = asn1::parse_single::<asn1::SequenceOf<'_, $asn1>>(octets).unwrap().collect::<Vec<_>>();
                asn1::write_single(&asn1::SequenceOfWriter::new(&values[..])).unwrap().len()
            }),)?
        ]);
    }};
}

fn types(plan: &Plan) {
    let mut numbers = Numbers::new(1);
    let bits = sequence(COUNT, || inputs::bit_string(&mut numbers));
    of_type!(plan, "BIT STRING", bits, read_bits, rewrite_bits, BitStringRef, (None, Some(0.4)), asn1::BitString<'_>);
    let printable = sequence(COUNT, || inputs::printable_string(&mut numbers));
    of_type!(plan, "PrintableString", printable, read_printable, rewrite_printable, PrintableStringRef, (Some(0.5), None), asn1::PrintableString<'_>);
    let octets = sequence(COUNT, || inputs::octet_string(&mut numbers));
    of_type!(plan, "OCTET STRING", octets, read_octets, rewrite_octets, &OctetStringRef, (None, None), &[u8]);
    let utf8 = sequence(COUNT, || inputs::utf8_string(&mut numbers));
    of_type!(plan, "UTF8String", utf8, read_utf8, rewrite_utf8, Utf8StringRef, (None, None), asn1::Utf8String<'_>);
    let oids = sequence(COUNT, || inputs::object_identifier(&mut numbers));
    of_type!(plan, "OBJECT IDENTIFIER", oids, read_oid, rewrite_oid, ObjectIdentifier<39>, (None, None), asn1::ObjectIdentifier);
    let times = sequence(COUNT, || inputs::utc_time(&mut numbers));
    of_type!(plan, "UTCTime", times, read_utc, rewrite_utc, UtcTime, (None, None), asn1::UtcTime);
    let times = sequence(COUNT, || inputs::generalized_time(&mut numbers));
    of_type!(plan, "GeneralizedTime", times, read_time, rewrite_time, GeneralizedTime, (None, None), asn1::GeneralizedTime);
    let truths = sequence(COUNT, || inputs::tlv(0x01, &[if numbers.below(2) == 0 { 0 } else { 0xff }]));
    of_type!(plan, "BOOLEAN", truths, read_bool, rewrite_bool, bool, (None, None), bool);
    let tagged = sequence(COUNT, || {
        let value = inputs::integer(numbers.below(128) as i64);
        inputs::tlv(0xa0 | numbers.below(31) as u8, &value)
    });
    of_type!(plan, "[n] EXPLICIT u8", tagged, read_explicit, rewrite_explicit, ContextSpecific<u8>, (None, None));
}

fn owned(plan: &Plan) {
    let mut numbers = Numbers::new(1);
    let bits = sequence(COUNT, || inputs::bit_string(&mut numbers));
    of_type!(plan, "owned BIT STRING", bits, read_bits_owned, rewrite_bits_owned, BitString, (None, None));
    let octets = sequence(COUNT, || inputs::octet_string(&mut numbers));
    of_type!(plan, "owned OCTET STRING", octets, read_octets_owned, rewrite_octets_owned, OctetString, (None, None));
    let utf8 = sequence(COUNT, || inputs::utf8_string(&mut numbers));
    of_type!(plan, "owned UTF8String", utf8, read_string_owned, rewrite_string_owned, String, (None, None));
    let printable = sequence(COUNT, || inputs::printable_string(&mut numbers));
    of_type!(plan, "owned PrintableString", printable, read_printable_owned, rewrite_printable_owned, PrintableString, (None, None));
    let integers = sequence(COUNT, || {
        let mut contents = numbers.octets(64);
        contents[0] = 0x40 | contents[0] & 0x3f;
        inputs::tlv(0x02, &contents)
    });
    of_type!(plan, "owned INTEGER of 64 octets", integers, read_int_owned, rewrite_int_owned, Int, (None, None));
}

fn less<T: DerOrd>(a: &[T], b: &[T]) -> usize {
    black_box(a).iter().zip(b).filter(|(x, y)| x.der_cmp(y).unwrap().is_lt()).count()
}

fn comparisons(plan: &Plan) {
    let mut numbers = Numbers::new(3);
    let a: Vec<i64> = (0..COUNT).map(|_| numbers.integer()).collect();
    let mut b = a.clone();
    b.rotate_left(1);
    plan.row("der_cmp of i64", COUNT, 31, &[("der", 0.3)], vec![
        by("here", || calls::library_less_i64(&a, &b)),
        by("der", || less(&a, &b)),
    ]);
    for (row, differ, most) in [
        ("der_cmp of 32 octets, first differs", true, 0.3),
        ("der_cmp of 32 octets, equal", false, 0.45),
    ] {
        let strings: Vec<Vec<u8>> = (0..2000).map(|_| numbers.octets(32)).collect();
        let encoded = |differ: bool| {
            let mut strings = strings.iter();
            sequence(2000, || {
                let mut string = strings.next().unwrap().clone();
                string[0] ^= u8::from(differ);
                inputs::tlv(0x04, &string)
            })
        };
        let (x, y) = (encoded(false), encoded(differ));
        let (a, b) = (Vec::<&OctetStringRef>::from_der(&x).unwrap(), Vec::<&OctetStringRef>::from_der(&y).unwrap());
        plan.row(row, 2000 * 50, 25, &[("der", most)], vec![
            by("here", || calls::library_less_octets(&x, &y, 50)),
            by("der", || (0..50).map(|_| less(&a, &b)).sum()),
        ]);
    }
    let (a, mut b) = (a[..1000].to_vec(), a[..1000].to_vec());
    b[999] ^= 1;
    let (x, y) = (a.to_der().unwrap(), b.to_der().unwrap());
    plan.row("der_cmp of 1,000 i64, last differs", 1000 * 100, 25, &[("der", 0.15)], vec![
        by("here", || calls::library_less_list(&x, &y, 100)),
        by("der", || (0..100).map(|_| usize::from(black_box(&a).der_cmp(&b).unwrap().is_lt())).sum()),
    ]);
}

fn growth(plan: &Plan) {
    for count in [1_000, 4_000, 16_000, 64_000, 160_000, 256_000] {
        for (name, order) in [("rising", Order::Rising), ("falling", Order::Falling), ("random", Order::Random)] {
            let row = format!("SET of {count} octets {name}");
            if !plan.has(&row) {
                continue;
            }
            let octets = inputs::octet_set(count, order);
            plan.row(&row, count, 9, &[], vec![
                by("here", || here::read_octet_set(&octets)),
                by("der", || SetOfVec::<&OctetStringRef>::from_der(&octets).unwrap().len()),
            ]);
        }
    }
}
