//! Stored cases: request files.

use super::cases::Cases;
use super::shapes::*;
use crate::fields::put_field;
use crate::request::{Band, Demand, Request};
use crate::request_file::request_bytes;

pub fn file_cases(cases: &mut Cases) {
    sound_files(cases);
    band_numbers(cases);
    link_counts(cases);
    demand_numbers(cases);
    demand_counts(cases);
    route_files(cases);
    length_limit(cases);
    cut_short(cases);
    bytes_damaged(cases);
    tags_damaged(cases);
    lengths_damaged(cases);
    fields_moved(cases);
    early_ends(cases);
    two_faults_in_band(cases);
    two_faults_in_link(cases);
    two_faults_in_demand(cases);
    two_faults_with_count(cases);
    earlier_field_first(cases);
}

pub type Fields = Vec<(u8, Vec<u8>)>;

/// The worked request's fields: band, two links, three demands.
fn worked_fields() -> Fields {
    vec![
        (1, vec![0xFE, 0xE4, 0x01, 0x80, 0]),
        (2, vec![0, 1]),
        (2, vec![1, 2]),
        (3, vec![0, 10, 0, 2, 0]),
        (3, vec![0, 20, 0, 1, 0, 1]),
        (3, vec![0, 30, 0, 3, 1]),
    ]
}

pub fn joined(fields: &[(u8, Vec<u8>)]) -> Vec<u8> {
    let mut out = Vec::new();
    for (tag, body) in fields {
        put_field(&mut out, *tag, body);
    }
    out
}

/// The worked fields with one put in place of another.
fn replaced(at: usize, tag: u8, body: &[u8]) -> Fields {
    let mut fields = worked_fields();
    fields[at] = (tag, body.to_vec());
    fields
}

/// A file and one more field whose stated length is its own.
pub fn followed(mut file: Vec<u8>, tag: u8, length: u16, body: &[u8]) -> Vec<u8> {
    file.push(tag);
    file.extend_from_slice(&length.to_be_bytes());
    file.extend_from_slice(body);
    file
}

/// A band and a link, and so many of the worked request's fields.
fn first_fields(count: usize) -> Vec<u8> {
    joined(&worked_fields()[..count])
}

fn sound_files(cases: &mut Cases) {
    for request in [worked(384, 0), worked(3, 8), triangle(384), round(5, 9, 2), apart(20, 1)] {
        cases.read(&request_bytes(&request));
    }
    cases.read(&request_bytes(&bare(Band::new(0, 1, 0))));
    cases.read(&request_bytes(&Request::new(Band::new(1, 2, 3), vec![(255, 0), (255, 0), (0, 255)], vec![])));
    let there_and_back = vec![Demand::new(0, 1, &[0]), Demand::new(65535, 1, &[1]), Demand::new(9, 1, &[0])];
    let links = vec![(0, 1), (1, 0), (0, 1)];
    cases.read(&request_bytes(&Request::new(Band::new(-1, 1, 0), links, there_and_back)));
}

pub fn bands_at_the_edges() -> Vec<Band> {
    let mut bands = Vec::new();
    for n0 in [-32768, -402, -401, -400, -399, -1, 1, 399, 400, 401, 402, 32767] {
        bands.push(Band::new(n0, 10, 1));
    }
    for slots in [0, 1, 2, 383, 384, 385, 386, 32768, 65535] {
        bands.push(Band::new(7, slots, 1));
    }
    for guard in [0, 1, 7, 8, 9, 128, 255] {
        bands.push(Band::new(7, 10, guard));
    }
    bands
}

fn band_numbers(cases: &mut Cases) {
    for band in bands_at_the_edges() {
        cases.read(&request_bytes(&bare(band)));
    }
}

fn link_counts(cases: &mut Cases) {
    let band = Band::new(0, 4, 0);
    for count in [63, 64, 65, 66] {
        cases.read(&request_bytes(&Request::new(band.clone(), line(count), vec![])));
    }
    for looped in [0, 5, 63, 64] {
        let mut links = line(65);
        links[looped].1 = links[looped].0;
        cases.read(&request_bytes(&Request::new(band.clone(), links, vec![])));
    }
    cases.read(&joined(&replaced(1, 2, &[0, 0])));
    cases.read(&joined(&replaced(2, 2, &[255, 255])));
}

fn demand_numbers(cases: &mut Cases) {
    for (slots, width) in [(1, 1), (1, 0), (1, 2), (384, 384), (384, 385), (384, 0), (5, 65535), (9, 256)] {
        cases.read(&request_bytes(&stack(slots, 0, &[1, width])));
    }
    for idents in [[0, 65535, 32768], [1, 256, 1], [1, 1, 256], [7, 8, 8], [65535, 0, 65535]] {
        let mut request = worked(384, 0);
        for (demand, ident) in request.demands.iter_mut().zip(idents) {
            demand.ident = ident;
        }
        cases.read(&request_bytes(&request));
    }
}

fn demand_counts(cases: &mut Cases) {
    for count in [199, 200, 201, 202] {
        cases.read(&request_bytes(&many(count)));
    }
}

/// So many demands on one link, more than a frame's request can hold too.
fn many(count: usize) -> Request {
    stack(2, 1, &vec![1; count])
}

fn route_files(cases: &mut Cases) {
    let band = Band::new(0, 4, 0);
    let long: Vec<usize> = (0..33).collect();
    for hops in [1, 2, 31, 32, 33] {
        let demand = Demand::new(3, 1, &long[..hops]);
        cases.read(&request_bytes(&Request::new(band.clone(), line(40), vec![demand])));
    }
    for route in routes_on_a_ring() {
        cases.read(&request_bytes(&Request::new(band.clone(), ring(4), vec![Demand::new(3, 1, &route)])));
    }
}

/// Routes on a ring of four, and a fifth link that is not there: sound ones, all round, breaks, twice, unlisted.
pub fn routes_on_a_ring() -> Vec<Vec<usize>> {
    vec![
        vec![0, 1, 2],
        vec![0, 1, 2, 3],
        vec![3, 0],
        vec![1, 0],
        vec![0, 2],
        vec![0, 0],
        vec![0, 1, 2, 3, 0],
        vec![0, 1, 3],
        vec![4],
        vec![0, 4],
        vec![3, 4],
        vec![255],
        vec![1, 2, 3, 255],
    ]
}

fn length_limit(cases: &mut Cases) {
    let full = request_bytes(&largest());
    cases.read(&full);
    cases.read(&[&full[..], &[0xFF]].concat());
    cases.read(&full[..full.len() - 1]);
    cases.read(&vec![0xFF; 8128]);
    cases.read(&vec![0xFF; 8129]);
    cases.read(&vec![0; 8128]);
    cases.read(&vec![0; 8129]);
    let bad_band = joined(&replaced(0, 1, &[0x40, 0, 0, 0, 0]));
    cases.read(&[&bad_band[..], &vec![3; 8200]].concat());
}

fn cut_short(cases: &mut Cases) {
    let file = joined(&worked_fields());
    for length in 0..file.len() {
        cases.read(&file[..length]);
    }
    for stray in
        [&[0xFF][..], &[3], &[4, 0], &[3, 0], &[3, 0, 5], &[3, 0, 5, 0, 40, 0, 1], &[0xFF, 0, 0], &[0xFF, 0, 1]]
    {
        cases.read(stray);
        cases.read(&[&file[..], stray].concat());
    }
}

fn bytes_damaged(cases: &mut Cases) {
    let file = joined(&worked_fields());
    for at in 0..file.len() {
        for byte in [file[at] ^ 1, file[at] ^ 0x80, 0xFF] {
            let mut damaged = file.clone();
            damaged[at] = byte;
            cases.read(&damaged);
        }
    }
}

fn tags_damaged(cases: &mut Cases) {
    for at in 0..6 {
        for tag in [0, 1, 2, 3, 4, 5, 6] {
            let mut fields = worked_fields();
            fields[at].0 = tag;
            cases.read(&joined(&fields));
        }
    }
}

fn lengths_damaged(cases: &mut Cases) {
    for at in 0..6 {
        let fields = worked_fields();
        let body = &fields[at].1;
        let longer = [&body[..], &[1]].concat();
        let shorter = &body[..body.len() - 1];
        for damaged in [&longer[..], shorter, &[]] {
            cases.read(&joined(&replaced(at, fields[at].0, damaged)));
        }
    }
    for hops in [0, 33, 34] {
        let body: Vec<u8> = [0, 9, 0, 1].into_iter().chain(0..hops).collect();
        cases.read(&joined(&replaced(3, 3, &body)));
    }
    cases.read(&joined(&replaced(5, 3, &[])));
    cases.read(&joined(&replaced(5, 3, &[0, 30])));
}

fn fields_moved(cases: &mut Cases) {
    for at in 0..6 {
        let mut fields = worked_fields();
        fields.remove(at);
        cases.read(&joined(&fields));
        let mut fields = worked_fields();
        fields.insert(at, fields[at].clone());
        cases.read(&joined(&fields));
    }
    for at in 0..5 {
        let mut fields = worked_fields();
        fields.swap(at, at + 1);
        cases.read(&joined(&fields));
    }
    for at in 0..=6 {
        let mut fields = worked_fields();
        fields.insert(at, (4, vec![0, 10, 0, 0]));
        cases.read(&joined(&fields));
    }
}

fn early_ends(cases: &mut Cases) {
    cases.read(&[]);
    cases.read(&first_fields(1));
    let bad_band = joined(&[(1, vec![0, 0, 0, 0, 0])]);
    cases.read(&bad_band);
    cases.read(&[&bad_band[..], &[2]].concat());
    cases.read(&[&first_fields(1)[..], &[2]].concat());
    cases.read(&[&first_fields(1)[..], &[2, 0, 2, 1]].concat());
}

fn two_faults_in_band(cases: &mut Cases) {
    let bad = [0x7F, 0xFF, 0, 0, 9];
    let second = first_fields(6);
    cases.read(&followed(second.clone(), 1, 6, &bad));
    cases.read(&followed(second.clone(), 1, 5, &bad[..4]));
    cases.read(&followed(second.clone(), 1, 4, &bad[..4]));
    cases.read(&followed(second.clone(), 1, 5, &bad));
    cases.read(&followed(first_fields(1), 1, 6, &[0; 6]));
    for length in [3, 4] {
        cases.read(&joined(&replaced(0, 1, &bad[..length])));
    }
    cases.read(&joined(&replaced(0, 1, &[0x7F, 0xFF, 0, 0, 9, 9])));
    cases.read(&followed(vec![], 1, 6, &bad));
    cases.read(&followed(vec![], 1, 5, &bad[..2]));
}

fn two_faults_in_link(cases: &mut Cases) {
    let after_demand = first_fields(4);
    cases.read(&followed(after_demand.clone(), 2, 2, &[5]));
    cases.read(&followed(after_demand.clone(), 2, 3, &[5, 5]));
    cases.read(&followed(after_demand.clone(), 2, 3, &[5, 5, 5]));
    cases.read(&followed(after_demand, 2, 2, &[5, 5]));
    cases.read(&followed(vec![], 2, 2, &[5]));
    cases.read(&followed(vec![], 2, 1, &[5]));
    cases.read(&followed(first_fields(2), 2, 3, &[5, 5, 5]));
    cases.read(&followed(first_fields(2), 2, 3, &[5, 5]));
    cases.read(&followed(first_fields(2), 2, 1, &[0]));
    let full = request_bytes(&Request::new(Band::new(0, 4, 0), line(64), vec![]));
    cases.read(&followed(full.clone(), 2, 3, &[1, 2, 3]));
    cases.read(&followed(full.clone(), 2, 2, &[1]));
    cases.read(&followed(full, 2, 2, &[1, 1]));
}

/// A demand after the worked request's, in which two of the tests fail.
fn two_faults_in_demand(cases: &mut Cases) {
    let (seen, new) = (10, 40);
    let file = first_fields(6);
    for (length, body) in [
        (6, vec![0, new, 0, 0, 0]),
        (6, vec![0, seen, 0, 1, 0]),
        (36, vec![0, new, 0, 1, 9]),
        (37, vec![0, seen, 0, 1, 0]),
        (4, vec![0, seen, 0, 1]),
        (4, vec![0, new, 0, 0]),
        (4, vec![0, seen, 0]),
        (3, vec![0, seen, 0]),
        (5, vec![0, seen, 0, 0, 0]),
        (5, vec![0, seen, 2, 0, 1]),
        (5, vec![0, seen, 0, 1, 2]),
        (5, vec![0, new, 0, 0, 2]),
        (6, vec![0, new, 0, 0, 1, 0]),
        (6, vec![0, new, 0, 0, 1, 1]),
        (6, vec![0, seen, 0, 0, 9, 9]),
    ] {
        cases.read(&followed(file.clone(), 3, length, &body));
    }
    let too_long: Vec<u8> = [0, seen, 0, 0].into_iter().chain([9; 33]).collect();
    cases.read(&followed(file, 3, 37, &too_long));
    for (length, body) in [(5, &[0, 1, 0, 1][..]), (4, &[0, 1, 0, 1]), (5, &[0, 1, 0, 0, 9]), (4, &[0, 1, 0])] {
        cases.read(&followed(first_fields(1), 3, length, body));
        cases.read(&followed(vec![], 3, length, body));
    }
}

/// A 201st demand in which another test fails too.
fn two_faults_with_count(cases: &mut Cases) {
    let full = request_bytes(&many(200));
    for (length, body) in [
        (6, vec![1, 0, 0, 1, 0]),
        (4, vec![1, 0, 0, 1]),
        (37, [vec![1, 0, 0, 1], vec![0; 33]].concat()),
        (5, vec![0, 7, 0, 1, 0]),
        (5, vec![1, 0, 0, 0, 0]),
        (5, vec![1, 0, 0, 1, 9]),
    ] {
        cases.read(&followed(full.clone(), 3, length, &body));
    }
    cases.read(&followed(full.clone(), 2, 2, &[1, 1]));
    let mut repeated = many(201);
    repeated.demands[150].ident = 149;
    cases.read(&request_bytes(&repeated));
}

/// File order wins over number order.
fn earlier_field_first(cases: &mut Cases) {
    let wide = vec![0, 10, 2, 0, 0];
    let unlisted = vec![0, 10, 0, 2, 7];
    for body in [wide, unlisted, vec![0, 10, 0, 2]] {
        let file = joined(&replaced(3, 3, &body));
        cases.read(&file[..file.len() - 1]);
        cases.read(&[&file[..], &[0xFF, 0, 0]].concat());
        cases.read(&followed(file.clone(), 3, 4, &[0, 10, 0, 0]));
        cases.read(&followed(file, 3, 5, &[0, 20, 0, 1, 0]));
    }
    let looped = joined(&replaced(1, 2, &[3, 3]));
    cases.read(&looped[..looped.len() - 2]);
    cases.read(&looped[..14]);
    let bad_band = joined(&replaced(0, 1, &[0, 0, 1, 0x81, 0]));
    cases.read(&bad_band[..20]);
    cases.read(&[&bad_band[..8], &[2, 0, 2, 3, 3]].concat());
}
