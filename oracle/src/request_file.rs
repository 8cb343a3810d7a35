//! Request files read and written.

use crate::fields::{field_at, put_field, put_two, two, whole_fields, Field};
use crate::rates::{width_of, Asked, BY_RATE, BY_WIDTH};
use crate::request::{refuse, Band, Demand, Refusal, Request};
use crate::rules::{Rules, FIELDS, REQUEST};
use crate::slips::Slip;
use crate::sound::{band_fault, demand_fault, link_fault, test_request};

const BAND: u8 = 1;
const LINK: u8 = 2;

/// What was read so far.
struct Reading {
    band_read: bool,
    request: Request,
}

pub fn read_request(file: &[u8], rules: &Rules) -> Result<Request, Refusal> {
    let mut reading = Reading { band_read: false, request: Request::new(Band::new(0, 0, 0), vec![], vec![]) };
    for &check in &rules.checks.request_file {
        match check {
            20 => test_length(file, rules)?,
            FIELDS => read_fields(file, &mut reading, rules)?,
            _ => test_early_end(file, rules)?,
        }
    }
    Ok(reading.request)
}

/// The place of 20 is the limit, not the length.
fn test_length(file: &[u8], rules: &Rules) -> Result<(), Refusal> {
    let limit = rules.limits.request_bytes;
    if file.len() > limit {
        return refuse(20, if rules.slips(Slip::LongFilePlaceLength) { file.len() } else { limit });
    }
    Ok(())
}

/// 2 at the file length: the fields end without a band or a link.
fn test_early_end(file: &[u8], rules: &Rules) -> Result<(), Refusal> {
    let fields = whole_fields(file);
    let missing = |tag: u8| !fields.iter().any(|field| field.tag == tag);
    if missing(BAND) || (missing(LINK) && !rules.slips(Slip::NoLinkAccepted)) {
        return refuse(2, early_end_place(file, &fields, rules));
    }
    Ok(())
}

fn early_end_place(file: &[u8], fields: &[Field], rules: &Rules) -> usize {
    match rules.slip {
        Slip::EarlyEndAtZero => 0,
        Slip::EarlyEndAtLastField => fields.last().map_or(0, |field| field.offset),
        _ => file.len(),
    }
}

fn read_fields(file: &[u8], reading: &mut Reading, rules: &Rules) -> Result<(), Refusal> {
    let mut offset = 0;
    let mut index = 0;
    while offset < file.len() {
        if rules.slips(Slip::StrayBytesIgnored) && file.len() - offset < 3 && offset > 0 {
            return Ok(());
        }
        let field = field_at(file, offset);
        test_field(&field, index, reading, rules)?;
        take_field(&field, reading, rules);
        offset += 3 + field.length;
        index += 1;
    }
    Ok(())
}

fn test_field(field: &Field, index: usize, reading: &Reading, rules: &Rules) -> Result<(), Refusal> {
    for &number in field_checks(field.tag, rules) {
        if field_fault(number, field, reading, rules) {
            return refuse(number, field_place(number, field, index, reading, rules));
        }
    }
    Ok(())
}

fn field_checks(tag: u8, rules: &Rules) -> &[u8] {
    match tag {
        BAND => &rules.checks.band_field,
        LINK => &rules.checks.link_field,
        BY_WIDTH | BY_RATE => &rules.checks.demand_field,
        _ => &rules.checks.other_field,
    }
}

fn field_place(number: u8, field: &Field, index: usize, reading: &Reading, rules: &Rules) -> usize {
    match rules.slip {
        Slip::FieldIndexAsPlace => index,
        Slip::BodyOffsetAsPlace => field.offset + 3,
        Slip::RateAsPlace if number == 21 => two(field.body, 2) as usize,
        Slip::ListingAsPlaceInFile if number >= 6 => reading.request.demands.len(),
        _ => field.offset,
    }
}

fn field_fault(number: u8, field: &Field, reading: &Reading, rules: &Rules) -> bool {
    match number {
        1 => !field.whole,
        2 => !may_stand(field.tag, reading, rules),
        3 => !right_length(field, rules),
        4 => band_fault(&band_of(field, rules), rules),
        5 => link_refused(field, reading, rules),
        _ => demand_refused(number, field, reading, rules),
    }
}

/// The band, then the links, at least one, then the demands, if any, by width and by rate as they come.
fn may_stand(tag: u8, reading: &Reading, rules: &Rules) -> bool {
    let demands = &reading.request.demands;
    match tag {
        BAND => !reading.band_read || rules.slips(Slip::SecondBandAllowed),
        LINK => reading.band_read && (demands.is_empty() || link_let_in(demands, rules)),
        BY_WIDTH | BY_RATE => reading.band_read && links_done(tag, reading, rules) && in_turn(tag, demands, rules),
        _ => false,
    }
}

/// No link stands behind a demand, of either kind.
fn link_let_in(demands: &[Demand], rules: &Rules) -> bool {
    match rules.slip {
        Slip::LinkAfterDemandAllowed => true,
        Slip::RateEndsNoLinks => demands.iter().all(|demand| demand.asked.is_rate()),
        Slip::LinkAfterRateAllowed => demands.last().is_some_and(|demand| demand.asked.is_rate()),
        _ => false,
    }
}

fn links_done(tag: u8, reading: &Reading, rules: &Rules) -> bool {
    let let_in = match rules.slip {
        Slip::NoLinkAccepted => true,
        Slip::RateBeforeLinksAllowed => tag == BY_RATE,
        _ => false,
    };
    !reading.request.links.is_empty() || let_in
}

/// The two kinds stand mixed.
fn in_turn(tag: u8, demands: &[Demand], rules: &Rules) -> bool {
    match rules.slip {
        Slip::WidthAfterRateRefused => tag == BY_RATE || !demands.iter().any(|demand| demand.asked.is_rate()),
        Slip::RateAfterWidthRefused => tag == BY_WIDTH || demands.iter().all(|demand| demand.asked.is_rate()),
        _ => true,
    }
}

fn right_length(field: &Field, rules: &Rules) -> bool {
    match field.tag {
        BAND => field.length == 5,
        LINK => field.length == 2,
        _ => {
            let slips = |slip: Slip| field.tag == BY_RATE && rules.slips(slip);
            let least = 4 + rules.limits.hops_least - slips(Slip::RateWithoutLinks) as usize;
            let most = 4 + rules.limits.hops_most + slips(Slip::RateLongRoute) as usize;
            (least..=most).contains(&field.length)
        }
    }
}

/// 5: count before ends.
fn link_refused(field: &Field, reading: &Reading, rules: &Rules) -> bool {
    let links = &reading.request.links;
    links.len() >= rules.limits.links_most || link_fault(links, link_of(field), rules)
}

fn demand_refused(number: u8, field: &Field, reading: &Reading, rules: &Rules) -> bool {
    let request = &reading.request;
    let rules = rules.instead(Slip::NodeTwiceInMemoryOnly, Slip::LinksComparedOnly);
    demand_fault(number, request, request.demands.len(), Some(&demand_of(field)), &rules)
}

fn take_field(field: &Field, reading: &mut Reading, rules: &Rules) {
    let request = &mut reading.request;
    match field.tag {
        BAND => request.band = band_of(field, rules),
        LINK => request.links.push(link_of(field)),
        _ => request.demands.push(demand_of(field)),
    }
    reading.band_read = true;
    request.link_count = request.links.len();
    request.demand_count = request.demands.len();
}

/// n0 is two's complement.
fn band_of(field: &Field, rules: &Rules) -> Band {
    let n0 = two(field.body, 0);
    let signed = if n0 >= 32768 && !rules.slips(Slip::GridUnsignedInFile) { n0 - 65536 } else { n0 };
    Band::new(signed, two(field.body, 2), *field.body.get(4).unwrap_or(&0) as i64)
}

fn link_of(field: &Field) -> (u8, u8) {
    (*field.body.first().unwrap_or(&0), *field.body.get(1).unwrap_or(&0))
}

fn demand_of(field: &Field) -> Demand {
    let route: Vec<usize> = field.body.iter().skip(4).map(|&link| link as usize).collect();
    let number = two(field.body, 2);
    Demand::asking(two(field.body, 0), Asked::from(field.tag, number).unwrap_or(Asked::Width(number)), &route)
}

/// The request's one encoding.
pub fn request_bytes(request: &Request) -> Vec<u8> {
    written(request, &Rules::right())
}

/// What the writer makes of a request: every demand under the tag by which it came.
pub fn written(request: &Request, rules: &Rules) -> Vec<u8> {
    let mut out = Vec::new();
    put_field(&mut out, BAND, &band_body(&request.band));
    for link in &request.links {
        put_field(&mut out, LINK, &[link.0, link.1]);
    }
    let mut demands: Vec<&Demand> = request.demands.iter().collect();
    if rules.slips(Slip::RatesWrittenLast) {
        demands.sort_by_key(|demand| demand.asked.is_rate());
    }
    for demand in demands {
        let asked = asked_again(demand.asked, rules);
        put_field(&mut out, asked.tag(), &demand_body(demand, asked));
    }
    out
}

fn band_body(band: &Band) -> Vec<u8> {
    let mut body = Vec::new();
    put_two(&mut body, band.n0);
    put_two(&mut body, band.slots);
    body.push(band.guard as u8);
    body
}

/// What is asked for in a written file: what was asked for.
fn asked_again(asked: Asked, rules: &Rules) -> Asked {
    let width = width_of(asked, rules).unwrap_or(0);
    let first_rate = rules.rates.iter().find(|row| row.1 == width).map(|row| Asked::Rate(row.0));
    match rules.slip {
        Slip::RateWrittenAsWidth => Asked::Width(width),
        Slip::RateWrittenUnderWidthTag => Asked::Width(asked.number()),
        Slip::RateWrittenByWidth if asked.is_rate() => first_rate.unwrap_or(asked),
        Slip::WidthWrittenAsRate if !asked.is_rate() => first_rate.unwrap_or(asked),
        _ => asked,
    }
}

fn demand_body(demand: &Demand, asked: Asked) -> Vec<u8> {
    let mut body = Vec::new();
    put_two(&mut body, demand.ident);
    put_two(&mut body, asked.number());
    body.extend(demand.route.iter().map(|&link| link as u8));
    body
}

/// Writes the request into a lent buffer and says how many bytes it took.
pub fn write_request(request: &Request, out: &mut [u8], rules: &Rules) -> Result<usize, Refusal> {
    let bytes = written(request, rules);
    for &check in &rules.checks.request_writer {
        match check {
            REQUEST => test_request(request, rules)?,
            _ => crate::lent::test_room(&[out.len()], bytes.len(), rules)?,
        }
    }
    crate::lent::write(out, &bytes, 0, rules);
    Ok(bytes.len())
}
