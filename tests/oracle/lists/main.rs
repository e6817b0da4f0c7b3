//! Writes the lists that the gate's programs replay. `lists ROOT` writes crates/*_cases/data below ROOT; the formats are in
//! tests/oracle/README.md. The same bytes come out each time.
mod c6;
mod convert;
mod curve;
mod decode;
mod desk;
mod fields;
mod list;
mod logs;
mod maps;
mod s2;
mod samples;
mod short_c6;
mod short_s2;
mod views;

fn main() {
    let root = std::env::args().nth(1).expect("usage: lists ROOT");
    let mut total = 0;
    for list in [
        fields::fields(),
        fields::bytes(),
        maps::good_maps(),
        maps::maps(),
        fields::short_fields(),
        fields::short_bytes(),
        maps::short_maps(),
        views::views(),
        decode::decode(),
        convert::convert(),
        convert::fill(),
        convert::stretches(),
        decode::short_decode(),
        samples::samples(),
        s2::calls(),
        short_s2::calls(),
        c6::map_list(),
        c6::calls(),
        short_c6::calls(),
        curve::tables(),
        curve::single(),
    ] {
        total += list.save(&root);
    }
    total += desk::save(&root);
    println!("{total} bytes in all");
}
