//! Bytes of stack of each call.

use std::hint::black_box;

use uldrevin::{
    place, publish_into, read_record_into, record_head, sine, tally_into, write_record_into, Sweep,
};

use crate::scene::{hrap, lists_of, Scene};
use crate::stack::used;

/// A record has at most 32,767 gates, so its scan is a smaller one.
const RECORD_SIZE: (u32, u32) = (36, 230);

fn print_row(call: &str, bytes: usize) {
    println!("| {call} | {bytes} |");
}

fn print_records() {
    let mut scan = hrap(RECORD_SIZE.0, RECORD_SIZE.1);
    let (head, mut record) = (scan.head, vec![0; 65_536]);
    let mut length = 0;
    let written = used(|| {
        length = write_record_into(head, scan.gate_lists(), &mut record).expect("a scan that fits");
    });
    let record = &record[..length];
    let read = used(|| {
        read_record_into(
            record,
            &mut scan.azimuths,
            &mut scan.values,
            &mut scan.qualities,
        )
    });
    print_row("record_head", used(|| record_head(record)));
    print_row("read_record_into", read);
    print_row("write_record_into", written);
}

/// All rays are taken at once.
fn print_sweep(scene: &Scene) {
    let (head, mut lists) = (scene.head, lists_of(scene));
    let (entries, sums, cells) = &mut lists.lent();
    let good = "a good scan";
    let mut sweep = Sweep::open(head, sums).expect(good);
    let opened = used(|| sweep = Sweep::open(head, sums).expect(good));
    let rays = scene.gate_lists();
    let taken = used(|| sweep = sweep.take(rays, entries, sums).expect(good));
    let (means, cell_qualities) = (&mut cells.means, &mut cells.cell_qualities);
    let closed = used(|| sweep.close(sums, means, cell_qualities).expect(good));
    print_row("Sweep::open", opened);
    print_row("Sweep::take", taken);
    print_row("Sweep::close", closed);
}

pub fn print_stack(scene: &Scene) {
    let (head, mut lists) = (scene.head, lists_of(scene));
    println!("Bytes of stack, the Rust wrapper's among them");
    println!();
    println!("| call | bytes |");
    println!("|---|---|");
    print_row("sine", used(|| sine(black_box(1))));
    print_row("place", used(|| place(head.site, head.grid, 5, 5)));
    let (entries, sums, cells) = &mut lists.lent();
    let tallied = used(|| tally_into(head, scene.gate_lists(), entries, sums));
    let (means, cell_qualities) = (&mut cells.means, &mut cells.cell_qualities);
    let published = used(|| publish_into(head.weighting, sums, means, cell_qualities));
    print_row("tally_into", tallied);
    print_row("publish_into", published);
    print_sweep(scene);
    print_records();
}
