//! The three lines of `make N S` by adding up the operations of its machine: no machine is made, and nothing is run.
use std::env;

/// Operation `i` of the firmware, its scripts counted through one after the other: an addition to a field, or a code.
enum Operation {
    Add(usize),
    Push(usize),
}

fn operation(number: u64, i: u64) -> Operation {
    let draw = ((number + 37 * i) % 256) as usize;
    if draw < 128 {
        Operation::Add(draw % 16)
    } else {
        Operation::Push(1 + draw % 8)
    }
}

fn main() {
    let words: Vec<u64> = env::args().skip(1).map(|word| word.parse().expect("a number")).collect();
    let (number, size) = (words[0], words[1]);
    let (mut adds, mut pushes) = (0u64, 0u64);
    let mut cells = [0u8; 16];
    for i in 0..64 * size {
        match operation(number, i) {
            Operation::Add(cell) => {
                adds += 1;
                cells[cell] = cells[cell].wrapping_add(1);
            }
            Operation::Push(code) => {
                pushes += 1;
                cells[code] = cells[code].wrapping_add(1);
            }
        }
    }
    // An addition has at most 10 entries. A pulse counts 1, and 3 for the run of its event. A code counts 1 for its push, 13 for the run
    // of its handler, 30 for two query jobs, and 3 for claims of the controller's event.
    let weight = 10 * adds + 47 * pushes + 32 * size;
    println!("make {number} {size} weight {weight}");
    println!("adds {adds} runs {pushes} notifies {pushes}");
    let shown: Vec<String> = cells.iter().map(|cell| format!("{cell:02X}")).collect();
    println!("cells {}", shown.join(" "));
}
