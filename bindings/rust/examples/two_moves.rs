//! Plans two moves, the second of which reads what the first writes, and prints the bytes that submit them.

use dsa_planner::{check, list_of, plan_list, BatchPrice, Descriptor, Refusal, Settings};

fn hex(bytes: &[u8]) -> String {
    bytes.iter().map(|byte| format!("{byte:02x}")).collect()
}

fn main() -> Result<(), Refusal> {
    let settings = Settings {
        greatest_batch: 4,
        greatest_transfer: 4096,
        lone: 10,
        batch: BatchPrice::Flat(14),
        fence: 3,
        staging: 0x10000,
    };
    let first = Descriptor::memory_move(0x1000, 0x2000, 64, 0x8000);
    let second = Descriptor::memory_move(0x2000, 0x4000, 64, 0x8020);
    let planned = plan_list(&settings, &list_of(&[first, second]))?;
    println!("cost {}, marks {:?}", planned.cost, planned.marks);
    println!("portal {}", hex(&planned.portal));
    println!("staging {}", hex(&planned.staging));
    let cost = check(
        &settings,
        &planned.portal,
        &planned.staging,
        &planned.certificate,
    )?;
    println!("checked {cost}");
    Ok(())
}
