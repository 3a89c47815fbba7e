//! Encodes blocks, adds noise and decodes them, once by maximum likelihood and once by list decoding with 64 words.
//!
//!     cargo run --manifest-path examples/rust/Cargo.toml --bin noise
use um_examples::Air;

fn run(air: &mut Air, strength: i32) -> Result<(), um::Invalid> {
    let (mut alone, mut among, mut wrong) = (0, 0, 0);
    for _ in 0..100 {
        let octets: [u8; 23] = core::array::from_fn(|_| (air.random() >> 24) as u8);
        let soft = air.soften(&um::send_block(&octets, 7)?, strength);
        alone += i32::from(um::receive_block(&soft)?.accepted().is_some());
        if let Some(received) = um::receive_block_among(&soft, 64)?.0.accepted() {
            among += 1;
            wrong += i32::from(*received != octets);
        }
    }
    println!("noise {strength}: of 100 blocks {alone} by the most likely word, {among} among 64 words, {wrong} wrong");
    Ok(())
}

fn main() -> Result<(), um::Invalid> {
    let mut air = Air::default();
    for strength in [40, 45, 50, 55] {
        run(&mut air, strength)?;
    }
    Ok(())
}
