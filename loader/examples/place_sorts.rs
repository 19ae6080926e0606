//! A loader in ten lines: a plan file in, its sorts placed, the plan file out.
//!
//!     cargo run --example place_sorts PLAN OUT
use sort_placement::{MOST_BYTES, check_order, ensure_sorting};

fn main() -> Result<(), Box<dyn std::error::Error>> {
    let mut paths = std::env::args_os().skip(1);
    let (Some(plan), Some(to)) = (paths.next(), paths.next()) else { return Err("place_sorts PLAN OUT".into()) };
    let plan = std::fs::read(plan)?;
    let mut out = [0; MOST_BYTES];
    let length = ensure_sorting(&plan, &mut out)?;
    assert_eq!(check_order(&out[..length]), Ok(true), "what ensuring answers passes");
    Ok(std::fs::write(to, &out[..length])?)
}
