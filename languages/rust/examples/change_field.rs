//! Marks each order of a dump as paid, and removes its coupon: change_field IN.bson OUT.bson
use std::fs::File;
use vbson::{DocumentBuilder, DumpReader, DumpWriter, Element};

fn main() -> Result<(), Box<dyn std::error::Error>> {
    let paths: Vec<_> = std::env::args().skip(1).collect();
    let [from, to] = &paths[..] else { return Err("change_field IN.bson OUT.bson".into()) };
    let (mut orders, mut out) = (DumpReader::new(File::open(from)?), DumpWriter::new(File::create(to)?));
    let (mut changed, mut count) = (DocumentBuilder::new(), 0);
    while let Some(order) = orders.read() {
        let order = order?;
        for (key, value) in order.iter().filter(|(key, _)| *key != "coupon") {
            changed.append(key, if key == "paid" { Element::from(true) } else { value.into() })?;
        }
        if order.get("paid").is_none() {
            changed.append("paid", true)?;
        }
        out.write(changed.finish()?)?;
        count += 1;
    }
    out.finish()?;
    println!("{count} orders");
    Ok(())
}
