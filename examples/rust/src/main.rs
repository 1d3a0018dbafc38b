//! Class loaders come and go in plain Rust, through a safe wrapper that owns the handle.
use classes::metaspace::{Kind, Metaspace, Refused, Settings, Space};
use std::thread;

fn main() -> Result<(), Refused> {
    let settings = Settings { nodes: 64, class_nodes: 1, max_granules: 8192 };
    let refused = Metaspace::new(&Settings { nodes: 65, ..settings }).err().map(|refused| refused.refusal);
    println!("65 nodes: {refused:?}");
    let mut metaspace = Metaspace::new(&settings)?;
    for loader in [1, 2] {
        metaspace.new_loader(loader, Kind::Standard)?;
        for (block, words) in [(1, 100), (2, 4000)] {
            let made = metaspace.alloc(Space::NonClass, loader, block, words)?;
            println!("loader {loader}, {words} words: at {}, granules {:?} came", made.start, made.run.numbers());
        }
    }
    println!("word 8200 is loader {:?}'s, word 100000 {:?}", metaspace.holder(8200), metaspace.holder(100000));
    metaspace.free_block(1, 0, 100)?;
    println!("100 words at 0 once more: {:?}", metaspace.free_block(1, 0, 100).err().map(|refused| refused.refusal));
    println!("600000 words: {:?}", metaspace.alloc(Space::NonClass, 1, 3, 600000).err());
    println!("10 words of a class: at {}", metaspace.alloc(Space::Class, 2, 3, 10)?.start);
    println!("loader 1: {:?}", metaspace.loader_totals(1)?.space);
    println!("loader 3: {:?}", metaspace.loader_totals(3).err().map(|refused| refused.refusal));
    println!("committed granules: {}, {:?}", metaspace.counts().granules, metaspace.granules(0, 2));
    // The system goes to another thread, which ends a loader, and comes back.
    let unloading = thread::spawn(move || metaspace.unload(2).map(|()| metaspace));
    let mut metaspace = unloading.join().expect("the thread ends")?;
    println!("committed granules: {}, used by loader 1: {}", metaspace.counts().granules, metaspace.used_by(1));
    metaspace.unload(1)?;
    println!("committed granules: {}, nodes given back: {}", metaspace.counts().granules, metaspace.purge()?);
    Ok(())
}
