//! Links the compiled head, the object or archive that HEAD_OBJECT names.

use std::env;

fn main() {
    println!("cargo:rerun-if-env-changed=HEAD_OBJECT");
    let object = env::var("HEAD_OBJECT").expect("HEAD_OBJECT names the head's object or archive");
    println!("cargo:rerun-if-changed={object}");
    println!("cargo:rustc-link-arg-bins={object}");
}
