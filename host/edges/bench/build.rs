fn main() {
    let folder = std::env::var("PROVED").expect("PROVED: the folder of libspeed.a");
    println!("cargo:rustc-link-search=native={folder}");
    println!("cargo:rustc-link-lib=static=speed");
    println!("cargo:rerun-if-env-changed=PROVED");
    println!("cargo:rerun-if-changed={folder}/libspeed.a");
}
