fn main() {
    let folder = std::env::var("LHF_DIR").expect("LHF_DIR is the folder of liblhf.a");
    println!("cargo:rerun-if-env-changed=LHF_DIR");
    println!("cargo:rustc-link-search=native={folder}");
    println!("cargo:rustc-link-lib=static=lhf");
}
