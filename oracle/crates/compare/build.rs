fn main() {
    let folder = std::env::var("RATTLE_ARCHIVES").expect("RATTLE_ARCHIVES names the folder of libgerg_api.a");
    println!("cargo:rustc-link-search=native={folder}");
    println!("cargo:rustc-link-lib=static=gerg_api");
    println!("cargo:rerun-if-env-changed=RATTLE_ARCHIVES");
    println!("cargo:rerun-if-changed={folder}/libgerg_api.a");
}
