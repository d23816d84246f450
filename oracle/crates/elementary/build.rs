fn main() {
    if std::env::var("CARGO_FEATURE_PLATFORM").is_err() {
        let folder = std::env::var("RATTLE_ARCHIVES").expect("RATTLE_ARCHIVES names the folder of libelementary.a");
        println!("cargo:rustc-link-search=native={folder}");
        println!("cargo:rustc-link-lib=static=elementary");
        println!("cargo:rerun-if-env-changed=RATTLE_ARCHIVES");
        println!("cargo:rerun-if-changed={folder}/libelementary.a");
    }
}
