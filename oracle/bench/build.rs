//! Links libframes_c.a from the folder that CUTHRANSI_STATICLIB names.

fn main() {
    println!("cargo:rerun-if-env-changed=CUTHRANSI_STATICLIB");
    if std::env::var_os("CARGO_FEATURE_STANDIN").is_some() {
        return;
    }
    let folder = std::env::var("CUTHRANSI_STATICLIB").expect("CUTHRANSI_STATICLIB is set");
    println!("cargo:rerun-if-changed={folder}/libframes_c.a");
    println!("cargo:rustc-link-search=native={folder}");
    println!("cargo:rustc-link-lib=static=frames_c");
}
