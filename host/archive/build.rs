//! Links the archive under test: `libdesk.a` in the folder that the
//! environment variable DESK_LIB names. DESK_LINK may name further libraries,
//! separated by spaces, that the archive needs.

fn main() {
    println!("cargo:rerun-if-env-changed=DESK_LIB");
    println!("cargo:rerun-if-env-changed=DESK_LINK");
    let folder = std::env::var("DESK_LIB").expect("DESK_LIB names the folder of libdesk.a");
    let folder = std::path::absolute(folder).expect("DESK_LIB is a path");
    assert!(
        folder.join("libdesk.a").is_file(),
        "libdesk.a is not in {}; give DESK_LIB as an absolute path",
        folder.display()
    );
    println!(
        "cargo:rerun-if-changed={}",
        folder.join("libdesk.a").display()
    );
    println!("cargo:rustc-link-search=native={}", folder.display());
    println!("cargo:rustc-link-lib=static:-bundle=desk");
    for library in std::env::var("DESK_LINK")
        .unwrap_or_default()
        .split_whitespace()
    {
        println!("cargo:rustc-link-lib={library}");
    }
}
