//! Links this library, which tests/beside/build has proved and written to the folder STATICLIB.

fn main() {
  let folder = std::env::var("STATICLIB").expect("STATICLIB names the folder of libchart_c.a");
  println!("cargo:rustc-link-search=native={folder}");
  println!("cargo:rerun-if-changed={folder}/libchart_c.a");
  println!("cargo:rerun-if-env-changed=STATICLIB");
}
