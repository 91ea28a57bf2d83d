//! Links the mechglue of MIT krb5 and its library (Debian's package libkrb5-dev).

fn main() {
    println!("cargo:rustc-link-lib=dylib=gssapi_krb5");
    println!("cargo:rustc-link-lib=dylib=krb5");
    println!("cargo:rustc-cdylib-link-arg=-Wl,-soname,libmenolavuri_gss.so");
    println!("cargo:rustc-cdylib-link-arg=-Wl,-z,defs,-z,now,-z,relro,-z,noexecstack,-z,nodelete");
}
