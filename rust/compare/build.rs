//! Takes the items of crate openjp2 that code packets out of its sources, whole and unchanged. OPENJP2_SRC names the folder of the sources,
//! src of the unpacked crate; without it the comparison with the crate is left out.
//! OPENJPEG_SRC may name the folder of OpenJPEG's t2.c (src/lib/openjp2 of Debian's source package openjpeg2), for the benchmark.
use std::path::{Path, PathBuf};
use std::process::Command;

const T2: &[&str] = &[
    "struct opj_t2",
    "type opj_t2_t",
    "fn opj_t2_putcommacode",
    "fn opj_t2_getcommacode",
    "fn opj_t2_putnumpasses",
    "fn opj_t2_getnumpasses",
    "fn opj_t2_encode_packet",
    "fn opj_t2_read_packet_header",
    "fn opj_t2_read_packet_data",
    "fn opj_t2_skip_packet_data",
    "fn opj_t2_init_seg",
];
const TCD: &[&str] = &["fn opj_tcd_reinit_segment", "fn opj_tcd_is_band_empty"];
const TYPES: &[&str] = &[
    "opj_tcp",
    "opj_tcp_t",
    "opj_simple_mcc_decorrelation_data",
    "opj_simple_mcc_decorrelation_data_t",
    "J2K_MCT_ARRAY_TYPE",
    "MCT_ARRAY_TYPE",
    "opj_mct_data",
    "opj_mct_data_t",
    "opj_tccp",
    "opj_tccp_t",
    "opj_stepsize",
    "opj_stepsize_t",
    "opj_ppx_struct",
    "opj_ppx",
    "opj_cp",
    "opj_cp_t",
    "C2RustUnnamed_0",
    "J2K_QUALITY_LAYER_ALLOCATION_STRATEGY",
    "opj_encoding_param",
    "opj_encoding_param_t",
    "opj_decoding_param",
    "opj_decoding_param_t",
    "opj_tcd_tile",
    "opj_tcd_tile_t",
    "opj_tcd_tilecomp",
    "opj_tcd_tilecomp_t",
    "opj_tcd_resolution",
    "opj_tcd_resolution_t",
    "opj_tcd_band",
    "opj_tcd_band_t",
    "opj_tcd_precinct",
    "opj_tcd_precinct_t",
    "opj_tgt_tree",
    "opj_tgt_tree_t",
    "opj_tgt_node",
    "opj_tgt_node_t",
    "C2RustUnnamed_1",
    "opj_tcd_cblk_dec",
    "opj_tcd_cblk_dec_t",
    "opj_tcd_seg_data_chunk",
    "opj_tcd_seg_data_chunk_t",
    "opj_tcd_seg",
    "opj_tcd_seg_t",
    "opj_tcd_cblk_enc",
    "opj_tcd_cblk_enc_t",
    "opj_tcd_pass",
    "opj_tcd_pass_t",
    "opj_tcd_layer",
    "opj_tcd_layer_t",
];

fn main() {
    println!("cargo:rustc-check-cfg=cfg(openjp2, openjpeg, python)");
    println!("cargo:rerun-if-changed=build.rs");
    openjpeg();
    if Command::new("python3").arg("--version").output().is_ok_and(|output| output.status.success()) {
        println!("cargo:rustc-cfg=python");
    }
    println!("cargo:rerun-if-env-changed=OPENJP2_SRC");
    let Some(src) = std::env::var_os("OPENJP2_SRC").filter(|folder| !folder.is_empty()) else {
        println!("cargo:warning=OPENJP2_SRC is not set: the comparison with crate openjp2's own code is left out");
        return;
    };
    let src = PathBuf::from(src);
    assert!(src.join("t2.rs").exists(), "OPENJP2_SRC is {}, which has no t2.rs", src.display());
    println!("cargo:rustc-cfg=openjp2");
    println!("cargo:rustc-env=OPENJP2_SRC={}", src.canonicalize().unwrap().display());
    let types: Vec<String> = TYPES.iter().map(|name| name.to_string()).collect();
    pick(&src, "t2.rs", |line| T2.iter().any(|item| declares(line, item)));
    pick(&src, "tcd.rs", |line| TCD.iter().any(|item| declares(line, item)));
    pick(&src, "types.rs", |line| {
        types.iter().any(|name| ["struct", "type", "union", "enum"].iter().any(|kind| declares(line, &format!("{kind} {name}"))))
    });
}

/// The line begins this item.
fn declares(line: &str, item: &str) -> bool {
    let line = line.strip_prefix("pub(crate) ").or(line.strip_prefix("pub ")).unwrap_or(line);
    line.strip_prefix(item).is_some_and(|rest| rest.starts_with([' ', '(', ';']))
}

/// Writes the wanted items of a file, with the attributes before each, to OUT_DIR.
fn pick(src: &Path, file: &str, wanted: impl Fn(&str) -> bool) {
    println!("cargo:rerun-if-changed={}", src.join(file).display());
    let text = std::fs::read_to_string(src.join(file)).unwrap();
    let lines: Vec<&str> = text.lines().collect();
    let mut picked = String::new();
    for (i, line) in lines.iter().enumerate() {
        if wanted(line) {
            let first = (0..i).rev().take_while(|j| lines[*j].starts_with("#[")).last().unwrap_or(i);
            let last = (i..lines.len()).find(|j| lines[*j] == "}" || (*j == i && line.ends_with(';'))).unwrap();
            for line in &lines[first..=last] {
                picked.push_str(line);
                picked.push('\n');
            }
        }
    }
    std::fs::write(Path::new(&std::env::var("OUT_DIR").unwrap()).join(file), picked).unwrap();
}

/// Builds OpenJPEG's packet functions with src/openjpeg.c, as a library for release whatever the profile.
fn openjpeg() {
    println!("cargo:rerun-if-env-changed=OPENJPEG_SRC");
    println!("cargo:rerun-if-changed=src/openjpeg.c");
    let Some(src) = std::env::var_os("OPENJPEG_SRC") else { return };
    let out = PathBuf::from(std::env::var("OUT_DIR").unwrap());
    let public = "#define OPJ_HAVE_STDINT_H 1\n#define OPJ_VERSION_MAJOR 2\n#define OPJ_VERSION_MINOR 5\n#define OPJ_VERSION_BUILD 0\n";
    let private = "#define OPJ_HAVE_INTTYPES_H 1\n#define OPJ_PACKAGE_VERSION \"2\"\n#define OPJ_HAVE_POSIX_MEMALIGN\n\
        #define _POSIX_C_SOURCE 200112L\n";
    std::fs::write(out.join("opj_config.h"), public).unwrap();
    std::fs::write(out.join("opj_config_private.h"), private).unwrap();
    let object = out.join("openjpeg.o");
    let mut compile = Command::new("cc");
    compile.args(["-O3", "-DNDEBUG", "-w", "-c", "src/openjpeg.c", "-I"]).arg(&out).arg("-I").arg(&src).arg("-o").arg(&object);
    assert!(compile.status().unwrap().success(), "OpenJPEG's sources did not build");
    assert!(Command::new("ar").arg("crs").arg(out.join("libopenjpeg_packets.a")).arg(&object).status().unwrap().success());
    println!("cargo:rustc-link-search=native={}", out.display());
    println!("cargo:rustc-link-lib=static=openjpeg_packets");
    println!("cargo:rustc-cfg=openjpeg");
}
