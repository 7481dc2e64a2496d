# What scripts/speed/beside.sh and scripts/speed/against.sh have in common: to be sourced at the top of the repository.
# `script` is the name of the script, `work` a folder, `cpu` a processor, and `crate` the folder of the Rust crate's
# sources.
here=$PWD/scripts/speed/comparison
fail() { echo "$script: $1" >&2; [ ! -f "$work/log" ] || tail -n 20 "$work/log" >&2; exit 2; }

# set_crate FOLDER: where the Rust crate's sources are.
set_crate() {
  [ -n "$1" ] || {
    echo "$script: where are the Rust crate's sources? Give their folder, or set BITCODE to it" >&2
    exit 2
  }
  crate=$(cd "$1" && pwd) || exit 2
}

# start_ours FOLDER: in the folder `ours` there, the libraries of the repository at hand and a crate for the calls.
start_ours() {
  ours=$1/ours/crates/ours
  rm -rf "$1/ours" && mkdir -p "$1/ours" || exit 2
  copy_libraries "$1/ours" || exit 2
  mkdir -p "$ours" || exit 2
  for set in scripts/own_types/sets/{log,mesh,minecraft,mk48}.txt "$here/borrowed.txt"; do
    [ ! -f "$set" ] || scripts/new_type "$set" "$ours" >"$work/log" 2>&1 || fail "the types of $set are not written"
  done
  scripts/new_type "$here/types.txt" "$ours" >"$work/log" 2>&1 &&
    scripts/second_format "$here/recursive_types.txt" "$ours" >"$work/log" 2>&1 || fail "the types are not written"
  libraries="bitcode $(sed -n 's/^ours: //p' "$work/log")"
  for part in specs proofs; do sed -n "/^-- $part/{n;p}" "$work/log" >"$ours/$part/Lib.antt" || exit 2; done
}

# unproved_ours FOLDER: libours.a there, compiled without a proof.
unproved_ours() {
  start_ours "$1"
  "$here/exports.py" rattle program >"$ours/src/main.rt" && echo "ours: $libraries" >>"$1/ours/crates.txt" || exit 2
  "$here/unproved.py" "$ours" "$1" "$cpu" >"$work/log" 2>&1 || fail "the library does not compile"
}

# proved_ours FOLDER: the same, proved. `rt ci` proves the library, unless it has done so on this machine; `rt lib`
# would prove it anew.
proved_ours() {
  start_ours "$1"
  local crate part file kit words calls=$1/calls
  mv "$ours" "$calls" && rm -rf "$1/ours/crates" && mkdir "$1/ours/crates" && >"$1/ours/crates.txt" || exit 2
  for crate in $(library_crates); do
    mkdir "$1/ours/crates/$crate" && grep "^$crate:" crates.txt >>"$1/ours/crates.txt" || exit 2
    for part in src specs proofs; do
      [ ! -d "crates/$crate/$part" ] || cp -r "crates/$crate/$part" "$1/ours/crates/$crate" || exit 2
    done
  done
  (cd "$1/ours" && rt ci) >"$work/log" 2>&1 || fail "the libraries are not proved"

  "$here/exports.py" rattle library >"$calls/src/lib.rt" || exit 2
  # A check rejects files that no `mod` names: those of types of workloads that are left out.
  for file in "$calls"/src/*.rt; do
    [ "${file##*/}" = lib.rt ] || grep -qx "pub mod $(basename "$file" .rt);" "$calls/src/lib.rt" || rm "$file"
  done
  kit=$(dirname "$(rt doc)")
  words=(--crate-name ours src/lib.rt --crate-type staticlib --cpu "$cpu" --links ours=)
  words+=(--extern "std=$kit/rlibs/std.rlib")
  for crate in $libraries; do words+=(--extern "$crate=$1/ours/crates/$crate/out/rlib/$crate.rlib"); done
  for crate in $(library_crates); do words+=(-L "dependency=$1/ours/crates/$crate/out/rlib"); done
  words+=(-L "dependency=$kit/rlibs" --antt-project "$kit/rattle/logic/antt-project.json")
  words+=(--logic-built "$kit/logic_built" --toolchain "$kit/toolchain" --incremental "$1/checked" --jobs "$(nproc)")
  mkdir -p "$1/checked" || exit 2
  (cd "$calls" && rattle build "${words[@]}" -o "$1/libours.a") >"$work/log" 2>&1 || fail "the calls are not proved"
}

# build_driver LIBRARY..: the driver, linked with libours.a and the other libraries of `work`, `ours` among them.
build_driver() {
  cp "$(dirname "$(rt doc)")"/c/lib{libc_c,os_c}.a "$work" || exit 2

  # The Rust crate, and the program that runs all of them.
  local driver=$work/driver registry text path library
  rm -rf "$driver/bitcode" && mkdir -p "$driver/src" && cp "$here/driver.rs" "$driver/src/main.rs" || exit 2
  "$here/exports.py" rust $([ $# = 1 ] || echo before) >"$driver/table.rs" || exit 2
  registry=${REGISTRY:-}
  if [ -f "$crate/Cargo.toml" ]; then
    cp -r "$crate/." "$driver/bitcode" || exit 2
  else
    registry=${registry:-/usr/share/cargo/registry}
    compgen -G "$registry/bincode-1.3*" >"$work/log" ||
      fail "$registry has no bincode 1.3: install the packages that this script names"
    for text in "$crate"/src--src--*.rs.txt; do
      path=${text##*/src--} path=$driver/bitcode/$(echo "${path%.txt}" | sed 's/--/\//g')
      mkdir -p "${path%/*}" && cp "$text" "$path" || exit 2
    done
    mkdir -p "$driver/bytemuck/src" && cp "$here/bytemuck.rs" "$driver/bytemuck/src/lib.rs" || exit 2
    touch "$driver/bitcode/README.md" || exit 2
    printf '%s\n' '[package]' 'name = "bytemuck"' 'version = "1.14.0"' 'edition = "2021"' >"$driver/bytemuck/Cargo.toml"
    printf '%s\n' '[package]' 'name = "bitcode"' 'version = "0.6.9"' 'edition = "2021"' '[features]' \
      'default = ["std", "serde", "arrayvec", "uuid"]' 'std = ["serde?/std"]' 'serde = ["dep:serde"]' 'derive = []' \
      'glam = []' 'rust_decimal = []' 'time = []' '[dependencies]' \
      'bytemuck = { path = "../bytemuck" }' \
      'arrayvec = { version = "0.7", default-features = false, optional = true }' \
      'serde = { version = "1.0", default-features = false, features = ["alloc"], optional = true }' \
      'uuid = { version = "1", default-features = false, optional = true }' >"$driver/bitcode/Cargo.toml"
  fi
  cat "$here/glue.rs" >>"$driver/bitcode/src/derive/mod.rs" || exit 2
  printf '%s\n' '[package]' 'name = "driver"' 'version = "0.1.0"' 'edition = "2021"' '[workspace]' '[dependencies]' \
    "bitcode = { path = \"bitcode\" }" 'bincode = "1.3"' 'serde = { version = "1.0", features = ["derive"] }' \
    '[profile.release]' 'opt-level = 3' >"$driver/Cargo.toml"
  {
    printf '%s\n' 'fn main() {' "    println!(\"cargo:rustc-link-search=native=$work\");"
    for library in "$@" libc_c os_c; do
      printf '%s\n' "    println!(\"cargo:rustc-link-lib=static=$library\");" \
        "    println!(\"cargo:rerun-if-changed=$work/lib$library.a\");"
    done
    echo '}'
  } >"$driver/build.rs"
  if [ -n "$registry" ]; then
    mkdir -p "$driver/.cargo"
    printf '%s\n' '[source.crates-io]' 'replace-with = "here"' '[source.here]' "directory = \"$registry\"" \
      '[net]' 'offline = true' >"$driver/.cargo/config.toml"
  fi
  (cd "$driver" && TABLE=$driver/table.rs SETS=$here/sets.rs RUSTFLAGS="-C target-cpu=$cpu" cargo build --release) >"$work/log" 2>&1 ||
    fail "the driver is not built"
}
