# shellcheck shell=bash
# Sourced by the scripts that build the Rust original, which define say, to fail with a message, and root, the top of this repository.

# find_original [SRC [VENDOR]]: sets src, the folder of the Rust text, with scpi/src in it, and vendor, which holds lexical-core 1.0.6
# and what it depends on, one folder a crate as `cargo vendor` writes them.
find_original() {
  src=${1:-$root/../shared/docs/src}
  vendor=${2:-$root/../shared/oracle/vendor}
  [ -d "$src/scpi/src" ] || say "no Rust text: there is no folder $src/scpi/src (Atmelfan/scpi-rs, commit 89353e6062; --src DIR names another)"
  [ -d "$vendor" ] || say "no lexical-core: there is no folder $vendor (1.0.6, as cargo vendor writes it; --vendor DIR names another)"
  command -v cargo >/dev/null || say "cargo is missing (Debian: apt-get install cargo)"
  src=$(cd "$src" && pwd)
  vendor=$(cd "$vendor" && pwd)
}

# is_new STAMP FOLDER..: whether STAMP was written for this text and is newer than it and than the folders.
is_new() {
  local stamp=$1
  shift
  [ "$(cat "$stamp" 2>/dev/null)" = "$src $vendor" ] &&
    [ -z "$(find "$src/scpi/src" "$vendor" "$root/compare/oracle" "$@" -newer "$stamp" -print -quit)" ]
}

# lay_original ROOM: lays the original out in the folder ROOM as the crate `scpi`.
#   tokenizer/, expression/, tree/mod.rs, error.rs, option.rs, parser/mod.rs   byte for byte
#   lib.rs             without the line that needs the crate document_features; `pub mod observed;` added
#   parameters.rs, response/mod.rs                   one accessor each appended
#   tree/command.rs, expression/mod.rs, suffix.rs, the derive macro: stand-ins
lay_original() {
  local room=$1 ours=$root/compare/oracle s=$1/src file
  mkdir -p "$s"/{tree,parser/{tokenizer,expression,response}}
  for file in lib error option tree/mod parser/{mod,parameters,response/mod} \
    parser/tokenizer/{mod,token,util} parser/expression/{channel_list,numeric_list}; do
    cp --no-preserve=mode "$src/scpi/src/$file.rs" "$s/$file.rs"
  done
  sed -i '/document_features/d' "$s/lib.rs"
  echo 'pub mod observed;' >>"$s/lib.rs"
  cat >>"$s/parser/parameters.rs" <<'RS'
impl<'a, 'b> Parameters<'a, 'b> {
    pub fn oracle_tokens(&mut self) -> &mut Peekable<Tokenizer<'b>> {
        self.0
    }
}
RS
  cat >>"$s/parser/response/mod.rs" <<'RS'
impl<'a> ResponseUnit<'a> {
    pub fn oracle_new(fmt: &'a mut dyn Formatter) -> Self {
        ResponseUnit { fmt, result: Ok(()), has_header: false, has_data: false }
    }
}
RS
  cp "$ours/observed.rs" "$s/"
  cp "$ours/command.rs" "$s/tree/"
  cp "$ours/suffix.rs" "$s/parser/"
  cp "$ours/expression_mod.rs" "$s/parser/expression/mod.rs"
  cp -r "$ours/derive" "$room/"
  cat >"$room/Cargo.toml" <<'TOML'
[package]
name = "scpi"
version = "1.0.0"
edition = "2021"
[dependencies]
scpi_derive = { path = "derive" }
lexical-core = { version = "1.0", default-features = false, features = ["power-of-two", "parse-integers", "parse-floats", "write-integers", "write-floats"] }
[features]
std = []
alloc = []
arrayvec = []
uom = []
TOML
}

# cargo_offline ROOM ARG..: cargo in the folder ROOM, with the crates of vendor and no network.
cargo_offline() {
  local room=$1
  shift
  mkdir -p "$room/.cargo"
  cat >"$room/.cargo/config.toml" <<TOML
[source.crates-io]
replace-with = "vendored"
[source.vendored]
directory = "$vendor"
[net]
offline = true
TOML
  (cd "$room" && CARGO_TARGET_DIR=$room/target cargo "$@" --offline -q 2>"$room/log") || { cat "$room/log" >&2; exit 1; }
}
