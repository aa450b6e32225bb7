#!/usr/bin/env bash
# Packs as GDAL makes them, checked. Not part of the gate: it needs GDAL (Debian and Ubuntu: apt-get install gdal-bin)
# and the proved library (cd crates/desterlin && rt lib).
#
#     samples/packs/with-gdal.sh [FOLDER]      FOLDER keeps the packs; without it they are thrown away
#
# All of them are good but the last. docs/RULES.md and docs/METADATA.md, "What real packs show", say why some have
# findings all the same.
set -euo pipefail
cd "$(dirname "$0")/../.."

command -v gdal_create > /dev/null || { echo "there is no GDAL 3.2 or newer here (command gdal_create)" >&2; exit 2; }
if [[ $# -gt 0 ]]; then
  folder=$1
  mkdir -p "$folder"
else
  folder=$(mktemp -d)
  trap 'rm -rf "$folder"' EXIT
fi

# Makes a pack of one raster: its name, words for it, reference system, left, top, pixel size, and what else
# gdal_translate is to be told.
make_and_check() {
  local name=$1 words=$2 srs=$3 left=$4 top=$5 pixel=$6
  shift 6
  local right bottom
  right=$(awk -v a="$left" -v p="$pixel" 'BEGIN { printf "%.17g", a + 1024 * p }')
  bottom=$(awk -v a="$top" -v p="$pixel" 'BEGIN { printf "%.17g", a - 1024 * p }')
  rm -f "$folder/$name.tif" "$folder/$name.gpkg"
  gdal_create -q -of GTiff -outsize 1024 1024 -bands 3 -burn 120 -a_srs "$srs" \
    -a_ullr "$left" "$top" "$right" "$bottom" "$folder/$name.tif"
  gdal_translate -q -of GPKG -co TILE_FORMAT=PNG "$@" "$folder/$name.tif" "$folder/$name.gpkg"
  gdaladdo -q -r nearest "$folder/$name.gpkg" 2 4
  rm -f "$folder/$name.tif"
  check "$name" "$words"
}

check() {
  echo "== $2"
  tools/gpkg-check "$folder/$1.gpkg" || [[ $? -eq 1 ]]
  echo
}

# Renames a table by SQL, and in contents, matrix sets and matrices, as somebody does who knows of no other place.
rename_by_hand() {
  python3 - "$folder/$1.gpkg" "$2" "$3" <<'CODE'
import sqlite3, sys
path, old, new = sys.argv[1:]
with sqlite3.connect(path) as pack:
    pack.execute(f'ALTER TABLE "{old}" RENAME TO "{new}"')
    for table in ["gpkg_contents", "gpkg_tile_matrix_set", "gpkg_tile_matrix"]:
        pack.execute(f"UPDATE {table} SET table_name = ? WHERE table_name = ?", [new, old])
CODE
}

make_and_check whole "pixels of 1 m" EPSG:32632 500000 5201024 1
make_and_check tenth "pixels of 0.1 m, far from the origin" EPSG:32632 500000 5200102.4 0.1
make_and_check second "pixels of one arc-second" EPSG:4326 7 47 0.00027777777777777778
make_and_check mercator "the tiling scheme GoogleMapsCompatible" EPSG:3857 0 5009377.0856973110 4.7773142671557 \
  -co TILING_SCHEME=GoogleMapsCompatible
make_and_check twentieth "pixels of 0.05 m, their sizes cut to 16 digits" EPSG:32632 500000 5200051.2 0.05
make_and_check degrees "pixels of 0.00001 degrees, a corner cut to 16 digits" EPSG:4326 11 47 0.00001
make_and_check noted "with metadata" EPSG:32632 500000 5201024 1 -mo SURVEYOR=Lena -mo "CAMPAIGN=spring 2026"
cp "$folder/noted.gpkg" "$folder/renamed.gpkg"
rename_by_hand renamed noted other
check renamed "the same, its table renamed by SQL, so that its metadata refers to a table that is gone"
