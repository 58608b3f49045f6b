#!/bin/sh
# Gathers the four real maps that docs/PERFORMANCE.md measures.
#
#   bench/get-maps.sh FOLDER
#
# Downloads Debian's packages with apt-get, and unpacks them in FOLDER. Installs nothing. Two maps are in packages.
# esbuild makes the other two from scripts in packages. FOLDER/maps then contains the four maps, and jquery.min.js,
# the generated text of jquery.min.map.
set -eu
mkdir -p "$1/packages" "$1/maps"
cd "$1"
for package in libjs-jquery libjs-pdf esbuild node-typescript node-babel7-standalone libjs-three \
    libjs-chart.js libjs-lodash libjs-moment libjs-openlayers; do
    ls packages/"$package"_*.deb >/dev/null 2>&1 || (cd packages && apt-get download "$package" >&2)
    dpkg -x packages/"$package"_*.deb root
done
scripts=$PWD/root/usr/share/javascript
modules=$PWD/root/usr/share/nodejs
cp "$(readlink -f "$scripts/jquery/jquery.min.map")" "$(readlink -f "$scripts/jquery/jquery.min.js")" maps/
cp "$scripts/pdf/build/pdf.worker.js.map" maps/
cat > bundle.js <<END
export const a = require("$modules/typescript/lib/typescript.js");
export const b = require("$modules/@babel/standalone/babel.js");
export const c = require("$scripts/three/three.js");
export const d = require("$scripts/chart.js/chart.js");
export const e = require("$scripts/lodash/lodash.js");
export const f = require("$scripts/moment/moment-with-locales.js");
export const g = require("$scripts/openlayers/OpenLayers.js");
export const h = require("$scripts/pdf/build/pdf.worker.js");
export const i = require("$modules/typescript/lib/tsserverlibrary.js");
END
minify() {
    root/usr/bin/esbuild "$1" --minify --sourcemap --sources-content=false --log-level=error \
        --outfile="made/$2.min.js" --bundle --platform=node --external:canvas --external:fs
    mv "made/$2.min.js.map" maps/
}
minify bundle.js bundle
root/usr/bin/esbuild "$modules/typescript/lib/typescript.js" --minify --sourcemap \
    --sources-content=false --log-level=error --outfile=made/typescript.min.js
mv made/typescript.min.js.map maps/
ls -l maps >&2
