#!/usr/bin/env bash
# wave-picture.sh CASES N PNG: a picture of the waveform that bench/wave.sh writes, as GTKWave shows it, for a page such
# as docs/WAVE.md. In place of CASES a waveform of N cells, a file that ends in .vcd, as demo/run.sh leaves it. It needs no
# screen: the viewer runs on a virtual one (Debian's xvfb), and imagemagick takes the picture; what is missing is
# installed from Debian's packages.
set -euo pipefail
[ $# -eq 3 ] || { echo "usage: bash bench/wave-picture.sh CASES N PNG" >&2; exit 2; }
here=$(dirname "$(realpath -- "$0")")
picture=$(realpath -- "$3")
missing=()
command -v gtkwave >/dev/null || missing+=(gtkwave)
command -v xvfb-run >/dev/null || missing+=(xvfb xauth)
command -v import >/dev/null || missing+=(imagemagick)
if [ "${#missing[@]}" -gt 0 ]; then
    apt-get update >&2
    apt-get install -y --no-install-recommends "${missing[@]}" >&2
fi
room=$(mktemp -d)
trap 'rm -rf "$room"' EXIT
case $1 in
    *.vcd) cp -- "$1" "$room/cells.vcd" ;;
    *) bash "$here/wave.sh" "$1" "$2" >"$room/cells.vcd" ;;
esac
height=$((125 + 21 * $2))

# all signals, and all of the time
cat >"$room/show.tcl" <<'TCL'
set names {}
for {set i 0} {$i < [gtkwave::getNumFacs]} {incr i} { lappend names [gtkwave::getFacName $i] }
gtkwave::addSignalsFromList $names
gtkwave::/Time/Zoom/Zoom_Full
TCL
printf '%s\n' 'hide_sst 1' 'splash_disable 1' 'initial_window_x 900' "initial_window_y $height" >"$room/rc"
cat >"$room/take.sh" <<'TAKE'
gtkwave --rcfile rc --script show.tcl --nomenu cells.vcd >gtkwave.log 2>&1 &
viewer=$!
for ((i = 0; i < 60; i++)); do
    sleep 1
    if grep -q 'Executing Tcl script' gtkwave.log; then break; fi
done
sleep 4
import -window root -depth 8 -strip picture.png
kill "$viewer"
TAKE
(cd "$room" && xvfb-run -a -s "-screen 0 900x${height}x24" bash take.sh)
cp "$room/picture.png" "$picture"
