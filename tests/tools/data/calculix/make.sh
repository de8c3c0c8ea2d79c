#!/usr/bin/env bash
# Makes the meshes of this folder anew, by CalculiX's cgx (version 2.20), and lets ccx solve the deck. The tests need neither.
set -eu
cd "$(dirname "$0")"

# mesh TYPE DIVISIONS OUT: two bricks in a row; the divisions are along x, y and z
mesh() {
  local folder
  folder=$(mktemp -d)
  cat > "$folder/part.fbd" << END
seto part
pnt p1 0 0 0
swep part p2 tra 4 0 0 $2
swep part p3 tra 0 1 0 $3
swep part p4 tra 0 0 1 $4
setc
elty part $1
mesh part
send part abq
quit
END
  (cd "$folder" && cgx -bg part.fbd > cgx.log)
  mv "$folder/part.msh" "$5"
  rm -r "$folder"
}

mesh he8 2 1 1 bar8.msh
mesh he20 4 2 2 bar20.msh
folder=$(mktemp -d)
cp beam.inp bar20.msh "$folder"
(cd "$folder" && ccx beam | tail -n 3)
rm -r "$folder"
