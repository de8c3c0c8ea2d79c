#!/usr/bin/env bash
# Makes the meshes of this folder anew, by Gmsh 4.8.4. The tests read them as they are and need no Gmsh.
set -eu
cd "$(dirname "$0")"

# save NAME.geo DIMENSION FORMAT OUT OPTION..
save() {
  gmsh "$1" "-$2" -format "$3" -o "$4" -v 1 "${@:5}"
}

# second order without the nodes in the middle of faces and bricks
edges=(-setnumber Mesh.SecondOrderIncomplete 1)
for format in msh22:_22.msh msh41:_41.msh inp:.inp bdf:.bdf; do
  kind=${format%:*} end=${format#*:}
  save plate.geo 2 "$kind" "plate3$end" -order 1
  save block.geo 3 "$kind" "block20$end" -order 2 "${edges[@]}"
  save block.geo 3 "$kind" "block27$end" -order 2
  save wedge.geo 3 "$kind" "wedge15$end" -order 2 "${edges[@]}"
  save wedge.geo 3 "$kind" "wedge18$end" -order 2
  save cube.geo 3 "$kind" "cube10$end" -order 2
done
# Gmsh has no pyramids in .inp: it leaves them out there, but for their names in sets
save pyramid.msh 3 inp pyramid14.inp -order 2
for format in msh22:_22.msh msh41:_41.msh bdf:.bdf; do
  save pyramid.msh 3 "${format%:*}" "pyramid13${format#*:}" -order 2 "${edges[@]}"
  save pyramid.msh 3 "${format%:*}" "pyramid14${format#*:}" -order 2
done
# bulk data in free and in large field
save block.geo 3 bdf block8_free.bdf -order 1 -setnumber Mesh.BdfFieldFormat 0
save block.geo 3 bdf block8_large.bdf -order 1 -setnumber Mesh.BdfFieldFormat 2
for format in 22 41; do
  save block.geo 3 "msh$format" "block8_$format.msh" -order 1
  save block.geo 3 "msh$format" "block64_$format.msh" -order 3
  save plate.geo 2 "msh$format" "plate6_$format.msh" -order 2
done
save periodic.geo 2 msh41 periodic_41.msh
