// a plate with a hole: triangles, and the lines around it
SetFactory("OpenCASCADE");
Rectangle(1) = {0, 0, 0, 4, 2};
Disk(2) = {1.2, 1, 0, 0.4};
BooleanDifference(3) = { Surface{1}; Delete; }{ Surface{2}; Delete; };
Mesh.MeshSizeMin = 0.8;
Mesh.MeshSizeMax = 1.2;
Physical Surface("plate") = {3};
Physical Curve("edge") = {1, 2, 3, 4, 5};
