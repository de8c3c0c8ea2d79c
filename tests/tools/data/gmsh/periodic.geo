// a square whose left and right sides are one
SetFactory("OpenCASCADE");
Rectangle(1) = {0, 0, 0, 1, 1};
Periodic Curve {2} = {4} Translate {1, 0, 0};
Mesh.MeshSizeMin = 0.5;
Mesh.MeshSizeMax = 0.5;
