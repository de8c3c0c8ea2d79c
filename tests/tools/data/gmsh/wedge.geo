// a wedge
Point(1) = {0, 0, 0, 2}; Point(2) = {1, 0, 0, 2}; Point(3) = {0, 1, 0, 2};
Line(1) = {1, 2}; Line(2) = {2, 3}; Line(3) = {3, 1};
Transfinite Curve {1, 2, 3} = 2;
Curve Loop(1) = {1, 2, 3};
Plane Surface(1) = {1};
Transfinite Surface {1};
Extrude {0, 0, 1} { Surface{1}; Layers{1}; Recombine; }
