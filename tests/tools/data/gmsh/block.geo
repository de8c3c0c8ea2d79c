// two bricks in a row
Point(1) = {0, 0, 0, 1};
Extrude {2, 0, 0} { Point{1}; Layers{2}; Recombine; }
Extrude {0, 1, 0} { Curve{1}; Layers{1}; Recombine; }
Extrude {0, 0, 1} { Surface{5}; Layers{1}; Recombine; }
