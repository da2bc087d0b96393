// A prism over a pentagon, two layers of hexahedra: quads by recombination, then extruded.
For k In {1:5}
  Point(k) = {Cos(2*Pi*k/5), Sin(2*Pi*k/5), 0, 0.9};
EndFor
For k In {1:5}
  Line(k) = {k, k < 5 ? k + 1 : 1};
EndFor
Curve Loop(1) = {1:5};
Plane Surface(1) = {1};
Recombine Surface {1};
Mesh.RecombinationAlgorithm = 3;
Extrude {0, 0, 1} { Surface{1}; Layers{2}; Recombine; }
Physical Volume(1) = {1};
